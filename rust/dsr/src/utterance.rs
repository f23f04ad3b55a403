//! What a reading gives: numbers on the whole, frames and notes.
use crate::{Frame, HeaderNote, PairNote, Settings, FRAME_INDICES, MULTIFRAME_INDICES, MULTIFRAME_PAIRS, MULTIFRAME_REPORT};

const PAIR_INDICES: usize = 2 * FRAME_INDICES;

/// What a reading says of an utterance as a whole.
#[derive(Debug, Clone, Copy, PartialEq, Eq, Hash)]
#[non_exhaustive]
pub struct Reading {
    /// The settled rate and front end.
    pub settings: Settings,
    /// The number of multiframes, m: 1 to 255.
    pub multiframes: usize,
    /// The number of frames of speech: 24(m-1) plus the place (1 to 24, 0 if none) of the last nonzero frame of the last multiframe,
    /// after replacing.
    pub speech: usize,
    /// The number of bad pairs, which were replaced.
    pub bad: usize,
    /// Whether the last frame is zero after replacing, which marks the end of an utterance. If not, the end is missing.
    pub end: bool,
}

impl Reading {
    /// The six numbers of a success, in dsr.h's order.
    pub(crate) fn of([rate, kind, multiframes, speech, bad, end]: [u64; 6]) -> Reading {
        Reading {
            settings: Settings::settled(rate, kind),
            multiframes: multiframes as usize,
            speech: speech as usize,
            bad: bad as usize,
            end: end == 1,
        }
    }
}

/// An utterance as it was read. Its octets lie in vectors of its own (`Utterance<Vec<u8>>`, from [`read`](crate::read) and
/// [`read_bits`](crate::read_bits)) or in lent buffers (`Utterance<&[u8]>`, from [`read_into`](crate::read_into) and
/// [`read_bits_into`](crate::read_bits_into)).
#[derive(Debug, Clone, Copy, PartialEq, Eq, Hash)]
pub struct Utterance<B> {
    /// What the reading says of the utterance as a whole.
    pub reading: Reading,
    index: B,
    report: B,
}

impl<B: AsRef<[u8]>> Utterance<B> {
    /// The index octets and report octets have to be those of the reading's multiframes, no more and no less.
    pub(crate) fn new(reading: Reading, index: B, report: B) -> Utterance<B> {
        Utterance { reading, index, report }
    }

    /// `indices` gives the index octets of all frames in order, seven each: 168 for each multiframe, padding too.
    pub fn indices(&self) -> &[u8] {
        self.index.as_ref()
    }

    /// `spoken` gives the index octets of the frames of speech, without the padding: what [`write_into`](crate::write_into) takes.
    pub fn spoken(&self) -> &[u8] {
        &self.indices()[..FRAME_INDICES * self.reading.speech]
    }

    /// `report` gives the report octets: for each multiframe a header note and twelve pair notes.
    pub fn report(&self) -> &[u8] {
        self.report.as_ref()
    }

    /// `has_notes` says whether any note is not 0. What an utterance with no note and its end seen can be trusted for is said in
    /// docs/TRUST.md.
    pub fn has_notes(&self) -> bool {
        self.report().iter().any(|note| *note != 0)
    }

    /// `frames` goes through all frames in order, padding too; those of bad pairs are replaced ones.
    pub fn frames(&self) -> impl ExactSizeIterator<Item = &Frame> + DoubleEndedIterator + Clone + '_ {
        frames_of(self.indices())
    }

    /// `pairs` goes through all pairs of frames in order, each with its note. Pairs run on through all multiframes.
    pub fn pairs(&self) -> impl ExactSizeIterator<Item = Pair<'_>> + DoubleEndedIterator + Clone + '_ {
        let report = self.report();
        let note = |q: usize| report[q / MULTIFRAME_PAIRS * MULTIFRAME_REPORT + 1 + q % MULTIFRAME_PAIRS];
        self.indices().chunks_exact(PAIR_INDICES).enumerate().map(move |(q, frames)| Pair::of(note(q), frames))
    }

    /// `multiframes` goes through the multiframes in order, each with its header note, its frames and its pairs.
    ///
    /// A listing as dsrlist prints it, of a buffer that was lent:
    ///
    /// ```
    /// use dsr::{read_into, write_into, Choices, FrontEnd, Rate, Settings, Tables};
    /// let mut image = [0; 288];
    /// write_into(Settings::new(Rate::Khz8, FrontEnd::Standard), &[7; 168], &mut image)?;
    /// image[144 + 6] ^= 1; // a flip in the first pair of the second multiframe
    /// let (mut index, mut report) = ([0; 336], [0; 26]);
    /// let heard = read_into(&image, &Tables::ZEROS, Choices::DEFAULT, &mut index, &mut report)?;
    /// let mut lines = Vec::new();
    /// for multiframe in heard.multiframes() {
    ///     let notes: String = multiframe.pairs().map(|pair| pair.note.to_string()).collect();
    ///     lines.push(format!("{} {notes}", multiframe.header()));
    /// }
    /// assert_eq!(lines, ["0 000000000000", "0 100000000000"]);
    /// # Ok::<(), dsr::Error>(())
    /// ```
    pub fn multiframes(&self) -> impl ExactSizeIterator<Item = Multiframe<'_>> + DoubleEndedIterator + Clone + '_ {
        let indices = self.indices().chunks_exact(MULTIFRAME_INDICES);
        let reports = self.report().chunks_exact(MULTIFRAME_REPORT);
        indices.zip(reports).map(|(indices, report)| Multiframe { indices, report })
    }
}

/// A multiframe as it was read: 24 frames in twelve pairs, and its notes.
#[derive(Debug, Clone, Copy, PartialEq, Eq, Hash)]
pub struct Multiframe<'a> {
    indices: &'a [u8],
    report: &'a [u8],
}

impl<'a> Multiframe<'a> {
    /// `header` is what the reading says of the multiframe's header.
    pub fn header(&self) -> HeaderNote {
        HeaderNote::from_octet(self.report[0]).expect("a reading gives header notes of 01")
    }

    /// `indices` gives the 168 index octets of the multiframe's frames.
    pub fn indices(&self) -> &'a [u8] {
        self.indices
    }

    /// `frames` goes through the multiframe's 24 frames.
    pub fn frames(&self) -> impl ExactSizeIterator<Item = &'a Frame> + DoubleEndedIterator + Clone + 'a {
        frames_of(self.indices)
    }

    /// `pairs` goes through the multiframe's twelve pairs, each with its note.
    pub fn pairs(&self) -> impl ExactSizeIterator<Item = Pair<'a>> + DoubleEndedIterator + Clone + 'a {
        let frames = self.indices.chunks_exact(PAIR_INDICES);
        self.report[1..].iter().zip(frames).map(|(note, frames)| Pair::of(*note, frames))
    }
}

/// A pair of frames as it was read.
#[derive(Debug, Clone, Copy, PartialEq, Eq, Hash)]
#[non_exhaustive]
pub struct Pair<'a> {
    /// What the reading says of the pair.
    pub note: PairNote,
    /// Its two frames; of a bad pair, the good neighbours that replace them.
    pub frames: [&'a Frame; 2],
}

impl<'a> Pair<'a> {
    /// The pair with that note and those fourteen index octets.
    fn of(note: u8, frames: &'a [u8]) -> Pair<'a> {
        let (first, second) = frames.split_at(FRAME_INDICES);
        Pair {
            note: PairNote::from_octet(note).expect("a reading gives pair notes of 01"),
            frames: [frame_of(first), frame_of(second)],
        }
    }
}

fn frames_of(indices: &[u8]) -> impl ExactSizeIterator<Item = &Frame> + DoubleEndedIterator + Clone + '_ {
    indices.chunks_exact(FRAME_INDICES).map(frame_of)
}

fn frame_of(indices: &[u8]) -> &Frame {
    indices.try_into().expect("a frame has seven index octets")
}
