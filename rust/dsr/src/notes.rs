//! What a report's octets say.
use core::fmt;

/// What a reading says of a multiframe's header. It comes from a reading or [`HeaderNote::from_octet`] and is not made by hand.
///
/// ```
/// use dsr::HeaderNote;
/// let note = HeaderNote::from_octet(6).unwrap();
/// assert!(matches!(note, HeaderNote::Readable { flips: 2, out_of_step: true, differs: false, .. }));
/// assert_eq!(HeaderNote::from_octet(3), Some(HeaderNote::Lost));
/// ```
#[derive(Debug, Clone, Copy, PartialEq, Eq, Hash)]
pub enum HeaderNote {
    /// A codeword differs from the header in at most two bits, and is taken for it.
    #[non_exhaustive]
    Readable {
        /// The number of flipped bits that were mended, 0 to 2.
        flips: u8,
        /// Whether the header's counter is not the multiframe's position (from 1) modulo 16; in a hunting reading, its position among the
        /// multiframes found. A multiframe is missing or stands twice, or this header was misread.
        out_of_step: bool,
        /// Whether the header's common bits (rate, type and expansion bits) differ from the settled ones.
        differs: bool,
    },
    /// No codeword differs from the header in at most two bits. The multiframe's frames are read all the same.
    Lost,
}

const LOST: u8 = 3;
const OUT_OF_STEP: u8 = 4;
const DIFFERS: u8 = 8;

impl HeaderNote {
    /// `octet` is 01's number of the note: the flips, 4 more if out of step, 8 more if the settings differ; or 3 for lost.
    pub const fn octet(self) -> u8 {
        match self {
            HeaderNote::Readable { flips, out_of_step, differs } => {
                flips + OUT_OF_STEP * out_of_step as u8 + DIFFERS * differs as u8
            }
            HeaderNote::Lost => LOST,
        }
    }

    /// `from_octet` gives the note with that number, if there is one.
    pub const fn from_octet(octet: u8) -> Option<HeaderNote> {
        let flips = octet % OUT_OF_STEP;
        match octet {
            LOST => Some(HeaderNote::Lost),
            0..16 if flips < LOST => {
                Some(HeaderNote::Readable { flips, out_of_step: octet & OUT_OF_STEP != 0, differs: octet & DIFFERS != 0 })
            }
            _ => None,
        }
    }

    /// `is_clean` says whether the header is a codeword, in step and as settled: note 0.
    pub const fn is_clean(self) -> bool {
        self.octet() == 0
    }
}

impl fmt::Display for HeaderNote {
    /// The note's number, as dsrlist prints it.
    fn fmt(&self, f: &mut fmt::Formatter<'_>) -> fmt::Result {
        fmt::Display::fmt(&self.octet(), f)
    }
}

/// What a reading says of a pair of frames.
#[derive(Debug, Clone, Copy, PartialEq, Eq, Hash)]
pub enum PairNote {
    /// 0: the pair stands as it was received.
    Good,
    /// 1: the pair's CRC failed, and a reader has replaced its frames.
    CrcFailed,
    /// 2: bad otherwise. The pair is inconsistent, and the next pair's CRC failed or the pair before is bad. Its frames were replaced.
    BadOtherwise,
}

impl PairNote {
    /// `octet` is 01's number of the note.
    pub const fn octet(self) -> u8 {
        match self {
            PairNote::Good => 0,
            PairNote::CrcFailed => 1,
            PairNote::BadOtherwise => 2,
        }
    }

    /// `from_octet` gives the note with that number, if there is one.
    pub const fn from_octet(octet: u8) -> Option<PairNote> {
        match octet {
            0 => Some(PairNote::Good),
            1 => Some(PairNote::CrcFailed),
            2 => Some(PairNote::BadOtherwise),
            _ => None,
        }
    }

    /// `is_bad` says whether the pair is bad.
    pub const fn is_bad(self) -> bool {
        !matches!(self, PairNote::Good)
    }
}

impl fmt::Display for PairNote {
    /// The note's number, as dsrlist prints it.
    fn fmt(&self, f: &mut fmt::Formatter<'_>) -> fmt::Result {
        fmt::Display::fmt(&self.octet(), f)
    }
}
