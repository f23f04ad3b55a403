//! The octet reader.
use crate::library::{self, Lent};
use crate::{Choices, Error, Reading, Tables, Utterance, MULTIFRAME_INDICES, MULTIFRAME_REPORT};

/// `read_into` reads received octets into lent buffers: all frames to `index`, 168 octets a multiframe, and a header note and twelve pair
/// notes to `report`, 13 octets a multiframe. Octets beyond them stay.
///
/// Refusals: 10 and 12 to 20, and neither buffer is touched. (11 is given by [`Tables::new`].) By [`Choices::DEFAULT`] an only multiframe
/// is refused with 16. A caller who cannot know the number of multiframes lends buffers for
/// [`most_multiframes`](crate::most_multiframes).
///
/// ```
/// use dsr::{read_into, write_into, Choices, FrontEnd, Rate, Settings, Tables};
/// let settings = Settings::new(Rate::Khz11, FrontEnd::NoiseRobust);
/// let (mut image, mut index, mut report) = ([0; 288], [0; 336], [0; 26]);
/// write_into(settings, &[5, 12, 63, 0, 7, 9, 255].repeat(24), &mut image)?;
/// let heard = read_into(&image, &Tables::ZEROS, Choices::DEFAULT, &mut index, &mut report)?;
/// assert_eq!((heard.reading.settings, heard.reading.speech, heard.reading.end), (settings, 24, true));
/// assert_eq!(heard.frames().next(), Some(&[5, 12, 63, 0, 7, 9, 255]));
/// # Ok::<(), dsr::Error>(())
/// ```
pub fn read_into<'b>(
    octets: &[u8],
    tables: &Tables<'_>,
    choices: Choices,
    index: &'b mut [u8],
    report: &'b mut [u8],
) -> Result<Utterance<&'b [u8]>, Error> {
    let reading = read_octets(octets, tables, choices, (index, report))?;
    Ok(lent_part(reading, index, report))
}

/// `read` reads received octets as [`read_into`] does, and gives the utterance in vectors of its own. Refusals: 10, 12 to 17 and
/// 20; there is always room.
///
/// ```
/// use dsr::{read, write, Choices, FrontEnd, PairNote, Rate, Settings, Tables};
/// let settings = Settings::new(Rate::Khz8, FrontEnd::Standard);
/// let mut image = write(settings, &[5, 12, 63, 0, 7, 9, 255].repeat(24))?;
/// image[17] ^= 1; // the link flips a bit of the first pair's CRC
/// let heard = read(&image, &Tables::ZEROS, Choices::DEFAULT)?;
/// assert_eq!((heard.reading.speech, heard.reading.bad), (24, 1));
/// let bad: Vec<usize> = heard.pairs().enumerate().filter(|(_, pair)| pair.note.is_bad()).map(|(q, _)| q).collect();
/// assert_eq!(bad, [0]);
/// # Ok::<(), dsr::Error>(())
/// ```
#[cfg(feature = "alloc")]
pub fn read(octets: &[u8], tables: &Tables<'_>, choices: Choices) -> Result<Utterance<alloc::vec::Vec<u8>>, Error> {
    let (mut index, mut report) = rooms(octets);
    let reading = read_octets(octets, tables, choices, (&mut index, &mut report))?;
    Ok(own_part(reading, index, report))
}

fn read_octets(
    octets: &[u8],
    tables: &Tables<'_>,
    choices: Choices,
    (index, report): (&mut [u8], &mut [u8]),
) -> Result<Reading, Error> {
    let lent = Lent { codebook: tables.codebook(), thresholds: tables.thresholds(), index, report };
    let (mut answer, mut place) = ([0; 6], 0);
    let status = library::read(octets, choices.number(), lent, &mut answer, &mut place);
    Error::check(status, place)?;
    Ok(Reading::of(answer))
}

/// The utterance in the first octets of lent buffers.
pub(crate) fn lent_part<'b>(reading: Reading, index: &'b [u8], report: &'b [u8]) -> Utterance<&'b [u8]> {
    let (index_octets, report_octets) = octets_of(reading);
    Utterance::new(reading, &index[..index_octets], &report[..report_octets])
}

/// The utterance in the first octets of vectors, which are cut to it.
#[cfg(feature = "alloc")]
pub(crate) fn own_part(
    reading: Reading,
    mut index: alloc::vec::Vec<u8>,
    mut report: alloc::vec::Vec<u8>,
) -> Utterance<alloc::vec::Vec<u8>> {
    let (index_octets, report_octets) = octets_of(reading);
    index.truncate(index_octets);
    report.truncate(report_octets);
    Utterance::new(reading, index, report)
}

/// The numbers of index octets and of report octets of a reading.
fn octets_of(reading: Reading) -> (usize, usize) {
    (MULTIFRAME_INDICES * reading.multiframes, MULTIFRAME_REPORT * reading.multiframes)
}

/// An index buffer and a report buffer for as many multiframes as the octets can hold.
#[cfg(feature = "alloc")]
pub(crate) fn rooms(octets: &[u8]) -> (alloc::vec::Vec<u8>, alloc::vec::Vec<u8>) {
    let most = crate::most_multiframes(octets.len());
    (alloc::vec![0; MULTIFRAME_INDICES * most], alloc::vec![0; MULTIFRAME_REPORT * most])
}
