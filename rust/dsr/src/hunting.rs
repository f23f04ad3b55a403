//! The hunt for a multiframe at any bit, and the reader that hunts.
use crate::library::{self, Lent};
use crate::reading::lent_part;
use crate::{Choices, Error, HuntRefused, Reading, Tables, Utterance};

/// Where a hunt ended.
#[derive(Debug, Clone, Copy, PartialEq, Eq, Hash)]
pub struct Hunted {
    /// The multiframe's first bit. Bit t is in octet t / 8, with value 2^(t % 8).
    pub place: u64,
    /// The number of places tested, this one among them.
    pub tested: u64,
}

/// `hunt` finds the smallest place from bit `from` on with 1,152 bits left where at least `least` (12 to 16) of the 16 bits match the
/// sync and the header behind them is readable.
///
/// Refusals: 21, `least` outside 12 to 16; 22, no such place.
///
/// ```
/// use dsr::{hunt, write_into, Error, FrontEnd, Rate, Settings};
/// let mut modem = [0; 150];
/// write_into(Settings::new(Rate::Khz8, FrontEnd::Standard), &[], &mut modem[3..])?;
/// let hunted = hunt(&modem, 0, 14)?;
/// assert_eq!((hunted.place, hunted.tested), (24, 25));
/// let refused = hunt(&modem, 25, 14).unwrap_err();
/// assert_eq!((refused.refusal, refused.tested), (Error::HuntNowhere { place: 25 }, 24));
/// # Ok::<(), dsr::Error>(())
/// ```
pub fn hunt(octets: &[u8], from: u64, least: u64) -> Result<Hunted, HuntRefused> {
    let (mut found, mut tested, mut place) = (0, 0, 0);
    let status = library::hunt(octets, from, least, &mut found, &mut tested, &mut place);
    match Error::check(status, place) {
        Ok(()) => Ok(Hunted { place: found, tested }),
        Err(refusal) => Err(HuntRefused { refusal, tested }),
    }
}

/// What a hunting reading gives: the utterance, and what is to be said of the bits it was found in.
#[derive(Debug, Clone, Copy, PartialEq, Eq, Hash)]
#[non_exhaustive]
pub struct BitsReading<B> {
    /// The utterance, of the multiframes found, one behind the other.
    pub utterance: Utterance<B>,
    /// The number of bits outside the multiframes found, from the first bit searched to the end; inverse syncs and the tail are among them.
    pub outside: u64,
    /// The number of places tested in all hunts together.
    pub tested: u64,
}

/// `read_bits_into` hunts from bit `from` on, takes the 1,152 bits found, hunts on right behind them, and so on to the end. What it found
/// is read as [`read_into`](crate::read_into) does it, with its syncs taken as whole, into lent buffers.
///
/// Refusals: 10, 21, 22 and 15 to 20, in that order, and neither buffer is touched. [`Error::ReadTooMany`] (15) is here a match after 255
/// multiframes, a cut one is none, and its place a bit. By [`Choices::DEFAULT`] a multiframe that alone was found is refused with 16.
///
/// ```
/// use dsr::{read_bits_into, write_into, Choices, FrontEnd, Rate, Settings, Tables};
/// let mut modem = [0; 294];
/// write_into(Settings::new(Rate::Khz8, FrontEnd::Standard), &[7; 168], &mut modem[3..])?;
/// modem[3] ^= 1; // the link flips a bit of the first sync
/// let (mut index, mut report) = ([0; 336], [0; 26]);
/// let found = read_bits_into(&modem, 0, 14, &Tables::ZEROS, Choices::DEFAULT, &mut index, &mut report)?;
/// assert_eq!((found.utterance.reading.speech, found.outside, found.tested), (24, 48, 26));
/// # Ok::<(), dsr::Error>(())
/// ```
pub fn read_bits_into<'b>(
    octets: &[u8],
    from: u64,
    least: u64,
    tables: &Tables<'_>,
    choices: Choices,
    index: &'b mut [u8],
    report: &'b mut [u8],
) -> Result<BitsReading<&'b [u8]>, Error> {
    let Totals { reading, outside, tested } = read_found(octets, from, least, tables, choices, (index, report))?;
    Ok(BitsReading { utterance: lent_part(reading, index, report), outside, tested })
}

/// `read_bits` hunts and reads as [`read_bits_into`] does, and gives the utterance in vectors of its own. Refusals: 10, 21, 22, 15 to 17
/// and 20; there is always room.
///
/// ```
/// use dsr::{read_bits, write, Choices, FrontEnd, Rate, Settings, Tables};
/// let settings = Settings::new(Rate::Khz8, FrontEnd::Standard);
/// let found = read_bits(&write(settings, &[7; 210])?, 0, 16, &Tables::ZEROS, Choices::DEFAULT)?;
/// assert_eq!((found.utterance.spoken(), found.outside), (&[7; 210][..], 0));
/// # Ok::<(), dsr::Error>(())
/// ```
#[cfg(feature = "alloc")]
pub fn read_bits(
    octets: &[u8],
    from: u64,
    least: u64,
    tables: &Tables<'_>,
    choices: Choices,
) -> Result<BitsReading<alloc::vec::Vec<u8>>, Error> {
    let (mut index, mut report) = crate::reading::rooms(octets);
    let Totals { reading, outside, tested } = read_found(octets, from, least, tables, choices, (&mut index, &mut report))?;
    Ok(BitsReading { utterance: crate::reading::own_part(reading, index, report), outside, tested })
}

/// The eight numbers of a hunting reading.
struct Totals {
    reading: Reading,
    outside: u64,
    tested: u64,
}

fn read_found(
    octets: &[u8],
    from: u64,
    least: u64,
    tables: &Tables<'_>,
    choices: Choices,
    (index, report): (&mut [u8], &mut [u8]),
) -> Result<Totals, Error> {
    let lent = Lent { codebook: tables.codebook(), thresholds: tables.thresholds(), index, report };
    let (mut answer, mut place) = ([0; 8], 0);
    let status = library::read_bits(octets, from, least, choices.number(), lent, &mut answer, &mut place);
    Error::check(status, place)?;
    let [rate, kind, multiframes, speech, bad, end, outside, tested] = answer;
    Ok(Totals { reading: Reading::of([rate, kind, multiframes, speech, bad, end]), outside, tested })
}
