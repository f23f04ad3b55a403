//! The settings without the whole utterance.
use crate::library;
use crate::{Choices, Error, Settings};

/// What was settled, and how far that took.
#[derive(Debug, Clone, Copy, PartialEq, Eq, Hash)]
#[non_exhaustive]
pub struct Settled {
    /// The settled rate and front end.
    pub settings: Settings,
    /// The number of multiframes read, 1 to 255. If two or more, the last of them settled, and what stands behind it was not looked at.
    pub multiframes: usize,
}

/// `settle` reads multiframes only until the settings are settled: by the first two headers that agree. No CRC is tried, and the octets
/// behind the settling multiframe are not looked at. So a recording can be asked while it is still being written.
///
/// If [`read_into`](crate::read_into) of the same octets and choices succeeds, its settings are these. If that refuses further on, these
/// are given all the same.
///
/// Refusals: 12 to 17. By [`Choices::DEFAULT`] an answer stays whatever octets follow, and so do 12, 15 and 17; after 13, 14 or 16 more
/// octets can settle, so ask again with all of them. [`Choices::ONE_HEADER_SETTLES`] is for octets that are the whole utterance: while
/// the rest is still to come, it takes the first multiframe for the only one, and its answer can change.
///
/// ```
/// use dsr::{settle, write_into, Choices, Error, FrontEnd, Rate, Settings};
/// let settings = Settings::new(Rate::Khz11, FrontEnd::NoiseRobust);
/// let mut recorded = [0; 432];
/// write_into(settings, &[7; 7 * 60], &mut recorded)?; // three multiframes
/// assert_eq!(settle(&recorded[..144], Choices::DEFAULT), Err(Error::ReadUnsettled { place: 0 }));
/// assert_eq!(settle(&recorded[..287], Choices::DEFAULT), Err(Error::ReadCut { place: 144 }));
/// let settled = settle(&recorded[..288], Choices::DEFAULT)?;
/// assert_eq!((settled.settings, settled.multiframes), (settings, 2));
/// recorded[288..].fill(0); // whatever the recorder holds behind them
/// assert_eq!(settle(&recorded, Choices::DEFAULT), Ok(settled));
/// # Ok::<(), dsr::Error>(())
/// ```
pub fn settle(octets: &[u8], choices: Choices) -> Result<Settled, Error> {
    let (mut answer, mut place) = ([0; 3], 0);
    let status = library::settle(octets, choices.number(), &mut answer, &mut place);
    Error::check(status, place)?;
    let [rate, kind, multiframes] = answer;
    Ok(Settled { settings: Settings::settled(rate, kind), multiframes: multiframes as usize })
}
