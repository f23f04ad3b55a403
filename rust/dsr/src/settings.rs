//! What an utterance's headers say of all of it.
use core::fmt;

use crate::Error;

/// The sample rate of the speech. Code 2 is undefined, so it is no rate.
#[derive(Debug, Clone, Copy, PartialEq, Eq, Hash)]
pub enum Rate {
    /// 8 kHz, code 0.
    Khz8,
    /// 11 kHz, code 1.
    Khz11,
    /// 16 kHz, code 3.
    Khz16,
}

impl Rate {
    /// `code` is the header's number of the rate.
    pub const fn code(self) -> u8 {
        match self {
            Rate::Khz8 => 0,
            Rate::Khz11 => 1,
            Rate::Khz16 => 3,
        }
    }

    /// `from_code` gives the rate with that number, if there is one.
    pub const fn from_code(code: u64) -> Option<Rate> {
        match code {
            0 => Some(Rate::Khz8),
            1 => Some(Rate::Khz11),
            3 => Some(Rate::Khz16),
            _ => None,
        }
    }
}

impl fmt::Display for Rate {
    fn fmt(&self, f: &mut fmt::Formatter<'_>) -> fmt::Result {
        f.write_str(match self {
            Rate::Khz8 => "8 kHz",
            Rate::Khz11 => "11 kHz",
            Rate::Khz16 => "16 kHz",
        })
    }
}

/// The front end that made the frames.
#[derive(Debug, Clone, Copy, PartialEq, Eq, Hash)]
pub enum FrontEnd {
    /// The standard front end, type 0.
    Standard,
    /// The noise robust front end, type 1.
    NoiseRobust,
}

impl FrontEnd {
    /// `code` is the header's number of the front end.
    pub const fn code(self) -> u8 {
        match self {
            FrontEnd::Standard => 0,
            FrontEnd::NoiseRobust => 1,
        }
    }

    /// `from_code` gives the front end with that number, if there is one.
    pub const fn from_code(code: u64) -> Option<FrontEnd> {
        match code {
            0 => Some(FrontEnd::Standard),
            1 => Some(FrontEnd::NoiseRobust),
            _ => None,
        }
    }
}

impl fmt::Display for FrontEnd {
    fn fmt(&self, f: &mut fmt::Formatter<'_>) -> fmt::Result {
        f.write_str(match self {
            FrontEnd::Standard => "standard",
            FrontEnd::NoiseRobust => "noise robust",
        })
    }
}

/// The settings of an utterance. A request of 02 adds a field, so they are made by [`Settings::new`].
///
/// ```
/// use dsr::{Error, FrontEnd, Rate, Settings};
/// let settings = Settings::new(Rate::Khz16, FrontEnd::NoiseRobust);
/// assert_eq!(Settings::from_codes(3, 1), Ok(settings));
/// assert_eq!(Settings::from_codes(256, 0), Err(Error::WriteSettings { place: 0 }));
/// ```
#[derive(Debug, Clone, Copy, PartialEq, Eq, Hash)]
#[non_exhaustive]
pub struct Settings {
    /// The sample rate of the speech.
    pub rate: Rate,
    /// The front end that made the frames.
    pub front_end: FrontEnd,
}

impl Settings {
    /// `new` gives the settings with that rate and front end.
    pub const fn new(rate: Rate, front_end: FrontEnd) -> Settings {
        Settings { rate, front_end }
    }

    /// `from_codes` gives the settings with the header's numbers, or [`Error::WriteSettings`] (1) if there are none.
    pub const fn from_codes(rate: u64, front_end: u64) -> Result<Settings, Error> {
        match (Rate::from_code(rate), FrontEnd::from_code(front_end)) {
            (Some(rate), Some(front_end)) => Ok(Settings { rate, front_end }),
            _ => Err(Error::WriteSettings { place: 0 }),
        }
    }

    /// The settings that a reading settled. The library is proved to give a rate and a type that exist.
    pub(crate) fn settled(rate: u64, kind: u64) -> Settings {
        let rate = Rate::from_code(rate).expect("a settled rate is 0, 1 or 3");
        let front_end = FrontEnd::from_code(kind).expect("a settled type is 0 or 1");
        Settings { rate, front_end }
    }
}

impl fmt::Display for Settings {
    fn fmt(&self, f: &mut fmt::Formatter<'_>) -> fmt::Result {
        write!(f, "{}, {} front end", self.rate, self.front_end)
    }
}
