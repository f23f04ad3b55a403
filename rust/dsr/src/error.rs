//! The refusals of document 01, and those of document 02 that have landed.
use core::fmt;

use crate::library::{Status, DONE};

macro_rules! refusals {
    ($($name:ident = $number:literal, $words:literal, $meaning:literal;)*) => {
        /// A refusal. Its number and its place are those of document 01 or 02; what the place is depends on the refusal.
        ///
        /// A refusal changes no octet of a lent buffer. More refusals come as the requests of 02 land, so a `match` needs an arm for
        /// the rest.
        ///
        /// ```
        /// use dsr::{write_into, Error, FrontEnd, Rate, Settings};
        /// let settings = Settings::new(Rate::Khz8, FrontEnd::Standard);
        /// let refusal = write_into(settings, &[5; 8], &mut [0; 144]).unwrap_err();
        /// assert_eq!(refusal, Error::WriteIndexCount { place: 8 });
        /// assert_eq!((refusal.number(), refusal.place()), (2, 8));
        /// assert_eq!(refusal.to_string(), "refused 2 8: index octets no multiple of 7 (place: their number)");
        /// ```
        #[derive(Debug, Clone, Copy, PartialEq, Eq, Hash)]
        #[non_exhaustive]
        pub enum Error {
            $(
                #[doc = concat!(stringify!($number), ": ", $words, ".")]
                $name {
                    #[doc = concat!("Place: ", $meaning, ".")]
                    place: u64,
                },
            )*
        }

        impl Error {
            /// `number` is the document's number of the refusal, as in dsr.h.
            pub const fn number(&self) -> u32 {
                match self { $(Error::$name { .. } => $number,)* }
            }

            /// `place` is the refusal's place; [`Error::meaning`] says of what.
            pub const fn place(&self) -> u64 {
                match *self { $(Error::$name { place } => place,)* }
            }

            /// `words` are the document's words for when the refusal is given; those of a hunt's 15 are the library's own.
            pub const fn words(&self) -> &'static str {
                match self { $(Error::$name { .. } => $words,)* }
            }

            /// `meaning` says what the place is.
            pub const fn meaning(&self) -> &'static str {
                match self { $(Error::$name { .. } => $meaning,)* }
            }

            /// `new` gives the refusal with that number, if there is one.
            pub const fn new(number: u32, place: u64) -> Option<Error> {
                match number { $($number => Some(Error::$name { place }),)* _ => None }
            }
        }
    };
}

refusals! {
    WriteSettings = 1, "rate not 0, 1 or 3, or type above 1", "0";
    WriteIndexCount = 2, "index octets no multiple of 7", "their number";
    WriteFrameCount = 3, "more than 6,119 frames", "frame count";
    WriteIndexValue = 4, "one of the first six indices of a frame above 63", "first such frame, from 1";
    WriteZeroFrame = 5, "an all-zero frame that is the last, or whose number is a multiple of 24", "first such frame, from 1";
    WriteOutputShort = 6, "output shorter than 144m", "octets needed";
    ReadThreshold = 10, "a negative threshold", "the first one's number, from 0";
    ReadTables = 11, "codebook not 1,280 or thresholds not 14", "0";
    ReadUnknown = 12, "octets at p begin nothing known", "p";
    ReadCut = 13, "sync with too few octets, or a lone last 87 or 78", "p";
    ReadNoMultiframe = 14, "no multiframe", "octet count";
    ReadTooMany = 15, "a sync after 255 multiframes, even a cut one; in a hunt a match", "p, in a hunt the bit";
    ReadUnsettled = 16, "settings not settled", "0";
    ReadSettings = 17, "settled rate is 2 or any EXP is 1", "0";
    ReadIndexShort = 18, "index buffer under 168m", "octets needed";
    ReadReportShort = 19, "report buffer under 13m", "octets needed";
    ReadAllBad = 20, "every pair bad", "0";
    HuntMatch = 21, "T outside 12 to 16", "T";
    HuntNowhere = 22, "no place found by the first hunt", "the first bit searched";
}

impl Error {
    /// Nothing for success, else the refusal. dsr.h's own numbers, from 96 on, never come here: the types of the callers rule them out.
    pub(crate) fn check(status: Status, place: u64) -> Result<(), Error> {
        match status {
            DONE => Ok(()),
            number => Err(Error::new(number, place).expect("the library answers with a number of the documents")),
        }
    }
}

impl fmt::Display for Error {
    fn fmt(&self, f: &mut fmt::Formatter<'_>) -> fmt::Result {
        write!(f, "refused {} {}: {} (place: {})", self.number(), self.place(), self.words(), self.meaning())
    }
}

impl core::error::Error for Error {}

/// A refused hunt: the refusal, and the number of places tested all the same. It becomes the [`Error`] alone by `?`.
#[derive(Debug, Clone, Copy, PartialEq, Eq, Hash)]
pub struct HuntRefused {
    /// The refusal: [`Error::HuntMatch`] or [`Error::HuntNowhere`].
    pub refusal: Error,
    /// The number of places tested: 0, or as many as have 1,152 bits left from the first bit searched on.
    pub tested: u64,
}

impl From<HuntRefused> for Error {
    fn from(refused: HuntRefused) -> Error {
        refused.refusal
    }
}

impl fmt::Display for HuntRefused {
    fn fmt(&self, f: &mut fmt::Formatter<'_>) -> fmt::Result {
        write!(f, "{}, {} places tested", self.refusal, self.tested)
    }
}

impl core::error::Error for HuntRefused {
    fn source(&self) -> Option<&(dyn core::error::Error + 'static)> {
        Some(&self.refusal)
    }
}
