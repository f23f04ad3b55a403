//! The quantiser's tables, which decide whether a pair is consistent.
use crate::{Error, CODEBOOK_NUMBERS, THRESHOLD_NUMBERS};

/// The tables that a reader is lent, with the right lengths.
///
/// A frame's index c (0 to 6) stands for an entry of codebook c, which is two numbers. Codebooks 0 to 5 have 64 entries and begin at number
/// 128c; the seventh has 256 and begins at 768. Entry j is the two numbers from 2j on. Thresholds 2c and 2c+1 are for the two numbers of
/// codebook c. An index pair is flagged if the absolute difference of the two frames' numbers exceeds the threshold for one of the two; a
/// pair of frames is inconsistent if at least two of its seven index pairs are flagged.
///
/// No threshold may be negative. The lengths alone are looked at here; a negative threshold is refused by the proved reading itself, with
/// [`Error::ReadThreshold`] (10) before it looks at the octets.
///
/// ```
/// use dsr::{Error, Tables};
/// let (codebook, thresholds) = (vec![0; 1280], vec![0; 14]);
/// assert_eq!(Tables::new(&codebook, &thresholds), Ok(Tables::ZEROS));
/// assert_eq!(Tables::new(&codebook, &thresholds[1..]), Err(Error::ReadTables { place: 0 }));
/// ```
#[cfg_attr(feature = "alloc", doc = "```")]
#[cfg_attr(not(feature = "alloc"), doc = "```ignore")]
/// use dsr::{read, Choices, Error, Tables};
/// let mut thresholds = [400; 14];
/// thresholds[5] = -1;
/// let tables = Tables::from_arrays(&[0; 1280], &thresholds);
/// assert_eq!(read(&[], &tables, Choices::DEFAULT), Err(Error::ReadThreshold { place: 5 }));
/// ```
#[derive(Debug, Clone, Copy, PartialEq, Eq)]
pub struct Tables<'a> {
    codebook: &'a [i32; CODEBOOK_NUMBERS],
    thresholds: &'a [i32; THRESHOLD_NUMBERS],
}

impl<'a> Tables<'a> {
    /// All numbers 0, as dsrlist has them: every pair is consistent, and only a failed CRC makes one bad.
    pub const ZEROS: Tables<'static> = Tables { codebook: &[0; CODEBOOK_NUMBERS], thresholds: &[0; THRESHOLD_NUMBERS] };

    /// `new` borrows tables of any length, and gives [`Error::ReadTables`] (11) if they are not 1,280 numbers and 14. It takes negative
    /// thresholds; a reading refuses them.
    pub fn new(codebook: &'a [i32], thresholds: &'a [i32]) -> Result<Tables<'a>, Error> {
        match (codebook.try_into(), thresholds.try_into()) {
            (Ok(codebook), Ok(thresholds)) => Ok(Tables { codebook, thresholds }),
            _ => Err(Error::ReadTables { place: 0 }),
        }
    }

    /// `from_arrays` borrows tables whose type says that they have the right lengths. It takes negative thresholds; a reading refuses them.
    pub const fn from_arrays(codebook: &'a [i32; CODEBOOK_NUMBERS], thresholds: &'a [i32; THRESHOLD_NUMBERS]) -> Tables<'a> {
        Tables { codebook, thresholds }
    }

    /// `codebook` gives the seven codebooks, one behind the other.
    pub const fn codebook(&self) -> &'a [i32; CODEBOOK_NUMBERS] {
        self.codebook
    }

    /// `thresholds` gives the thresholds, two for each codebook.
    pub const fn thresholds(&self) -> &'a [i32; THRESHOLD_NUMBERS] {
        self.thresholds
    }
}
