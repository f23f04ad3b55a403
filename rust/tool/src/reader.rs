//! How recordings are to be read, as the options say it, and the calls of the library that read them.
use std::cmp::Ordering;
use std::ffi::OsStr;

use dsr::{Choices, Error, Tables, Utterance, MOST_MULTIFRAMES, MULTIFRAME_INDICES, MULTIFRAME_REPORT};

use crate::arguments::Arguments;
use crate::failure::{Failure, Outcome};
use crate::{input, numbers};

/// The matching bits of a sync that a hunt asks for if nothing is said: 14 forgives two flips.
pub const USUAL_MATCH: u64 = 14;

/// How recordings are to be read.
pub struct Reader {
    codebook: Vec<i32>,
    thresholds: Vec<i32>,
    choices: Choices,
    /// The first bit and the matches asked for, if the recording is bits with no octet boundary.
    hunt: Option<(u64, u64)>,
    /// The bits outside that a hunting reading is expected to have, if that was said.
    expected: Option<u64>,
}

/// What a reading gives.
pub struct Heard<'b> {
    pub utterance: Utterance<&'b [u8]>,
    /// Whether any note is not 0; looked for once.
    pub noted: bool,
    /// Of a hunting reading alone.
    pub found: Option<Found>,
}

/// What a hunting reading says of the bits around what it found.
#[derive(Debug, Clone, Copy, PartialEq, Eq)]
pub struct Found {
    pub outside: u64,
    pub tested: u64,
    /// The bits outside that were expected, if that was said.
    pub expected: Option<u64>,
}

impl Found {
    /// Whether the bits outside are those expected, or nothing was said of them.
    pub fn is_as_expected(&self) -> bool {
        self.expected.is_none_or(|expected| expected == self.outside)
    }
}

/// Memory for any one reading, used again and again.
pub struct Rooms {
    pub index: Vec<u8>,
    pub report: Vec<u8>,
}

impl Rooms {
    pub fn new() -> Rooms {
        Rooms { index: vec![0; MOST_MULTIFRAMES * MULTIFRAME_INDICES], report: vec![0; MOST_MULTIFRAMES * MULTIFRAME_REPORT] }
    }
}

impl Reader {
    /// The reader that a command's options ask for. Tables, or a T, that the library refuses whatever is read are told here, once.
    pub fn new(arguments: &Arguments) -> Outcome<Reader> {
        arguments.only_with("from", "bits")?;
        arguments.only_with("match", "bits")?;
        arguments.only_with("outside", "bits")?;
        arguments.only_with("codebook", "thresholds")?;
        arguments.only_with("thresholds", "codebook")?;
        standard_once(arguments)?;
        let asked = arguments.has("one-header-settles");
        let hunt = match arguments.has("bits") {
            true => Some((arguments.number("from", 0)?, arguments.number("match", USUAL_MATCH)?)),
            false => None,
        };
        let reader = Reader {
            codebook: table(arguments.value("codebook"), Tables::ZEROS.codebook(), "a codebook")?,
            thresholds: table(arguments.value("thresholds"), Tables::ZEROS.thresholds(), "a file of thresholds")?,
            choices: if asked { Choices::ONE_HEADER_SETTLES } else { Choices::DEFAULT },
            hunt,
            expected: arguments.value("outside").map(|value| arguments.parsed("outside", value)).transpose()?,
        };
        reader.admitted(arguments)
    }

    /// Reads octets, or bits, by one call of the library.
    pub fn read<'b>(&self, octets: &[u8], rooms: &'b mut Rooms) -> Result<Heard<'b>, Error> {
        let tables = Tables::new(&self.codebook, &self.thresholds)?;
        let Rooms { index, report } = rooms;
        match self.hunt {
            None => {
                let utterance = dsr::read_into(octets, &tables, self.choices, index, report)?;
                Ok(Heard { utterance, noted: utterance.has_notes(), found: None })
            }
            Some((from, least)) => {
                let bits = dsr::read_bits_into(octets, from, least, &tables, self.choices, index, report)?;
                let found = Some(Found { outside: bits.outside, tested: bits.tested, expected: self.expected });
                Ok(Heard { utterance: bits.utterance, noted: bits.utterance.has_notes(), found })
            }
        }
    }

    /// Whether octets that begin so are refused with 12 or 15 whatever follows them, so that the rest need not be read. It is proved that
    /// a full reading, by the same choice and with tables that are not refused, then refuses all that begins so with that number and place.
    pub fn has_enough(&self, beginning: &[u8]) -> bool {
        let settled = dsr::settle(beginning, self.choices);
        self.hunt.is_none() && matches!(settled, Err(Error::ReadUnknown { .. } | Error::ReadTooMany { .. }))
    }

    /// The library is asked with no octets at all: what it then says of tables or T it says of every recording.
    fn admitted(self, arguments: &Arguments) -> Outcome<Reader> {
        let refusal = self.read(&[], &mut Rooms::new()).err();
        let file = |option| arguments.value(option).map_or(String::new(), input::shown);
        match refusal {
            Some(refusal @ Error::ReadThreshold { .. }) => Err(Failure::refused(&file("thresholds"), refusal)),
            Some(refusal @ Error::ReadTables { .. }) => Err(Failure::refused(&file("codebook"), refusal)),
            Some(refusal @ Error::HuntMatch { .. }) => Err(Failure::refused("--match", refusal)),
            _ => Ok(self),
        }
    }
}

/// Standard input can be read once: it is one recording, or one table.
fn standard_once(arguments: &Arguments) -> Outcome<()> {
    let named = ["codebook", "thresholds", "compare"].iter().filter_map(|option| arguments.value(option));
    let all = arguments.operands.iter().map(|operand| operand.as_os_str()).chain(named);
    if all.filter(|name| *name == input::STANDARD).count() > 1 {
        return Err(arguments.wrong("standard input can be read only once"));
    }
    Ok(())
}

/// The numbers of a table's file, as many as `usual` has; `usual` itself if no file is named.
fn table(name: Option<&OsStr>, usual: &[i32], what: &str) -> Outcome<Vec<i32>> {
    let Some(name) = name else { return Ok(usual.to_vec()) };
    let file = input::shown(name);
    let read: Vec<i32> = numbers::all(&file, &input::text(name)?, "a whole number of 32 bits", usual.len())?;
    let came = match read.len().cmp(&usual.len()) {
        Ordering::Equal => return Ok(read),
        Ordering::Less => format!("{} numbers", read.len()),
        Ordering::Greater => format!("more than {} numbers", usual.len()),
    };
    Err(Failure::trouble(format!("{file}: {came}, and {what} has {}", usual.len())))
}
