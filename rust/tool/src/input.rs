//! Octets from a file or from standard input, of any length.
use std::ffi::OsStr;
use std::fs::File;
use std::io::{self, Read};

use crate::closed;
use crate::failure::{one_line, Failure, Outcome};

/// The operand that stands for standard input.
pub const STANDARD: &str = "-";

/// How much is read before it is asked for the first time whether more can change anything.
const FIRST_LOOK: usize = 1 << 20;
/// How much is read at a time: most recordings in one piece.
const PIECE: usize = 1 << 13;

/// The name of an operand as it is shown: on one line, and without what would disturb a terminal.
pub fn shown(name: &OsStr) -> String {
    if name == STANDARD {
        return "standard input".to_string();
    }
    if name.is_empty() {
        return "''".to_string();
    }
    one_line(&name.to_string_lossy())
}

/// All octets of a file, or of standard input for `-`.
pub fn octets(name: &OsStr) -> Outcome<Vec<u8>> {
    let mut buffer = Vec::new();
    octets_until(name, &mut buffer, |_| false)?;
    Ok(buffer)
}

/// Reads all octets into `buffer`, whose content goes; fewer if `enough` says of a long beginning that the rest changes nothing.
pub fn octets_until(name: &OsStr, buffer: &mut Vec<u8>, enough: impl Fn(&[u8]) -> bool) -> Outcome<()> {
    buffer.clear();
    fill(name, buffer, enough).map_err(|error| Failure::system(&shown(name), &error))
}

/// The text of a file; what is no text is told.
pub fn text(name: &OsStr) -> Outcome<String> {
    let text = String::from_utf8(octets(name)?).map_err(|_| Failure::trouble(format!("{}: this is no text", shown(name))))?;
    // some editors put a mark before a text
    Ok(text.strip_prefix('\u{feff}').map(str::to_string).unwrap_or(text))
}

fn fill(name: &OsStr, buffer: &mut Vec<u8>, enough: impl Fn(&[u8]) -> bool) -> io::Result<()> {
    if name == STANDARD {
        if closed::input() {
            return Err(io::Error::other("closed"));
        }
        return drain(io::stdin().lock(), buffer, enough);
    }
    drain(File::open(name)?, buffer, enough)
}

fn drain(mut from: impl Read, buffer: &mut Vec<u8>, enough: impl Fn(&[u8]) -> bool) -> io::Result<()> {
    let (mut piece, mut look) = ([0; PIECE], FIRST_LOOK);
    loop {
        let came = match from.read(&mut piece) {
            Ok(0) => return Ok(()),
            Ok(came) => came,
            Err(error) if error.kind() == io::ErrorKind::Interrupted => continue,
            Err(error) => return Err(error),
        };
        // memory that there is not is told in a line, not by the end of the process
        buffer.try_reserve(came)?;
        buffer.extend_from_slice(&piece[..came]);
        if buffer.len() >= look {
            if enough(buffer) {
                return Ok(());
            }
            look *= 2;
        }
    }
}
