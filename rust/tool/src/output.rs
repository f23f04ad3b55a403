//! Where a command's result goes: standard output, or a file that appears whole or not at all.
use std::ffi::OsStr;
use std::fs::{self, File, OpenOptions};
use std::io::{self, IsTerminal, Write};
use std::os::unix::fs::{OpenOptionsExt, PermissionsExt};
use std::path::{Path, PathBuf};
use std::time::SystemTime;

use crate::closed;
use crate::failure::{Failure, Outcome};
use crate::input::{shown, STANDARD as STANDARD_OPERAND};

const STANDARD: &str = "standard output";
/// What a new file may be used for, as far as the user's mask allows it.
const USUAL_MODE: u32 = 0o666;
/// As many links in a row as the system follows.
const MOST_LINKS: u32 = 40;

/// Writes all of `octets` to the file of that name, or to standard output if there is none.
pub fn put(name: Option<&OsStr>, octets: &[u8]) -> Outcome<()> {
    match name {
        None => put_standard(octets),
        Some(name) if is_standard(name) => put_standard(octets),
        Some(name) => put_file(Path::new(name), octets).map_err(|error| Failure::system(&shown(name), &error)),
    }
}

/// The names of standard output. Opened anew, a file there would be written from its beginning.
pub fn is_standard(name: &OsStr) -> bool {
    [STANDARD_OPERAND, "/dev/stdout", "/dev/fd/1", "/proc/self/fd/1"].iter().any(|standard| name == *standard)
}

/// Writes octets that are no text: a terminal is no place for them.
pub fn put_binary(name: Option<&OsStr>, octets: &[u8]) -> Outcome<()> {
    if name.is_none_or(is_standard) && io::stdout().is_terminal() {
        return Err(Failure::trouble("standard output is a terminal, and this is no text: name a file by -o"));
    }
    put(name, octets)
}

/// Writes all of `octets` to standard output; a full or closed one is told.
pub fn put_standard(octets: &[u8]) -> Outcome<()> {
    if closed::output() {
        return Err(Failure::trouble(format!("{STANDARD}: closed")));
    }
    let mut standard = io::stdout().lock();
    standard.write_all(octets).and_then(|()| standard.flush()).map_err(|error| Failure::system(STANDARD, &error))
}

/// What is no regular file (a device, a pipe), or is an open file by another name, is written to as it stands. A file is made beside its
/// place under another name, and takes its place when it is whole.
fn put_file(path: &Path, octets: &[u8]) -> io::Result<()> {
    let old = fs::metadata(path).ok();
    let is_open = ["/dev/fd", "/dev/stderr", "/proc"].iter().any(|open| path.starts_with(open));
    let as_it_stands = is_open || old.as_ref().is_some_and(|old| !old.is_file());
    if as_it_stands {
        return OpenOptions::new().write(true).open(path)?.write_all(octets);
    }
    let place = followed(path, MOST_LINKS)?;
    let beside = place.with_file_name(passing_name());
    let mode = old.as_ref().map_or(USUAL_MODE, |old| old.permissions().mode());
    let file = OpenOptions::new().write(true).create_new(true).mode(mode).open(&beside)?;
    let made = fill(file, octets, old).and_then(|()| fs::rename(&beside, &place));
    if made.is_err() {
        let _ = fs::remove_file(&beside);
    }
    made
}

/// The file that a link names, which need not be there yet; a path that is no link itself.
fn followed(path: &Path, links: u32) -> io::Result<PathBuf> {
    match fs::read_link(path) {
        Ok(_) if links == 0 => Err(io::Error::other("a link that leads to itself")),
        // a link's own words are of the folder that it stands in
        Ok(named) => followed(&path.parent().unwrap_or(Path::new("")).join(named), links - 1),
        Err(_) => Ok(path.to_path_buf()),
    }
}

/// Permissions are those of the old file, if there is one; the octets reach the disk before the name does.
fn fill(mut file: File, octets: &[u8], old: Option<fs::Metadata>) -> io::Result<()> {
    file.write_all(octets)?;
    if let Some(old) = old {
        file.set_permissions(old.permissions())?;
    }
    file.sync_all()
}

/// A name that no other run takes, in whatever folder and on whatever machine.
fn passing_name() -> String {
    let now = SystemTime::now().duration_since(SystemTime::UNIX_EPOCH).map_or(0, |time| time.as_nanos());
    format!(".dsr-{}-{now}.part", std::process::id())
}
