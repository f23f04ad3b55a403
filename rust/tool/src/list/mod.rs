//! dsr list: what came of each recording, in words, as JSON or as dsrlist's lines.
mod json;
mod notes;
mod numbers;
mod progress;
mod queue;
mod words;

use std::ffi::{OsStr, OsString};

use crate::arguments::Arguments;
use crate::failure::{self, Failure, Outcome, CLEAN, REFUSED, TROUBLE, WARNED};
use crate::input;
use crate::output;
use crate::reader::{Heard, Reader, Rooms};
use crate::summary::is_without_warning;
use progress::Progress;

/// More workers than this are a slip of the pen.
const MOST_JOBS: usize = 1000;

/// How a recording is shown.
#[derive(Debug, Clone, Copy, PartialEq, Eq)]
enum Form {
    Words,
    Json,
    Numbers,
}

/// What is said of one file, and the exit status that it asks for.
struct Listed {
    text: String,
    /// The line for standard error, if the file could not be read.
    trouble: Option<String>,
    status: u8,
}

/// How all files of a call are listed.
struct Listing {
    reader: Reader,
    form: Form,
    /// Whether dsrlist's lines, which name no file, need a line that does.
    several: bool,
}

/// dsr list.
pub fn run(arguments: &Arguments) -> Outcome<u8> {
    arguments.not_both("json", "numbers")?;
    let files = &arguments.operands;
    let jobs = jobs(arguments)?;
    let form = match (arguments.has("json"), arguments.has("numbers")) {
        (true, _) => Form::Json,
        (_, true) => Form::Numbers,
        _ => Form::Words,
    };
    let listing = Listing { reader: Reader::new(arguments)?, form, several: files.len() > 1 };
    list_all(&listing, files, jobs)
}

fn jobs(arguments: &Arguments) -> Outcome<usize> {
    let processors = std::thread::available_parallelism().map_or(1, usize::from);
    match arguments.number("jobs", processors)? {
        jobs @ 1..=MOST_JOBS => Ok(jobs),
        jobs => Err(arguments.wrong(&format!("--jobs {jobs}: 1 to {MOST_JOBS} files are read at a time"))),
    }
}

/// Lists the files in their order, and gives the largest of their exit statuses.
fn list_all(listing: &Listing, files: &[OsString], jobs: usize) -> Outcome<u8> {
    let mut progress = Progress::new(files.len());
    let mut worst = CLEAN;
    queue::in_order(
        files,
        jobs,
        || (Vec::new(), Rooms::new()),
        |(octets, rooms), file| listing.list(file, octets, rooms),
        |error| Failure::trouble(format!("a worker more cannot be started: {}; --jobs 1 needs one", failure::words_of(&error))),
        |listed| {
            let mut text = String::new();
            for one in listed {
                worst = worst.max(one.status);
                text += &one.text;
                progress.one_more();
                if let Some(trouble) = one.trouble {
                    progress.make_way();
                    output::put_standard(std::mem::take(&mut text).as_bytes())?;
                    failure::tell(&trouble);
                }
            }
            progress.make_way();
            output::put_standard(text.as_bytes())?;
            progress.show();
            Ok(())
        },
    )?;
    Ok(worst)
}

impl Listing {
    /// One file, read into memory that is used again for the next.
    fn list(&self, file: &OsStr, octets: &mut Vec<u8>, rooms: &mut Rooms) -> Listed {
        let came = input::octets_until(file, octets, |beginning| self.reader.has_enough(beginning));
        if let Err(failure) = came {
            return self.unreadable(file, failure);
        }
        match self.reader.read(octets, rooms) {
            Ok(heard) => self.read(file, &heard),
            Err(refusal) => self.refused(file, refusal),
        }
    }

    fn read(&self, file: &OsStr, heard: &Heard) -> Listed {
        let status = if is_without_warning(heard) { CLEAN } else { WARNED };
        let text = match self.form {
            Form::Words => words::read(&input::shown(file), heard),
            Form::Json => json::read(file, status, heard),
            Form::Numbers => self.titled(file, numbers::read(heard)),
        };
        Listed { text, trouble: None, status }
    }

    fn refused(&self, file: &OsStr, refusal: dsr::Error) -> Listed {
        let text = match self.form {
            Form::Words => words::refused(&input::shown(file), refusal),
            Form::Json => json::refused(file, REFUSED, refusal),
            Form::Numbers => self.titled(file, numbers::refused(refusal)),
        };
        Listed { text, trouble: None, status: REFUSED }
    }

    fn unreadable(&self, file: &OsStr, failure: Failure) -> Listed {
        let text = match self.form {
            Form::Json => json::unreadable(file, TROUBLE, failure.line.trim_start_matches(&format!("{}: ", input::shown(file)))),
            _ => String::new(),
        };
        Listed { text, trouble: Some(failure.line), status: TROUBLE }
    }

    /// dsrlist's lines under the name of their file, if there are several.
    fn titled(&self, file: &OsStr, lines: String) -> String {
        if self.several {
            return format!("{}:\n{lines}", input::shown(file));
        }
        lines
    }
}
