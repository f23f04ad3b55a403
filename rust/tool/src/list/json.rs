//! A reading as one line of JSON. docs/TOOL.md has the schema; `schema` is its number, raised when a field changes its meaning or goes.
use std::ffi::OsStr;
use std::fmt::Write;

use dsr::{FrontEnd, HeaderNote, PairNote, Rate};

use super::notes::{headers, replaced, Run, MULTIFRAME_HUNDREDTHS, PAIR_HUNDREDTHS};
use crate::explain;
use crate::reader::Heard;
use crate::summary::{is_end_replaced, seconds};

const SCHEMA: u32 = 1;

/// A recording that was read.
pub fn read(file: &OsStr, status: u8, heard: &Heard) -> String {
    let utterance = &heard.utterance;
    let reading = &utterance.reading;
    let mut line = begun(file, "read", status);
    let _ = write!(
        line,
        r#","rate_khz":{},"front_end":{}"#,
        khz(reading.settings.rate),
        quoted(front_end(reading.settings.front_end))
    );
    let _ = write!(line, r#","multiframes":{},"speech_frames":{}"#, reading.multiframes, reading.speech);
    let _ = write!(line, r#","speech_seconds":{}"#, seconds(reading.speech));
    let _ = write!(line, r#","bad_pairs":{},"end_seen":{}"#, reading.bad, reading.end);
    let _ = write!(line, r#","end_replaced":{}"#, is_end_replaced(utterance));
    let _ = write!(line, r#","headers":[{}]"#, joined(&headers(utterance), header));
    let _ = write!(line, r#","replaced":[{}]"#, joined(&replaced(utterance), stretch));
    if let Some(found) = heard.found {
        let _ = write!(line, r#","bits_outside":{},"places_tested":{}"#, found.outside, found.tested);
        if let Some(expected) = found.expected {
            let _ = write!(line, r#","bits_expected":{expected}"#);
        }
    }
    line + "}\n"
}

/// A recording that the library refused.
pub fn refused(file: &OsStr, status: u8, refusal: dsr::Error) -> String {
    let (number, place) = (refusal.number(), refusal.place());
    let words = explain::sentence(number, Some(place));
    begun(file, "refused", status) + &format!(r#","refusal":{number},"place":{place},"words":{}"#, quoted(&words)) + "}\n"
}

/// A file that could not be read.
pub fn unreadable(file: &OsStr, status: u8, trouble: &str) -> String {
    begun(file, "unreadable", status) + &format!(r#","words":{}"#, quoted(trouble)) + "}\n"
}

fn begun(file: &OsStr, outcome: &str, status: u8) -> String {
    let file = quoted(&file.to_string_lossy());
    format!(r#"{{"schema":{SCHEMA},"file":{file},"outcome":{},"status":{status}"#, quoted(outcome))
}

fn joined<N>(runs: &[Run<N>], one: impl Fn(&Run<N>) -> String) -> String {
    runs.iter().map(one).collect::<Vec<_>>().join(",")
}

fn header(run: &Run<HeaderNote>) -> String {
    let (flips, step, other) = match run.note {
        HeaderNote::Readable { flips, out_of_step, differs, .. } => (flips, out_of_step, differs),
        HeaderNote::Lost => (0, false, false),
    };
    let lost = run.note == HeaderNote::Lost;
    format!(
        r#"{{{},"note":{},"mended":{flips},"lost":{lost},"out_of_step":{step},"other_settings":{other}}}"#,
        stretch_of(run, "multiframe", MULTIFRAME_HUNDREDTHS),
        run.note
    )
}

fn stretch(run: &Run<PairNote>) -> String {
    format!(r#"{{{},"note":{}}}"#, stretch_of(run, "pair", PAIR_HUNDREDTHS), run.note)
}

/// The first and the last of a run, counted from 1, and its time.
fn stretch_of<N>(run: &Run<N>, what: &str, hundredths: usize) -> String {
    let (from, to) = (seconds(run.first * hundredths), seconds((run.last + 1) * hundredths));
    format!(r#""first_{what}":{},"last_{what}":{},"from_seconds":{from},"to_seconds":{to}"#, run.first + 1, run.last + 1)
}

fn khz(rate: Rate) -> u32 {
    match rate {
        Rate::Khz8 => 8,
        Rate::Khz11 => 11,
        Rate::Khz16 => 16,
    }
}

fn front_end(front_end: FrontEnd) -> &'static str {
    match front_end {
        FrontEnd::Standard => "standard",
        FrontEnd::NoiseRobust => "noise-robust",
    }
}

/// A string of JSON.
fn quoted(text: &str) -> String {
    let mut quoted = String::from("\"");
    for c in text.chars() {
        match c {
            '"' | '\\' => quoted.extend(['\\', c]),
            c if c < ' ' || c == '\u{7f}' => {
                let _ = write!(quoted, "\\u{:04x}", u32::from(c));
            }
            c => quoted.push(c),
        }
    }
    quoted + "\""
}

#[cfg(test)]
mod tests {
    use super::quoted;

    #[test]
    fn what_json_forbids_in_a_string_is_escaped() {
        assert_eq!(quoted("a\"b\\c\nd\u{7f}é"), r#""a\"b\\c\u000ad\u007fé""#);
    }
}
