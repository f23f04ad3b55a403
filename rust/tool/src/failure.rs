//! What ends a command before its time: one line on standard error, and an exit status.
use std::io::{self, Write};

/// Exit status: read without a warning, or done.
pub const CLEAN: u8 = 0;
/// Exit status: read, with a note or without its end.
pub const WARNED: u8 = 1;
/// Exit status: refused by the library.
pub const REFUSED: u8 = 2;
/// Exit status: usage, a file that cannot be read or written, an output that is full or closed.
pub const TROUBLE: u8 = 3;

/// A line for the user, and the exit status that goes with it.
#[derive(Debug, Clone, PartialEq, Eq)]
pub struct Failure {
    pub status: u8,
    pub line: String,
}

/// What a command gives: its exit status, or the line that ends it.
pub type Outcome<T> = Result<T, Failure>;

impl Failure {
    /// Usage, a file or an output is not as it has to be.
    pub fn trouble(line: impl Into<String>) -> Failure {
        Failure { status: TROUBLE, line: line.into() }
    }

    /// The library refused what stands in that file.
    pub fn refused(file: &str, refusal: dsr::Error) -> Failure {
        Failure { status: REFUSED, line: format!("{file}: {}", crate::explain::refusal_line(refusal.number(), refusal.place())) }
    }

    /// The system said no to something on that file.
    pub fn system(file: &str, error: &io::Error) -> Failure {
        Failure::trouble(format!("{file}: {}", words_of(error)))
    }
}

/// Says a line on standard error. If that is full or closed, nobody is there to be told.
pub fn tell(line: &str) {
    let _ = writeln!(io::stderr(), "dsr: {}", one_line(line));
}

/// A text as one line: what would end it, turn it round or disturb a terminal, and what XML forbids, becomes a question mark.
pub fn one_line(text: &str) -> String {
    let unseen = |sign: char| {
        let turns = matches!(sign, '\u{200E}' | '\u{200F}' | '\u{202A}'..='\u{202E}' | '\u{2066}'..='\u{2069}');
        sign.is_control() || turns || matches!(sign, '\u{2028}' | '\u{2029}' | '\u{FFFE}' | '\u{FFFF}')
    };
    text.replace(unseen, "?")
}

/// The system's words, without its number.
pub fn words_of(error: &io::Error) -> String {
    match error.kind() {
        io::ErrorKind::NotFound => "there is no such file".to_string(),
        io::ErrorKind::IsADirectory => "this is a directory: name the files in it".to_string(),
        io::ErrorKind::PermissionDenied => "no permission".to_string(),
        io::ErrorKind::BrokenPipe => "closed by whoever was reading it".to_string(),
        io::ErrorKind::OutOfMemory => "does not fit into memory".to_string(),
        io::ErrorKind::StorageFull => "no room left".to_string(),
        _ => without_number(&error.to_string()),
    }
}

fn without_number(words: &str) -> String {
    let end = words.find(" (os error").unwrap_or(words.len());
    words[..end].to_string()
}

#[cfg(test)]
mod tests {
    use super::one_line;

    #[test]
    fn a_line_loses_what_is_no_sign() {
        assert_eq!(one_line("a\u{1b}[2Jb\n\u{202e}c\u{ffff} \u{fc}.dsr"), "a?[2Jb??c? \u{fc}.dsr");
    }
}
