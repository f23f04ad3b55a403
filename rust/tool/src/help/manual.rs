//! The manual page, in the language of mdoc.
use super::{synopsis, wrapped, SAYS, TEXT};
use crate::commands::{Command, Opt, Takes, COMMANDS};

/// The page's date: that of the last change to what it says.
const DATE: &str = "November 16, 2026";

pub fn page() -> String {
    let mut page = format!(".Dd {DATE}\n.Dt DSR 1\n.Os\n.Sh NAME\n.Nm dsr\n.Nd {}\n.Sh SYNOPSIS\n", escaped(SAYS));
    COMMANDS.iter().for_each(|command| page += &format!(".Nm\n.Cm {}\n", escaped(&synopsis(command))));
    page += ".Sh DESCRIPTION\n";
    page += &paragraphs(&TEXT[..1]);
    COMMANDS.iter().for_each(|command| page += &section(command));
    page += ".Sh EXIT STATUS\n";
    page += &paragraphs(&TEXT[1..]);
    page += ".Sh SEE ALSO\n.Xr dsrlist 1 ,\n.Xr dsr 3\n";
    page
}

fn section(command: &Command) -> String {
    let mut section = format!(".Ss dsr {}\n{}", escaped(&synopsis(command)), lines(command.says));
    if !command.text.is_empty() {
        section += ".Pp\n";
        section += &paragraphs(command.text);
    }
    section += ".Bl -tag -width Ds\n";
    command.options.iter().for_each(|option| section += &item(option));
    section += ".El\n";
    for (call, says) in command.examples {
        let says = if says.is_empty() { String::new() } else { lines(&format!("For {says}:")) };
        section += &format!(".Pp\n{says}.Dl {}\n", guarded(&escaped(call)).concat().trim_end());
    }
    section
}

fn item(option: &Opt) -> String {
    let letter = option.letter.map_or(String::new(), |letter| format!("Fl {letter} , "));
    let value = match option.takes {
        Takes::Nothing => String::new(),
        Takes::Value(word) | Takes::File(word) => format!(" Ar {}", escaped(word)),
        Takes::OneOf(words) => format!(" Ar {}", escaped(&words.join("|"))),
    };
    format!(".It {letter}Fl \\-{}{value}\n{}", escaped(option.name), lines(option.says))
}

fn paragraphs(paragraphs: &[&str]) -> String {
    paragraphs.iter().map(|paragraph| lines(paragraph)).collect::<Vec<_>>().join(".Pp\n")
}

/// A text in lines, each sentence on lines of its own, as mdoc wants it.
fn lines(text: &str) -> String {
    text.split_inclusive(". ")
        .map(|sentence| wrapped(&escaped(sentence.trim_end()), 0))
        .flat_map(|lines| guarded(&lines))
        .collect()
}

/// At a line's beginning a period or a quote is not text in mdoc.
fn guarded(lines: &str) -> Vec<String> {
    let guard = |line: &str| if line.starts_with(['.', '\'']) { "\\&" } else { "" };
    lines.lines().map(|line| format!("{}{line}\n", guard(line))).collect()
}

/// Backslashes and dashes that are typed are not text in mdoc.
fn escaped(text: &str) -> String {
    text.replace('\\', "\\e").replace('-', "\\-")
}
