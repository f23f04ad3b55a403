//! Help, manual page and completion, all from the tables of `commands`.
mod completion;
mod manual;

use std::ffi::OsStr;

use crate::arguments::Arguments;
use crate::commands::{self, Command, Opt, Takes, COMMANDS};
use crate::failure::{Failure, Outcome, CLEAN};
use crate::output;

/// What dsr is, in a line.
const SAYS: &str = "lists, draws, writes, reads and damages recordings of the voice link";
/// What dsr is, in paragraphs.
const TEXT: &[&str] = &[
    "A recording is what a belt terminal sent: multiframes of ETSI ES 201 108, octets or, from a radio modem, bits. Whatever dsr says of one is what the proved library answered.",
    "Exit status: 0 done; 1 of list and read: read with a note, without its end, or with other bits outside than --outside says, of trial --trust: a number differs; 2 refused by the library; 3 wrong usage, a file that cannot be read or written, or an output that is full or closed.",
];

/// dsr help, dsr --help: all of it, or one command.
pub fn run(name: Option<&OsStr>) -> Outcome<u8> {
    let text = match name {
        None => whole(),
        Some(name) => match name.to_str().and_then(commands::command) {
            Some(command) => of_command(command),
            None => {
                return Err(Failure::trouble(format!(
                    "{}: there is no such command; dsr --help lists them",
                    name.to_string_lossy()
                )))
            }
        },
    };
    output::put_standard(text.as_bytes())?;
    Ok(CLEAN)
}

pub fn version() -> String {
    format!("dsr {}\n", env!("CARGO_PKG_VERSION"))
}

fn whole() -> String {
    let mut text = format!("dsr: {SAYS}\n\n");
    for command in COMMANDS {
        text += &format!("  dsr {:<11} {}\n", command.name, command.says);
    }
    text += "\ndsr COMMAND --help says more of one; dsr --version says which this is.\n";
    TEXT.iter().for_each(|paragraph| text += &format!("\n{}", wrapped(paragraph, 0)));
    text
}

/// The help of one command.
pub fn of_command(command: &Command) -> String {
    let mut text = format!("dsr {}\n\n{}", synopsis(command), wrapped(command.says, 0));
    command.text.iter().for_each(|paragraph| text += &format!("\n{}", wrapped(paragraph, 0)));
    text += "\nOptions:\n";
    command.options.iter().for_each(|option| text += &format!("  {}\n{}", shown(option), wrapped(option.says, 6)));
    if !command.examples.is_empty() {
        text += "\nExamples:\n";
    }
    for (call, says) in command.examples {
        text += &format!("  {call}\n");
        if !says.is_empty() {
            text += &wrapped(says, 6);
        }
    }
    text
}

/// The command with its operands, as help and manual show it.
fn synopsis(command: &Command) -> String {
    format!("{} [OPTION].. {}", command.name, command.operands).trim_end().to_string()
}

/// An option with its letter and its value.
fn shown(option: &Opt) -> String {
    let letter = option.letter.map_or(String::new(), |letter| format!("-{letter}, "));
    let value = match option.takes {
        Takes::Nothing => String::new(),
        Takes::Value(word) | Takes::File(word) => format!(" {word}"),
        Takes::OneOf(words) => format!(" {}", words.join("|")),
    };
    format!("{letter}--{}{value}", option.name)
}

/// A paragraph in lines of at most 79 characters, all of them indented.
fn wrapped(paragraph: &str, indent: usize) -> String {
    let (mut lines, mut line) = (String::new(), " ".repeat(indent));
    for word in paragraph.split(' ') {
        if line.len() > indent && line.len() + 1 + word.len() > 79 {
            lines += &format!("{line}\n");
            line = " ".repeat(indent);
        }
        if line.len() > indent {
            line.push(' ');
        }
        line += word;
    }
    lines + &line + "\n"
}

/// dsr completion.
pub fn completion(arguments: &Arguments) -> Outcome<u8> {
    let text = match arguments.operands[0].to_str() {
        Some("bash") => completion::bash(),
        Some("zsh") => completion::zsh(),
        Some("fish") => completion::fish(),
        _ => return Err(arguments.wrong("SHELL is bash, zsh or fish")),
    };
    output::put_standard(text.as_bytes())?;
    Ok(CLEAN)
}

/// dsr man.
pub fn man() -> Outcome<u8> {
    output::put_standard(manual::page().as_bytes())?;
    Ok(CLEAN)
}
