//! The arguments of a command, read by its table.
use std::ffi::{OsStr, OsString};
use std::str::FromStr;

use crate::commands::{Command, Opt, Takes};
use crate::failure::{Failure, Outcome};

/// What was asked for: options with their values, and operands, in their order.
#[derive(Debug)]
pub struct Arguments {
    command: &'static Command,
    options: Vec<(&'static Opt, OsString)>,
    pub operands: Vec<OsString>,
}

impl Arguments {
    /// Reads the words behind a command's name.
    pub fn read(command: &'static Command, mut words: impl Iterator<Item = OsString>) -> Outcome<Arguments> {
        let mut arguments = Arguments { command, options: Vec::new(), operands: Vec::new() };
        let mut all_operands = false;
        while let Some(word) = words.next() {
            match word.to_str() {
                Some("--") if !all_operands => all_operands = true,
                Some(option) if !all_operands && option.len() > 1 && option.starts_with('-') => {
                    arguments.take(option, &mut words)?;
                }
                _ => arguments.operands.push(word),
            }
        }
        arguments.checked()
    }

    /// Whether the option stands there.
    pub fn has(&self, name: &str) -> bool {
        self.value(name).is_some()
    }

    /// The option's value, if it stands there.
    pub fn value(&self, name: &str) -> Option<&OsStr> {
        self.options.iter().find(|(option, _)| option.name == name).map(|(_, value)| value.as_os_str())
    }

    /// The names of the options given, with their values, in their order.
    pub fn in_order(&self) -> impl Iterator<Item = (&'static str, &OsStr)> {
        self.options.iter().map(|(option, value)| (option.name, value.as_os_str()))
    }

    /// The option's value as a number, or `otherwise` if it does not stand there.
    pub fn number<N: FromStr>(&self, name: &str, otherwise: N) -> Outcome<N> {
        match self.value(name) {
            None => Ok(otherwise),
            Some(value) => self.parsed(name, value),
        }
    }

    /// A value of that option as a number.
    pub fn parsed<N: FromStr>(&self, name: &str, value: &OsStr) -> Outcome<N> {
        let read = value.to_str().and_then(|text| text.parse().ok());
        read.ok_or_else(|| self.wrong(&format!("--{name} {}: this is no such number", value.to_string_lossy())))
    }

    /// An option that makes sense only beside another.
    pub fn only_with(&self, name: &str, other: &str) -> Outcome<()> {
        if self.has(name) && !self.has(other) {
            return Err(self.wrong(&format!("--{name} needs --{other}")));
        }
        Ok(())
    }

    /// Two options that exclude each other.
    pub fn not_both(&self, name: &str, other: &str) -> Outcome<()> {
        if self.has(name) && self.has(other) {
            return Err(self.wrong(&format!("--{name} and --{other} exclude each other")));
        }
        Ok(())
    }

    /// Wrong usage of this command.
    pub fn wrong(&self, trouble: &str) -> Failure {
        usage(self.command, trouble)
    }

    fn take(&mut self, word: &str, words: &mut impl Iterator<Item = OsString>) -> Outcome<()> {
        let (name, joined) = match word.split_once('=') {
            Some((name, value)) if word.starts_with("--") => (name, Some(OsString::from(value))),
            _ => (word, None),
        };
        let option = self.option(name)?;
        let value = match (option.takes, joined) {
            (Takes::Nothing, None) => OsString::new(),
            (Takes::Nothing, Some(_)) => return Err(self.wrong(&format!("--{} takes no value", option.name))),
            (_, Some(value)) => value,
            (_, None) => words.next().ok_or_else(|| self.wrong(&format!("--{} needs a value", option.name)))?,
        };
        self.keep(option, value)
    }

    fn keep(&mut self, option: &'static Opt, value: OsString) -> Outcome<()> {
        if !option.again && self.has(option.name) {
            return Err(self.wrong(&format!("--{} stands twice", option.name)));
        }
        if let Takes::OneOf(those) = option.takes {
            if !those.iter().any(|one| value == *one) {
                let trouble = format!("--{} {}: it is one of {}", option.name, value.to_string_lossy(), those.join(", "));
                return Err(self.wrong(&trouble));
            }
        }
        self.options.push((option, value));
        Ok(())
    }

    /// The option of that name, or of that letter.
    fn option(&self, word: &str) -> Outcome<&'static Opt> {
        let is_it = |option: &&&'static Opt| match word.strip_prefix("--") {
            Some(name) => option.name == name,
            None => option.letter.is_some_and(|letter| word == format!("-{letter}")),
        };
        let found = self.command.options.iter().find(is_it);
        found.copied().ok_or_else(|| self.wrong(&format!("there is no option {word}")))
    }

    /// As many operands as the command takes; of none of them is asked with --help.
    fn checked(self) -> Outcome<Arguments> {
        let (least, most) = self.command.count;
        if self.has("help") || (least..=most).contains(&self.operands.len()) {
            return Ok(self);
        }
        let shown = if self.command.operands.is_empty() { "no operand" } else { self.command.operands };
        Err(self.wrong(&format!("it takes {shown}")))
    }
}

/// Wrong usage of a command.
pub fn usage(command: &Command, trouble: &str) -> Failure {
    Failure::trouble(format!("{}: {trouble} (dsr {} --help says more)", command.name, command.name))
}
