//! Numbers in text: codebook, thresholds and frames.
use std::str::FromStr;

use crate::failure::{Failure, Outcome};

/// The lines of a text that say something, with their numbers from 1: what stands behind a # is no part of a line, and empty lines say
/// nothing.
pub fn lines(text: &str) -> impl Iterator<Item = (usize, &str)> {
    let said = text.lines().map(|line| line.split('#').next().unwrap_or("").trim());
    said.enumerate().map(|(at, line)| (at + 1, line)).filter(|(_, line)| !line.is_empty())
}

/// The numbers of a text, with commas or blanks between them: all of them, or one more than `most`.
pub fn all<N: FromStr>(file: &str, text: &str, kind: &str, most: usize) -> Outcome<Vec<N>> {
    let mut numbers = Vec::new();
    for (at, line) in lines(text) {
        for word in line.split([',', ' ', '\t']).filter(|word| !word.is_empty()) {
            if numbers.len() > most {
                return Ok(numbers);
            }
            numbers.push(number(file, at, word, kind)?);
        }
    }
    Ok(numbers)
}

/// One number, or what is wrong with it.
pub fn number<N: FromStr>(file: &str, line: usize, word: &str, kind: &str) -> Outcome<N> {
    word.parse().map_err(|_| Failure::trouble(format!("{file}: line {line}: '{}' is not {kind}", shortened(word))))
}

/// So much of a word as fits a message.
fn shortened(word: &str) -> String {
    let shown: String = word.chars().take(20).collect();
    if word.chars().nth(20).is_some() {
        return shown + "..";
    }
    shown
}
