//! A recording as it is drawn: what the library noted, column by column, and the words that go with it.
use dsr::{HeaderNote, PairNote, MULTIFRAME_FRAMES, MULTIFRAME_PAIRS};

use crate::explain;
use crate::reader::Heard;
use crate::summary;

/// The time of a multiframe, in thousandths of a second.
pub const MULTIFRAME_TIME: usize = FRAME_TIME * MULTIFRAME_FRAMES;
const FRAME_TIME: usize = 10;

/// A recording to be drawn.
pub struct Picture {
    /// Its file's name, as it is shown.
    pub name: String,
    pub columns: Vec<Column>,
    /// What the reading says of the whole, in a line.
    pub facts: String,
}

/// A multiframe.
pub struct Column {
    pub header: HeaderNote,
    pub pairs: Vec<Pair>,
}

/// A pair of frames.
#[derive(Debug, Clone, Copy, PartialEq, Eq)]
pub struct Pair {
    pub note: PairNote,
    /// Whether a frame of it is speech, as the reading counts it.
    pub spoken: bool,
}

impl Picture {
    pub fn of(name: &str, heard: &Heard) -> Picture {
        let reading = heard.utterance.reading;
        let mut pairs = heard.utterance.pairs().enumerate().map(|(number, pair)| {
            let spoken = 2 * number < reading.speech;
            Pair { note: pair.note, spoken }
        });
        let columns = heard
            .utterance
            .multiframes()
            .map(|multiframe| Column { header: multiframe.header(), pairs: pairs.by_ref().take(MULTIFRAME_PAIRS).collect() });
        Picture { name: name.to_string(), columns: columns.collect(), facts: summary::line(heard) }
    }

    /// What stands in a header, in words.
    pub fn header_words(&self, column: usize) -> String {
        let words = explain::header_words(self.columns[column].header).join(", ");
        format!("multiframe {}, header, {}: {words}", column + 1, seconds(MULTIFRAME_TIME * column))
    }

    /// What stands in a pair, in words; pairs are counted from 0 here, and from 1 in the words.
    pub fn pair_words(&self, column: usize, pair: usize) -> String {
        let Pair { note, spoken } = self.columns[column].pairs[pair];
        let begins = MULTIFRAME_TIME * column + 2 * FRAME_TIME * pair;
        let time = format!("{} to {}", seconds(begins), seconds(begins + 2 * FRAME_TIME));
        let replaced = if note.is_bad() { ", replaced" } else { "" };
        let padding = if spoken { "" } else { ", padding" };
        format!("multiframe {}, pair {}, {time}: {}{replaced}{padding}", column + 1, pair + 1, explain::pair_words(note))
    }

    fn bad_pairs(&self) -> impl Iterator<Item = bool> + '_ {
        self.columns.iter().flat_map(|column| &column.pairs).map(|pair| pair.note.is_bad())
    }
}

/// How the bad pairs of two recordings lie to each other, pair by pair from the first on.
#[derive(Debug, Clone, Copy, PartialEq, Eq, Default)]
pub struct Comparison {
    /// The pairs that both have.
    pairs: usize,
    first_only: usize,
    second_only: usize,
    both: usize,
}

impl Comparison {
    pub fn of(first: &Picture, second: &Picture) -> Comparison {
        Comparison::count(first.bad_pairs().zip(second.bad_pairs()))
    }

    fn count(bad: impl Iterator<Item = (bool, bool)>) -> Comparison {
        bad.fold(Comparison::default(), |so_far, (first, second)| Comparison {
            pairs: so_far.pairs + 1,
            first_only: so_far.first_only + usize::from(first && !second),
            second_only: so_far.second_only + usize::from(second && !first),
            both: so_far.both + usize::from(first && second),
        })
    }

    /// The counts in a line.
    pub fn words(self) -> String {
        let Comparison { pairs, first_only, second_only, both } = self;
        let only = format!("bad in the first only: {first_only}; in the second only: {second_only}");
        format!("Of the {pairs} pairs that both have, {only}; in both: {both}.")
    }
}

/// Thousandths of a second, as seconds.
fn seconds(thousandths: usize) -> String {
    format!("{} s", summary::seconds(thousandths / 10))
}

#[cfg(test)]
mod tests {
    use super::*;

    #[test]
    fn times_have_two_decimals() {
        assert_eq!([0, 10, 990, 61_200].map(seconds), ["0.00 s", "0.01 s", "0.99 s", "61.20 s"]);
    }

    #[test]
    fn bad_pairs_are_counted_over_what_both_have() {
        let bad = [(true, false), (true, true), (false, true), (false, false), (true, false)];
        assert_eq!(Comparison::count(bad.into_iter()), Comparison { pairs: 5, first_only: 2, second_only: 1, both: 1 });
    }
}
