//! A reading in words.
use dsr::{HeaderNote, PairNote};

use super::notes::{headers, replaced, Run, MULTIFRAME_HUNDREDTHS, PAIR_HUNDREDTHS};
use crate::explain::{header_words, pair_words, refusal_line};
use crate::reader::Heard;
use crate::summary::{self, seconds};

/// What came of a recording: a line on the whole, and one for each run of notes.
pub fn read(file: &str, heard: &Heard) -> String {
    let utterance = &heard.utterance;
    let mut text = format!("{file}: {}\n", summary::line(heard));
    // most recordings have no note, and then nothing is gone through
    if heard.noted {
        headers(utterance).iter().for_each(|run| text += &header_line(run));
        replaced(utterance).iter().for_each(|run| text += &replaced_line(run));
    }
    text
}

/// The library's refusal, with what it means.
pub fn refused(file: &str, refusal: dsr::Error) -> String {
    format!("{file}: {}\n", refusal_line(refusal.number(), refusal.place()))
}

fn header_line(run: &Run<HeaderNote>) -> String {
    let begins = seconds(run.first * MULTIFRAME_HUNDREDTHS);
    let ends = seconds((run.last + 1) * MULTIFRAME_HUNDREDTHS);
    let which = match run.first == run.last {
        true => format!("header {}", run.first + 1),
        false => format!("headers {} to {}", run.first + 1, run.last + 1),
    };
    format!("  {begins} to {ends} s: {which}: {}\n", header_words(run.note).join(", "))
}

fn replaced_line(run: &Run<PairNote>) -> String {
    let begins = seconds(run.first * PAIR_HUNDREDTHS);
    let ends = seconds((run.last + 1) * PAIR_HUNDREDTHS);
    format!("  {begins} to {ends} s: replaced: {}\n", pair_words(run.note))
}
