//! A reading as dsrlist prints it.
use std::fmt::Write;

use crate::reader::Heard;

/// A line of notes for each multiframe, and the total; of a hunting reading, which dsrlist has not, its two more numbers behind them.
pub fn read(heard: &Heard) -> String {
    let (mut text, utterance) = (String::new(), &heard.utterance);
    for multiframe in utterance.multiframes() {
        let notes: String = multiframe.pairs().map(|pair| pair.note.to_string()).collect();
        let _ = writeln!(text, "{} {notes}", multiframe.header());
    }
    let reading = &utterance.reading;
    let (rate, kind) = (reading.settings.rate.code(), reading.settings.front_end.code());
    let (multiframes, speech, bad, end) = (reading.multiframes, reading.speech, reading.bad, u8::from(reading.end));
    let _ = writeln!(text, "rate {rate} type {kind} multiframes {multiframes} speech {speech} bad {bad} end {end}");
    if let Some(found) = heard.found {
        let _ = writeln!(text, "outside {} tested {}", found.outside, found.tested);
    }
    text
}

/// The refusal's number and place.
pub fn refused(refusal: dsr::Error) -> String {
    format!("refused {} {}\n", refusal.number(), refusal.place())
}
