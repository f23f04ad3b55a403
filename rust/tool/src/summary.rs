//! What a reading says of the whole, in words that list, plot and read share.
use dsr::{HeaderNote, Reading, Utterance};

use crate::reader::{Found, Heard};

/// A time in seconds, of hundredths: a frame lasts one, a pair two, a multiframe 24.
pub fn seconds(hundredths: usize) -> String {
    format!("{}.{:02}", hundredths / 100, hundredths % 100)
}

/// A number of things, of which there may be one.
pub fn counted(number: u64, thing: &str) -> String {
    format!("{number} {thing}{}", if number == 1 { "" } else { "s" })
}

/// Settings, speech, and what was replaced.
pub fn facts<B: AsRef<[u8]>>(utterance: &Utterance<B>) -> String {
    let Reading { settings, multiframes, speech, bad, .. } = utterance.reading;
    let replaced = match bad {
        0 => "no pair replaced".to_string(),
        bad => format!("{bad} of {} pairs replaced", utterance.pairs().len()),
    };
    format!("{settings}, {} s of speech in {}, {replaced}", seconds(speech), counted(multiframes as u64, "multiframe"))
}

/// What docs/TRUST.md says not to trust: counters out of step, and headers that name other settings than the settled ones.
pub fn warnings<B: AsRef<[u8]>>(utterance: &Utterance<B>) -> Vec<String> {
    let notes = || utterance.multiframes().map(|multiframe| multiframe.header());
    let step = notes().filter(|note| matches!(note, HeaderNote::Readable { out_of_step: true, .. })).count();
    let other = notes().filter(|note| matches!(note, HeaderNote::Readable { differs: true, .. })).count();
    let of_all = |some: usize, what: &str| (some > 0).then(|| format!("{some} of {} headers {what}", notes().len()));
    [of_all(step, "OUT OF STEP"), of_all(other, "with OTHER SETTINGS")].into_iter().flatten().collect()
}

/// Whether the end was seen. In a pair that was replaced it may have been made by replacing.
pub fn end<B: AsRef<[u8]>>(utterance: &Utterance<B>) -> &'static str {
    match (utterance.reading.end, is_end_replaced(utterance)) {
        (false, _) => "END MISSING",
        (true, false) => "end seen",
        (true, true) => "end seen in a REPLACED pair",
    }
}

/// Whether the last pair has a note.
pub fn is_end_replaced<B: AsRef<[u8]>>(utterance: &Utterance<B>) -> bool {
    utterance.pairs().next_back().is_some_and(|pair| pair.note.is_bad())
}

/// The bits outside of a hunting reading, and whether they are those that were expected.
pub fn outside(found: &Found) -> String {
    let bits = counted(found.outside, "bit");
    match found.expected {
        Some(expected) if !found.is_as_expected() => format!("{bits} outside, {expected} EXPECTED"),
        _ => format!("{bits} outside"),
    }
}

/// All of it in a line.
pub fn line(heard: &Heard) -> String {
    let utterance = &heard.utterance;
    let mut parts = vec![facts(utterance)];
    if utterance.reading.multiframes == 1 {
        parts.push("settled by ONE HEADER ALONE".to_string());
    }
    if heard.noted {
        parts.extend(warnings(utterance));
    }
    parts.extend(heard.found.as_ref().map(outside));
    parts.push(end(utterance).to_string());
    parts.join(", ")
}

/// Without a warning, as docs/TRUST.md has it: no note, and the end was seen. Of a hunting reading, also as many bits outside as were
/// expected, if that was said.
pub fn is_without_warning(heard: &Heard) -> bool {
    !heard.noted && heard.utterance.reading.end && heard.found.as_ref().is_none_or(Found::is_as_expected)
}

/// No note, and the end was seen.
pub fn is_clean<B: AsRef<[u8]>>(utterance: &Utterance<B>) -> bool {
    !utterance.has_notes() && utterance.reading.end
}

#[cfg(test)]
mod tests {
    use super::{counted, seconds};

    #[test]
    fn a_time_has_two_decimals() {
        assert_eq!([0, 2, 24, 100, 6119].map(seconds), ["0.00", "0.02", "0.24", "1.00", "61.19"]);
    }

    #[test]
    fn one_of_a_thing_is_no_plural() {
        assert_eq!([0, 1, 2].map(|number| counted(number, "bit")), ["0 bits", "1 bit", "2 bits"]);
    }
}
