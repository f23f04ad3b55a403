//! Refusals and notes in sentences, with what to do: docs/TRUST.md's tables, for one number.
use dsr::{HeaderNote, PairNote};

use crate::arguments::Arguments;
use crate::failure::{Failure, Outcome, CLEAN};
use crate::output;

/// A refusal in a sentence, and what to do.
struct Refusal {
    number: u32,
    /// The sentence with its place, `{}`.
    placed: &'static str,
    /// The sentence without a place.
    bare: &'static str,
    advice: &'static str,
}

const fn refusal(number: u32, placed: &'static str, bare: &'static str, advice: &'static str) -> Refusal {
    Refusal { number, placed, bare, advice }
}

const ASK_AGAIN: &str = "Ask for the utterance again.";
const MEND_TERMINAL: &str = "Mend the program that makes the frames.";
const LEND_MORE: &str = "Lend a buffer of as many octets as the place says.";

const REFUSALS: &[Refusal] = &[
    refusal(1, "the rate is not 0, 1 or 3, or the type is above 1", "the rate is not 0, 1 or 3, or the type is above 1", MEND_TERMINAL),
    refusal(2, "{} index octets are no whole number of frames: a frame has seven", "the index octets are no whole number of frames", MEND_TERMINAL),
    refusal(3, "{} frames are more than an utterance can have, 6,119", "there are more frames than an utterance can have, 6,119", "Cut the recording into utterances."),
    refusal(4, "frame {}, counted from 1, has an index above 63 among its first six", "a frame has an index above 63 among its first six", MEND_TERMINAL),
    refusal(
        5,
        "frame {}, counted from 1, is all zero and would be taken for the end: it is the last one, or its number is a multiple of 24",
        "a frame is all zero and would be taken for the end",
        MEND_TERMINAL,
    ),
    refusal(6, "the output has fewer than the {} octets needed", "the output is too short", LEND_MORE),
    refusal(10, "threshold {}, counted from 0, is negative", "a threshold is negative", "Mend the thresholds: none may be below 0."),
    refusal(
        11,
        "the codebook does not have 1,280 numbers, or there are not 14 thresholds",
        "the codebook does not have 1,280 numbers, or there are not 14 thresholds",
        "Mend the tables.",
    ),
    refusal(
        12,
        "what stands at octet {} begins neither a multiframe nor an inverse sync",
        "the octets at the place begin neither a multiframe nor an inverse sync",
        "Ask for the utterance again. If the octets come from a radio modem, read them as bits (--bits).",
    ),
    refusal(
        13,
        "what begins at octet {} is not whole: the octets end inside a multiframe or a sync",
        "the octets end inside a multiframe or a sync",
        "Ask for the utterance again. If the recording is still growing, wait for more octets.",
    ),
    refusal(
        14,
        "there is no multiframe in these {} octets",
        "there is no multiframe",
        "Ask for the utterance again. If the recording is still growing, wait for more octets.",
    ),
    refusal(
        15,
        "at {} (an octet, in a hunt a bit) begins a multiframe more than the 255 of an utterance",
        "there are more than the 255 multiframes of an utterance",
        "Cut the recording into utterances.",
    ),
    refusal(
        16,
        "the settings are not settled: no two headers agree, or only one multiframe came or was found",
        "the settings are not settled: no two headers agree, or only one multiframe came or was found",
        "Ask for the utterance again. A word that fits one multiframe is refused each time: record 24 frames (240 ms) or more. Asked for by name (--one-header-settles), an only header settles if it is a codeword; six flips can make it that of another rate, and nothing shows it.",
    ),
    refusal(
        17,
        "the settled settings are none of this link: the rate is 2, or an EXP bit is 1",
        "the settled settings are none of this link: the rate is 2, or an EXP bit is 1",
        "Another sender, or two headers with four flips or more (asked for by name, an only one with six). Ask for the utterance again; if it stays so, it is not of this link.",
    ),
    refusal(18, "the index buffer has fewer than the {} octets needed", "the index buffer is too short", LEND_MORE),
    refusal(19, "the report buffer has fewer than the {} octets needed", "the report buffer is too short", LEND_MORE),
    refusal(20, "every pair is bad: no frame is left to replace one by", "every pair is bad: no frame is left to replace one by", ASK_AGAIN),
    refusal(21, "T is {}, and it has to be 12 to 16", "T is not 12 to 16", "Mend the call: --match takes 12 to 16."),
    refusal(
        22,
        "no place from bit {} on looks like a multiframe",
        "no place looks like a multiframe",
        "Try a smaller T (--match 12), or ask for the utterance again.",
    ),
    refusal(
        96,
        "the number of the choices names none that there is",
        "the number of the choices names none that there is",
        "Mend the program that calls the library: dsr.h has the choices.",
    ),
    refusal(
        99,
        "a lent answer has too few numbers, or a pointer is null",
        "a lent answer has too few numbers, or a pointer is null",
        "Mend the program that calls the library: dsr.h says how much to lend.",
    ),
];

fn find(number: u32) -> Option<&'static Refusal> {
    REFUSALS.iter().find(|refusal| refusal.number == number)
}

/// A refusal of the library's in a line: number, place and sentence.
pub fn refusal_line(number: u32, place: u64) -> String {
    format!("refused {number} {place}: {}", sentence(number, Some(place)))
}

/// The sentence on a refusal.
pub fn sentence(number: u32, place: Option<u64>) -> String {
    match (find(number), place) {
        (Some(refusal), Some(place)) => refusal.placed.replace("{}", &place.to_string()),
        (Some(refusal), None) => refusal.bare.to_string(),
        (None, _) => "a refusal that this program does not know".to_string(),
    }
}

/// What a header note says, in words: nothing of a clean header.
pub fn header_words(note: HeaderNote) -> Vec<String> {
    match note {
        HeaderNote::Lost => vec!["lost".to_string()],
        HeaderNote::Readable { flips, out_of_step, differs, .. } => {
            let mended = match flips {
                0 => None,
                1 => Some("1 flipped bit mended".to_string()),
                more => Some(format!("{more} flipped bits mended")),
            };
            let step = out_of_step.then(|| "counter out of step".to_string());
            let other = differs.then(|| "other settings named".to_string());
            mended.into_iter().chain(step).chain(other).collect()
        }
    }
}

/// What a pair note says, in words.
pub fn pair_words(note: PairNote) -> &'static str {
    match note {
        PairNote::Good => "as received",
        PairNote::CrcFailed => "CRC failed",
        PairNote::BadOtherwise => "bad otherwise",
    }
}

/// dsr explain.
pub fn run(arguments: &Arguments) -> Outcome<u8> {
    let words: Vec<&str> = arguments.operands.iter().map(|word| word.to_str().unwrap_or("?")).collect();
    let text = match words[..] {
        ["note", number] => explain_note(arguments, number)?,
        ["note"] => return Err(arguments.wrong("which note?")),
        ["end"] => END.to_string(),
        [number] => explain_refusal(arguments, number, None)?,
        [number, place] => {
            let place = place.parse().map_err(|_| arguments.wrong(&format!("{place}: a place is a whole number")))?;
            explain_refusal(arguments, number, Some(place))?
        }
        _ => return Err(arguments.wrong("it takes NUMBER [PLACE], note NUMBER or end")),
    };
    output::put_standard(text.as_bytes())?;
    Ok(CLEAN)
}

/// docs/TRUST.md's rows on the end.
const END: &str = "\
end seen: the last frame is zero, which marks the end of an utterance.
Nothing to do.
end seen in a replaced pair: the last pair has a note, so the end may have been made by replacing.
Ask again if the end matters.
end missing: the end did not come, or stood in a bad pair.
Ask again.
";

fn explain_refusal(arguments: &Arguments, number: &str, place: Option<u64>) -> Outcome<String> {
    let known = || REFUSALS.iter().map(|refusal| refusal.number.to_string()).collect::<Vec<_>>().join(", ");
    let wrong = || arguments.wrong(&format!("{number}: there is no such refusal; there are {}", known()));
    let number = number.parse().map_err(|_| wrong())?;
    let refusal = find(number).ok_or_else(wrong)?;
    let shown = place.map_or(String::new(), |place| format!(" {place}"));
    Ok(format!("refused {number}{shown}: {}.\n{}\n", sentence(number, place), refusal.advice))
}

fn explain_note(arguments: &Arguments, number: &str) -> Outcome<String> {
    let octet = number.parse().ok();
    let header = octet.and_then(HeaderNote::from_octet).map(|note| format!("header note {number}: {}\n", header_advice(note)));
    let pair = octet.and_then(PairNote::from_octet).map(|note| format!("pair note {number}: {}\n", pair_advice(note)));
    match (header, pair) {
        (None, None) => Err(no_note(arguments, number)),
        (header, pair) => Ok(header.into_iter().chain(pair).collect()),
    }
}

fn no_note(arguments: &Arguments, number: &str) -> Failure {
    let those = (0..=u8::MAX).filter(|octet| HeaderNote::from_octet(*octet).is_some()).map(|octet| octet.to_string());
    let trouble = format!(
        "{number}: there is no such note; a header has one of {}, a pair 0, 1 or 2",
        those.collect::<Vec<_>>().join(", ")
    );
    arguments.wrong(&trouble)
}

fn header_advice(note: HeaderNote) -> String {
    match note {
        HeaderNote::Lost => "lost: no codeword is within two bits. The settings come from the other headers, and the frames are read all the same.\nNothing to do for this list; look at the link.".to_string(),
        _ if note.is_clean() => "the header is as a terminal sends it.\nNothing to do.".to_string(),
        HeaderNote::Readable { flips, out_of_step, differs, .. } => {
            let mut advice = format!("{}.\n", header_words(note).join(", "));
            if flips > 0 {
                advice += "Mended flips: nothing to do; if there are many, look at the link.\n";
            }
            if out_of_step {
                advice += "Out of step: a multiframe is missing or stands twice, or this header was misread. Do not trust the list: ask again.\n";
            }
            if differs {
                advice += "Other settings: the first two headers that agree settle, not the most. Ask again, unless one header alone says so and three or more do not.\n";
            }
            advice.trim_end().to_string()
        }
    }
}

fn pair_advice(note: PairNote) -> &'static str {
    match note {
        PairNote::Good => "the pair stands as it was received.\nNothing to do.",
        PairNote::CrcFailed => "the pair's CRC failed, and its two frames were replaced by their good neighbours.\nWords spoken there (10 ms a frame) are a guess: ask again for those.",
        PairNote::BadOtherwise => "the pair is bad though its CRC is right: it is inconsistent (at least two of its seven indices rise or fall by more than their thresholds), and the next pair's CRC failed or the pair before is bad. Its two frames were replaced by their good neighbours.\nWords spoken there (10 ms a frame) are a guess: ask again for those.",
    }
}
