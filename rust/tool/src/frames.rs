//! dsr write and dsr read: frames to an image and back.
use std::fmt::Write;

use dsr::{FrontEnd, Rate, Settings, FRAME_INDICES};

use crate::arguments::Arguments;
use crate::failure::{self, Failure, Outcome, CLEAN, WARNED};
use crate::reader::{Heard, Reader, Rooms};
use crate::summary::{self, is_without_warning};
use crate::{input, numbers, output};

/// dsr write.
pub fn write(arguments: &Arguments) -> Outcome<u8> {
    let settings = settings(arguments)?;
    let name = &arguments.operands[0];
    let indices = match arguments.has("raw") {
        true => input::octets(name)?,
        false => indices_of(&input::shown(name), &input::text(name)?)?,
    };
    let image = dsr::write(settings, &indices).map_err(|refusal| Failure::refused(&input::shown(name), refusal))?;
    output::put_binary(arguments.value("output"), &image)?;
    Ok(CLEAN)
}

/// The settings have no default: what is taken for granted here would be a wrong rate there.
fn settings(arguments: &Arguments) -> Outcome<Settings> {
    let word = |name| arguments.value(name).and_then(|value| value.to_str());
    let rate = match word("rate") {
        Some("8") => Rate::Khz8,
        Some("11") => Rate::Khz11,
        Some(_) => Rate::Khz16,
        None => return Err(arguments.wrong("--rate has to be said: 8, 11 or 16 (kHz)")),
    };
    let front_end = match word("front-end") {
        Some("standard") => FrontEnd::Standard,
        Some(_) => FrontEnd::NoiseRobust,
        None => return Err(arguments.wrong("--front-end has to be said: standard or noise-robust")),
    };
    Ok(Settings::new(rate, front_end))
}

/// The index octets of lines of seven numbers. Whether an index is one that can be sent, the library says.
fn indices_of(file: &str, text: &str) -> Outcome<Vec<u8>> {
    let mut indices = Vec::new();
    for (at, line) in numbers::lines(text) {
        let before = indices.len();
        for word in line.split(',') {
            indices.push(numbers::number(file, at, word.trim(), "an index: a whole number from 0 to 255")?);
        }
        let came = indices.len() - before;
        if came != FRAME_INDICES {
            return Err(Failure::trouble(format!("{file}: line {at}: {came} numbers, and a frame has {FRAME_INDICES}")));
        }
    }
    Ok(indices)
}

/// dsr read.
pub fn read(arguments: &Arguments) -> Outcome<u8> {
    arguments.not_both("raw", "notes")?;
    let reader = Reader::new(arguments)?;
    let name = &arguments.operands[0];
    let file = input::shown(name);
    let (mut octets, mut rooms) = (Vec::new(), Rooms::new());
    input::octets_until(name, &mut octets, |beginning| reader.has_enough(beginning))?;
    let heard = reader.read(&octets, &mut rooms).map_err(|refusal| Failure::refused(&file, refusal))?;
    let to = arguments.value("output");
    match arguments.has("raw") {
        true => output::put_binary(to, heard.utterance.spoken())?,
        false => output::put(to, lines_of(&heard, arguments.has("notes")).as_bytes())?,
    }
    Ok(warned(&file, &heard))
}

/// The frames of speech as lines, with the note of their pair if asked.
fn lines_of(heard: &Heard, notes: bool) -> String {
    let utterance = &heard.utterance;
    let mut text = format!("# {}\n", utterance.reading.settings);
    let pairs = utterance.pairs().flat_map(|pair| pair.frames.map(|frame| (frame, pair.note)));
    for (frame, note) in pairs.take(utterance.reading.speech) {
        let numbers: Vec<String> = frame.iter().map(u8::to_string).collect();
        let note = if notes { format!(",{note}") } else { String::new() };
        let _ = writeln!(text, "{}{note}", numbers.join(","));
    }
    text
}

/// Says on standard error what a list would have said of it, if that is a warning or of a hunt, and gives the exit status.
fn warned(file: &str, heard: &Heard) -> u8 {
    let clean = is_without_warning(heard);
    if !clean || heard.found.is_some() {
        failure::tell(&format!("{file}: {}; dsr list says more", summary::line(heard)));
    }
    if clean {
        CLEAN
    } else {
        WARNED
    }
}
