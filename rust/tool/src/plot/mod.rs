//! dsr plot: a recording drawn as the library noted it, into an SVG file or in the terminal.
mod looks;
mod picture;
mod svg;
mod terminal;

use std::ffi::OsStr;

use crate::arguments::Arguments;
use crate::failure::{Failure, Outcome, CLEAN};
use crate::reader::{Reader, Rooms};
use crate::{input, output};

use picture::{Comparison, Picture};

/// Draws the recording, and the one that --compare names below it. Nothing is written before all of them were read, so a refusal leaves no
/// half a picture.
pub fn run(arguments: &Arguments) -> Outcome<u8> {
    let named = arguments.operands.iter().map(|name| name.as_os_str());
    let names: Vec<&OsStr> = named.chain(arguments.value("compare")).collect();
    let reader = Reader::new(arguments)?;
    let pictures = names.iter().map(|name| picture(&reader, name)).collect::<Outcome<Vec<Picture>>>()?;
    let compared = match &pictures[..] {
        [first, second] => Some(Comparison::of(first, second)),
        _ => None,
    };
    let drawn = match arguments.has("output") {
        true => svg::draw(&pictures, compared),
        false => terminal::draw(&pictures, compared, terminal::Screen::here()),
    };
    output::put(arguments.value("output"), drawn.as_bytes())?;
    Ok(CLEAN)
}

fn picture(reader: &Reader, name: &OsStr) -> Outcome<Picture> {
    let mut octets = Vec::new();
    let mut rooms = Rooms::new();
    input::octets_until(name, &mut octets, |beginning| reader.has_enough(beginning))?;
    let shown = input::shown(name);
    let heard = reader.read(&octets, &mut rooms).map_err(|refusal| Failure::refused(&shown, refusal))?;
    Ok(Picture::of(&shown, &heard))
}
