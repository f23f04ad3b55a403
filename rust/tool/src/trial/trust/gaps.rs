//! What is lost or added, and what it leaves.
use dsr::{Choices, Error, HeaderNote, Tables, Utterance, MULTIFRAME_FRAMES, MULTIFRAME_OCTETS};

use super::{Finding, TRUST};
use crate::layout::SYNC_BITS;
use crate::random::Random;
use crate::trial::sent::Sent;

/// An utterance of so many multiframes; some are taken from it, or stand twice, behind the first twenty.
const MULTIFRAMES: usize = 60;
const BEFORE: usize = 20;
/// A short one for what is tried at every octet.
const SHORT: usize = 3;

pub fn findings(random: &mut Random) -> Result<Vec<Finding>, Error> {
    let long = Sent::draw(MULTIFRAMES * MULTIFRAME_FRAMES - 1, random)?.image;
    let short = Sent::draw(SHORT * MULTIFRAME_FRAMES - 1, random)?.image;
    let (before, behind) = long.split_at(BEFORE * MULTIFRAME_OCTETS);
    let missing = |octets: usize| [before, &behind[octets..]].concat();
    let twice = |octets: usize| [before, &behind[..octets], behind].concat();
    Ok(vec![
        unnoted("1 to 39 multiframes missing in a row: no note, else + 4", missing),
        unnoted("1 to 39 multiframes standing twice: no note, else + 4", twice),
        flipped_syncs(&short),
        octets_lost(&short),
        octets_added(&short, random),
        cut(&short),
    ])
}

fn read(octets: &[u8]) -> Result<Utterance<Vec<u8>>, Error> {
    dsr::read(octets, &Tables::ZEROS, Choices::DEFAULT)
}

/// For which numbers of multiframes nothing is noted. For all others every header behind the place has to be out of step.
fn unnoted(what: &str, changed: impl Fn(usize) -> Vec<u8>) -> Finding {
    let mut silent = Vec::new();
    let mut is_as_said = true;
    for many in 1..MULTIFRAMES - BEFORE {
        match read(&changed(many * MULTIFRAME_OCTETS)) {
            Ok(heard) if !heard.has_notes() && heard.reading.end => silent.push(many.to_string()),
            Ok(heard) => is_as_said &= is_out_of_step_to_the_end(&heard),
            Err(_) => is_as_said = false,
        }
    }
    let agrees = is_as_said && silent == ["16", "32"];
    Finding { what: what.to_string(), counted: silent.join(", "), said: "16, 32, ..".to_string(), place: TRUST, agrees }
}

/// Whether the headers up to some place are clean and all behind it out of step.
fn is_out_of_step_to_the_end(heard: &Utterance<Vec<u8>>) -> bool {
    let is_out = |note: HeaderNote| matches!(note, HeaderNote::Readable { out_of_step: true, .. });
    let mut headers = heard.multiframes().map(|multiframe| multiframe.header()).skip_while(|note| note.is_clean()).peekable();
    headers.peek().is_some() && headers.all(is_out)
}

/// How many of these octets are refused with one of these numbers, and how many there are.
fn refused(images: impl Iterator<Item = Vec<u8>>, numbers: &[u32]) -> (u64, u64) {
    let answers: Vec<bool> = images.map(|image| read(&image).is_err_and(|refusal| numbers.contains(&refusal.number()))).collect();
    (answers.iter().filter(|is_refused| **is_refused).count() as u64, answers.len() as u64)
}

fn flipped_syncs(image: &[u8]) -> Finding {
    let flips =
        (0..SHORT).flat_map(|multiframe| (0..SYNC_BITS).map(move |bit| (multiframe * MULTIFRAME_OCTETS + bit / 8, bit % 8)));
    let flipped = |(octet, bit): (usize, usize)| {
        let mut image = image.to_vec();
        image[octet] ^= 1 << bit;
        image
    };
    Finding::all("one flip in a sync, any: refused with 12", refused(flips.map(flipped), &[12]), TRUST)
}

fn octets_lost(image: &[u8]) -> Finding {
    let without = |place: usize| [&image[..place], &image[place + 1..]].concat();
    let counted = refused((0..image.len()).map(without), &[12, 13]);
    Finding::all("one octet lost, anywhere: refused with 12 or 13", counted, TRUST)
}

fn octets_added(image: &[u8], random: &mut Random) -> Finding {
    let with = |place: usize| [&image[..place], &[random.below(256) as u8], &image[place..]].concat();
    let counted = refused((0..=image.len()).map(with), &[12, 13]);
    Finding::all("one octet added, anywhere: refused with 12 or 13", counted, TRUST)
}

fn cut(image: &[u8]) -> Finding {
    let places = (0..image.len()).filter(|place| place % MULTIFRAME_OCTETS != 0);
    let counted = refused(places.map(|place| image[..place].to_vec()), &[13]);
    Finding::all("cut inside a multiframe, anywhere: refused with 13", counted, TRUST)
}
