//! How often a place of random bits passes the hunt's test: README's table for T.
use dsr::{Header, MULTIFRAME_OCTETS};

use super::{grouped, Finding, README, RECKONED};
use crate::random::Random;

/// README's table: T, the flips forgiven, and one place in so many that passes by chance.
const TABLE: [(u64, u32, u64); 5] = [(12, 4, 3_226), (13, 3, 11_649), (14, 2, 59_263), (15, 1, 477_590), (16, 0, 8_119_031)];
/// As it is sent, first octet first.
const SYNC: u16 = u16::from_le_bytes([0x87, 0xB2]);
/// The words around a codeword that are read as it: itself, and those with one or two flips.
const READABLE: u64 = 1 + 32 + 496;
const CODEWORDS: u64 = 1 << 16;
const WORDS_DRAWN: u64 = 2_000_000;
/// Random octets to hunt in, and the T for which enough places pass in them.
const OCTETS_DRAWN: usize = 1 << 20;
const SAMPLED: usize = 3;

pub fn findings(random: &mut Random) -> Vec<Finding> {
    let words = passing_words();
    let mut findings = vec![readable(random)];
    findings.extend(TABLE.iter().zip(&words).map(|(row, words)| reckoned(row, words.len() as u64)));
    let octets: Vec<u8> = (0..OCTETS_DRAWN).map(|_| random.below(256) as u8).collect();
    findings.extend(TABLE[..SAMPLED].iter().zip(&words).map(|(row, words)| hunted(row, words.len() as u64, &octets)));
    findings.push(forgiven(&words));
    findings
}

/// For each T all words of sixteen bits that pass for a sync, before a header that is a codeword. There is one place to test.
fn passing_words() -> Vec<Vec<u16>> {
    let mut octets = [0; MULTIFRAME_OCTETS];
    octets[2..6].copy_from_slice(&dsr::header_encode(8).to_le_bytes());
    let mut passing = |least: u64| -> Vec<u16> {
        let passes = |word: &u16| {
            octets[..2].copy_from_slice(&word.to_le_bytes());
            dsr::hunt(&octets, 0, least).is_ok()
        };
        (0..=u16::MAX).filter(passes).collect()
    };
    TABLE.iter().map(|(least, ..)| passing(*least)).collect()
}

/// Random words behind a sync that are readable headers. Codewords are six apart, so no word is near two of them.
fn readable(random: &mut Random) -> Finding {
    let read = (0..WORDS_DRAWN).filter(|_| matches!(dsr::header_read(random.bits() as u32), Header::Read { .. })).count() as u64;
    let one_in = (1u64 << 32) as f64 / (CODEWORDS * READABLE) as f64;
    let said = format!("1 in {one_in:.1}");
    Finding::sampled("a word of random bits is a readable header", (read, WORDS_DRAWN), one_in, RECKONED, &said)
}

/// One place in how many passes: by the words that pass for a sync, and the share of readable headers.
fn one_in(words: u64) -> f64 {
    (1u64 << 32) as f64 / (words * READABLE) as f64
}

fn reckoned((least, _, said): &(u64, u32, u64), words: u64) -> Finding {
    let counted = format!("1 in {}", grouped(one_in(words).round() as u64));
    let agrees = one_in(words).round() as u64 == *said;
    let what = format!("a place of random bits passes, T {least}");
    Finding { what, counted, said: format!("1 in {}", grouped(*said)), place: README, agrees }
}

/// Hunts again and again from the bit behind the last place.
fn hunted((least, _, said): &(u64, u32, u64), words: u64, octets: &[u8]) -> Finding {
    let (mut found, mut tested, mut from) = (0, 0, 0);
    let rest = loop {
        match dsr::hunt(octets, from, *least) {
            Ok(hunted) => {
                found += 1;
                tested += hunted.tested;
                from = hunted.place + 1;
            }
            Err(refused) => break refused.tested,
        }
    };
    let said = format!("1 in {}", grouped(*said));
    Finding::sampled(format!("the same, hunted for, T {least}"), (found, tested + rest), one_in(words), README, &said)
}

/// The number of flips of a sync that are forgiven: all patterns of so many pass, and none of more.
fn forgiven(words: &[Vec<u16>]) -> Finding {
    let flips = |words: &Vec<u16>| words.iter().map(|word| (word ^ SYNC).count_ones()).max();
    let within = |most: u32| (0..=u16::MAX).filter(|flips| flips.count_ones() <= most).count();
    let shown = |words: &Vec<u16>| match flips(words) {
        Some(most) if within(most) == words.len() => most.to_string(),
        _ => "?".to_string(),
    };
    let counted: Vec<String> = words.iter().map(shown).collect();
    let said: Vec<String> = TABLE.iter().map(|(_, flips, _)| flips.to_string()).collect();
    Finding::exact("flips forgiven in a sync, T 12 to 16", counted.join(", "), README, &said.join(", "))
}
