//! Utterances and tables made by chance, to try a reader with.
use crate::chance::Chance;
use crate::header::encode;
use crate::reading::{CODEBOOK, THRESHOLDS};
use crate::steps::Steps;
use crate::stream::{packet_of, stream_of, FRAME, PAIRS};
use crate::writing::SYNC;

/// One multiframe before it is sent: a header word and twelve packets.
#[derive(Clone)]
pub struct Part {
    pub header: u32,
    pub packets: [u128; PAIRS],
}

impl Part {
    pub fn octets(&self) -> Vec<u8> {
        [&SYNC[..], &self.header.to_le_bytes(), &stream_of(&self.packets)].concat()
    }

    pub fn header_damage(&mut self, chance: &mut Chance, most: usize) {
        let count = chance.below(most + 1);
        for place in chance.places(count, 32) {
            self.header ^= 1 << place;
        }
    }

    /// Three flips are never mended.
    pub fn lose_header(&mut self, chance: &mut Chance) {
        let message = self.header as u16;
        self.header = encode(message);
        for place in chance.places(3, 32) {
            self.header ^= 1 << place;
        }
    }

    /// Another message in the header: other settings, an expansion bit, rate 2, another counter.
    pub fn other_header(&mut self, chance: &mut Chance) {
        let bit = chance.below(16);
        let was = self.header as u16;
        self.header = encode(match chance.below(4) {
            0 => chance.word() as u16,
            1 => was & !3 | 2,
            _ => was ^ 1 << bit,
        });
    }
}

pub fn bad_packet(chance: &mut Chance, packet: u128) -> u128 {
    let at = chance.below(92);
    match chance.below(3) {
        0 => packet ^ 1 << at,
        1 => packet ^ (((chance.below(15) as u128) + 1) << at.min(88)),
        _ => packet ^ 1 << at ^ 1 << chance.below(92),
    }
}

fn message(rate: u16, kind: u16, position: usize) -> u16 {
    rate | kind << 2 | ((position % 16) as u16) << 3
}

/// A clean utterance. The last multiframe mostly ends in zero frames; once in a while it has none.
pub fn utterance(chance: &mut Chance, m: usize) -> Vec<Part> {
    let (rate, kind) = (chance.pick(&[0, 1, 3]), chance.pick(&[0, 1]));
    let n = 24 * (m - 1) + chance.below(25);
    let mut frames: Vec<[u8; 7]> = (0..24 * m).map(|f| if f < n { chance.frame() } else { [0; 7] }).collect();
    if n > 0 {
        frames[n - 1] = chance.speech();
    }
    let part = |k: usize| Part {
        header: encode(message(rate, kind, k + 1)),
        packets: std::array::from_fn(|p| packet_of(&frames[24 * k + 2 * p], &frames[24 * k + 2 * p + 1])),
    };
    (0..m).map(part).collect()
}

/// Bits of a message that are not the counter's.
const COMMON: u16 = 0xFF87;

/// Every header gets settings that no other has, but for those at `stay`; a third of the changed ones is lost.
pub fn estrange(chance: &mut Chance, parts: &mut [Part], stay: &[usize]) {
    let mut taken: Vec<u16> = parts.iter().map(|part| part.header as u16 & COMMON).collect();
    for (k, part) in parts.iter_mut().enumerate().filter(|(k, _)| !stay.contains(k)) {
        let mut common = chance.word() as u16 & COMMON;
        while taken.contains(&common) {
            common = chance.word() as u16 & COMMON;
        }
        taken.push(common);
        part.header = encode(common | ((k as u16 + 1) % 16) << 3);
        if chance.once_in(3) {
            part.lose_header(chance);
        }
    }
}

/// No two headers agree, and an only one is no codeword: 16.
pub fn unsettle(chance: &mut Chance, parts: &mut [Part]) {
    estrange(chance, parts, &[]);
    if let [only] = parts {
        only.header = encode(only.header as u16);
        let flips = 1 + chance.below(2);
        chance.places(flips, 32).into_iter().for_each(|place| only.header ^= 1 << place);
    }
}

/// Rate 2 or an expansion bit in every header: 17.
pub fn forbid(chance: &mut Chance, parts: &mut [Part]) {
    let bit = 7 + chance.below(9);
    let rate = chance.once_in(3);
    for part in parts {
        let was = part.header as u16;
        part.header = encode(if rate { was & !3 | 2 } else { was | 1 << bit });
    }
}

/// Every pair bad: 20.
pub fn spoil(chance: &mut Chance, parts: &mut [Part]) {
    for part in parts {
        for packet in &mut part.packets {
            *packet ^= 1 << chance.below(92);
        }
    }
}

/// Headers for an only multiframe: codewords of every counter, of rate 2 and with each expansion bit; one flip at each place, two and three
/// anywhere.
pub fn only_headers(chance: &mut Chance) -> Vec<u32> {
    let settings = chance.pick(&[0u16, 1, 3, 4, 5, 7]);
    let first = settings | 1 << 3;
    let counters = (0..16).map(|counter| settings | counter << 3);
    let refused = (7..16).map(|bit| first | 1 << bit).chain([first & !3 | 2]);
    let mut headers: Vec<u32> = counters.chain(refused).map(encode).collect();
    headers.extend((0..32).map(|place| encode(first) ^ 1 << place));
    for flips in [2, 3].repeat(30) {
        headers.push(chance.places(flips, 32).into_iter().fold(encode(first), |word, place| word ^ 1 << place));
    }
    headers
}

/// Leaves a header as it is (0), with two flips (1), with other settings (2) or lost (3).
pub fn set_header(chance: &mut Chance, part: &mut Part, kind: usize) {
    match kind {
        1 => part.header ^= 0b11 << chance.below(31),
        2 => part.header ^= encode(chance.pick(&[1, 2, 4, 1 << 7, 1 << 15])),
        3 => part.lose_header(chance),
        _ => {}
    }
}

/// Damage of every kind anywhere in an utterance; how rare each kind is, is drawn once for all of it.
pub fn damage_anywhere(chance: &mut Chance, parts: &mut [Part]) {
    let rare: [usize; 5] = std::array::from_fn(|_| chance.pick(&[1_000_000, 2, 5, 20, 100]));
    for part in parts.iter_mut() {
        if chance.once_in(rare[0]) {
            part.other_header(chance);
        }
        if chance.once_in(rare[1]) {
            part.header_damage(chance, 2);
        }
        if chance.once_in(rare[2]) {
            part.lose_header(chance);
        }
        for packet in &mut part.packets {
            if chance.once_in(rare[3]) {
                *packet = bad_packet(chance, *packet);
            }
        }
    }
    let pairs = PAIRS * parts.len();
    for _ in 0..pairs / (20 * rare[4]) {
        let start = chance.below(pairs);
        let end = pairs.min(start + 1 + chance.below(60));
        for p in start..end {
            parts[p / PAIRS].packets[p % PAIRS] ^= 1 << chance.below(92);
        }
    }
}

pub fn image(parts: &[Part]) -> Vec<u8> {
    parts.iter().flat_map(Part::octets).collect()
}

#[derive(Clone)]
pub struct Tables {
    pub codebook: Vec<i32>,
    pub thresholds: Vec<i32>,
}

impl Tables {
    /// As they are lent to a reading.
    pub fn lent(&self) -> (&[i32], &[i32]) {
        (&self.codebook, &self.thresholds)
    }
}

/// With no threshold negative, as a reading takes them. Nothing but zeros; numbers that flag about a sixth, a half or most index pairs;
/// small ones of which every difference flags; the ends of 32 bits; differences that only just reach or exceed the thresholds; only one
/// element of each codebook that can exceed, so that an index pair is flagged by a fall alone or by a rise alone; and a zero frame apart
/// from all others, above or below them, so that all of a pair's indices rise at once, or all fall.
pub fn fit_tables(chance: &mut Chance) -> Tables {
    let ends = [i32::MIN, i32::MIN + 1, -1, 0, 1, i32::MAX - 1, i32::MAX];
    let limits = [0, 1, i32::MAX - 1, i32::MAX];
    let around = |chance: &mut Chance, middle: usize| numbers(THRESHOLDS, || (middle - 100 + chance.below(201)) as i32);
    let small = |chance: &mut Chance| numbers(CODEBOOK, || chance.below(2001) as i32 - 1000);
    match chance.below(14) {
        0 => Tables { codebook: vec![0; CODEBOOK], thresholds: vec![0; THRESHOLDS] },
        1 => Tables { codebook: small(chance), thresholds: around(chance, 1410) },
        2 | 3 => Tables { codebook: small(chance), thresholds: around(chance, 920) },
        4..=6 => Tables { codebook: small(chance), thresholds: numbers(THRESHOLDS, || chance.below(600) as i32) },
        7 => Tables { codebook: numbers(CODEBOOK, || chance.below(3) as i32 - 1), thresholds: vec![0; THRESHOLDS] },
        8 => Tables { codebook: numbers(CODEBOOK, || chance.pick(&ends)), thresholds: numbers(THRESHOLDS, || chance.pick(&limits)) },
        9 => Tables { codebook: numbers(CODEBOOK, || chance.pick(&ends)), thresholds: vec![chance.pick(&limits); THRESHOLDS] },
        10 => Steps::any(chance).tables,
        11 => {
            let threshold = chance.pick(&limits);
            Steps::at_the_ends(chance, threshold).tables
        }
        12 => one_element(chance),
        _ => zero_apart(chance),
    }
}

fn numbers(count: usize, draw: impl FnMut() -> i32) -> Vec<i32> {
    std::iter::repeat_with(draw).take(count).collect()
}

fn one_element(chance: &mut Chance) -> Tables {
    let alive: [usize; FRAME] = std::array::from_fn(|_| chance.below(2));
    let threshold = chance.below(1000) as i32;
    let mut number = |i: usize| if i % 2 == alive[(i / 128).min(FRAME - 1)] { chance.below(2001) as i32 - 1000 } else { 7 };
    Tables { codebook: (0..CODEBOOK).map(&mut number).collect(), thresholds: vec![threshold; THRESHOLDS] }
}

fn zero_apart(chance: &mut Chance) -> Tables {
    let threshold = chance.pick(&[0, 1, 1000, i32::MAX - 1, i32::MAX]);
    let (high, zero_is_high) = (chance.pick(&[threshold, threshold, threshold - 1]), chance.once_in(2));
    let entry = |i: usize| if i < 768 { i % 128 / 2 } else { (i - 768) / 2 };
    let number = |i: usize| if (entry(i) == 0) == zero_is_high { high } else { -1 };
    Tables { codebook: (0..CODEBOOK).map(number).collect(), thresholds: vec![threshold; THRESHOLDS] }
}

/// A number that no threshold may be.
pub fn negative(chance: &mut Chance) -> i32 {
    let any = -1 - chance.below(1 << 31) as i32;
    chance.pick(&[-1, i32::MIN, i32::MIN + 1, any])
}

/// One or more of the thresholds negative: 10.
pub fn turn_negative(chance: &mut Chance, thresholds: &mut [i32]) {
    let any = 1 + chance.below(thresholds.len());
    let count = chance.pick(&[1, 1, 1, any.min(2), any]);
    for number in chance.places(count, thresholds.len()) {
        thresholds[number] = negative(chance);
    }
}

/// As fit_tables, but one in ten has negative thresholds.
pub fn tables(chance: &mut Chance) -> Tables {
    let mut tables = fit_tables(chance);
    if chance.once_in(10) {
        turn_negative(chance, &mut tables.thresholds);
    }
    tables
}

/// Tables of another length (11), with negative thresholds (10), with both or with neither.
pub fn faulty_tables(chance: &mut Chance, of_other_length: bool, with_negative: bool) -> Tables {
    let mut tables = fit_tables(chance);
    let (codebook, thresholds) = chance.pick(&[(0, 14), (1279, 14), (1281, 14), (1280, 1), (1280, 13), (1280, 15), (1279, 13), (1281, 15)]);
    if of_other_length {
        tables.codebook.resize(codebook, 0);
        tables.thresholds.resize(thresholds, 0);
    }
    if with_negative {
        turn_negative(chance, &mut tables.thresholds);
    }
    tables
}
