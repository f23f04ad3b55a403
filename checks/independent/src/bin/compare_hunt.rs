//! Compares the library's hunt and hunting reading with the independent version. Arguments: the command that runs the hunt driver.
#![deny(dead_code)] // a round that is in no list
use independent::chance::Chance;
use independent::driver::{over, rule_of, unknown_choices, Call, Driver, ANSWER_SHORT, NO_SUCH_CHOICE};
use independent::driver::{DEFAULT, KNOWN_CHOICES, ONE_HEADER_SETTLES};
use independent::header::{encode, Code};
use independent::hunting::{bits_of, hunt, octets_of, read_bits, HEADER_BITS, MULTIFRAME_BITS, SYNC_BITS};
use independent::reading::{CODEBOOK, MOST, REPORT, THRESHOLDS};
use independent::rounds::{run, Round, Tools};
use independent::steps::{every_two_steps, every_two_steps_shuffled, falling_rising_and_all, Beside, Steps};
use independent::stream::{INDICES, PAIRS};
use independent::utterance::{bad_packet, damage_anywhere, estrange, faulty_tables, fit_tables, forbid, image, negative, only_headers};
use independent::utterance::{set_header, spoil, tables, unsettle, utterance, Part, Tables};
use independent::writing::{Refusal, INVERSE, MULTIFRAME, SYNC};

type Bits = Vec<bool>;

const LEASTS: [u64; 5] = [12, 13, 14, 15, 16];
const ANSWER: usize = 8;
const UNSETTLED: u32 = 16;

/// What is hunted in: octets, with zero octets before them; the first bit, and the least number of sync bits that have to match.
struct Search {
    before: u64,
    octets: Vec<u8>,
    from: u64,
    least: u64,
}

impl Search {
    fn new(octets: &[u8], from: u64, least: u64) -> Search {
        Search { before: 0, octets: octets.to_vec(), from, least }
    }

    fn call(&self, kind: u8, mode: u8) -> Call {
        Call::kind(kind).octet(mode).long(self.from).long(self.least).long(self.before).octets(&self.octets)
    }

    /// The bits before the octets, which the independent version is not given if the search begins behind them.
    fn skipped(&self) -> u64 {
        if self.from < 8 * self.before { 0 } else { 8 * self.before }
    }

    /// What the independent version searches.
    fn searched(&self) -> Vec<u8> {
        let zeros = if self.skipped() == 0 { self.before } else { 0 };
        [&vec![0; zeros as usize][..], &self.octets].concat()
    }

    fn place(&self, refusal: &Refusal) -> u64 {
        refusal.place + if [15, 22].contains(&refusal.number) { self.skipped() } else { 0 }
    }
}

/// What is lent to a reading besides: tables, and rooms in octets and numbers.
struct Lent {
    tables: Tables,
    index: usize,
    report: usize,
    answer: usize,
}

/// What a reading returns and leaves in the lent memory.
#[derive(Clone, PartialEq)]
struct Outcome {
    number: u32,
    kept: u32,
    place: u64,
    answer: Vec<u64>,
    index: Vec<u8>,
    report: Vec<u8>,
}

fn noise(chance: &mut Chance, n: usize) -> Bits {
    bits_of(&chance.octets(n.div_ceil(8)))[..n].to_vec()
}

/// What may stand between multiframes: any bits, zeros, ones, inverse syncs.
fn gap(chance: &mut Chance, n: usize) -> Bits {
    match chance.below(6) {
        0 => vec![false; n],
        1 => vec![true; n],
        2 | 3 => bits_of(&INVERSE).into_iter().cycle().take(n).collect(),
        _ => noise(chance, n),
    }
}

fn flip(chance: &mut Chance, bits: &mut [bool], flips: usize) {
    for place in chance.places(flips, bits.len()) {
        bits[place] = !bits[place];
    }
}

/// A sync and a header, as they open a multiframe, of any message.
fn opening(chance: &mut Chance, sync_flips: usize, header_flips: usize) -> Bits {
    let mut bits = bits_of(&[&SYNC[..], &encode(chance.word() as u16).to_le_bytes()].concat());
    flip(chance, &mut bits[..SYNC_BITS], sync_flips);
    flip(chance, &mut bits[SYNC_BITS..], header_flips);
    bits
}

/// An opening that passes the test for `least`, or misses it by one flip of the sync or of the header.
fn near_match(chance: &mut Chance, least: u64) -> Bits {
    let (sync_flips, header_flips) = (chance.below(18 - least as usize), chance.below(4));
    opening(chance, sync_flips, header_flips)
}

/// Lays `new` over the bits from a place on, as far as they go.
fn lay(bits: &mut [bool], place: usize, new: &[bool]) {
    for (bit, &new) in bits[place..].iter_mut().zip(new) {
        *bit = new;
    }
}

/// Any bits fill the last octet.
fn whole(chance: &mut Chance, bits: &[bool]) -> Vec<u8> {
    let missing = bits.len().next_multiple_of(8) - bits.len();
    octets_of(&[bits, &noise(chance, missing)].concat())
}

/// Every header word with one, two or three bits set.
fn up_to_three_flips() -> Vec<u32> {
    let bit = |i: usize| 1u32 << i;
    let two = (0..HEADER_BITS).flat_map(|a| (a..HEADER_BITS).map(move |b| bit(a) | bit(b)));
    let mut words: Vec<u32> = two.flat_map(|word| (0..HEADER_BITS).map(move |c| word | bit(c))).collect();
    words.sort();
    words.dedup();
    words
}

/// The multiframes with up to `flips` flips in each sync, and a gap of up to `longest` bits before, between and after them.
fn spread(chance: &mut Chance, parts: &[Part], flips: usize, longest: usize) -> Bits {
    let mut bits = vec![];
    for k in 0..=parts.len() {
        let lengths = [0, chance.below(8), chance.below(longest + 1)];
        let length = chance.pick(&lengths);
        bits.extend(gap(chance, length.min(longest)));
        if k < parts.len() {
            let mut row = bits_of(&parts[k].octets());
            let count = chance.below(flips + 1);
            flip(chance, &mut row[..SYNC_BITS], count);
            bits.extend(row);
        }
    }
    bits
}

/// As unsettle, but with no header lost: a hunt passes over those.
fn unsettle_found(chance: &mut Chance, parts: &mut [Part]) {
    unsettle(chance, parts);
    if parts.len() > 1 {
        parts.iter_mut().for_each(|part| part.header = encode(part.header as u16));
    }
}

struct Check {
    driver: Driver,
    chance: Chance,
    code: Code,
}

impl Check {
    fn hunt(&mut self, name: &str, search: &Search) {
        let lent: [u64; 3] = std::array::from_fn(|_| self.chance.word());
        let call = search.call(b'H', self.driver.mode()).long(lent[0]).long(lent[1]).long(lent[2]);
        let mut back = self.driver.call(call, 8 + 24);
        let got = (back.word(), back.word(), [back.long(), back.long(), back.long()]);
        let (answer, tested) = hunt(&self.code, &search.searched(), search.from - search.skipped(), search.least);
        let want = match answer {
            Ok(found) => (0, 1, [found + search.skipped(), tested, lent[2]]),
            Err(refusal) => (refusal.number, 1, [lent[0], tested, search.place(&refusal)]),
        };
        if got != want {
            println!("{name}: octets {:02x?}\nfrom {} least {} before {}", search.octets, search.from, search.least, search.before);
            println!("library: number, kept, [found, tested, place] {got:?}\nindependent: {want:?}");
            panic!("library and independent version differ");
        }
        self.driver.count(&format!("hunt: {name}"), 1);
        self.driver.count(&format!("of these hunts answered with {:2}", want.0), 1);
    }

    /// By either rule; and what the default leaves unsettled by the other too, so that an only multiframe is always read.
    fn read(&mut self, name: &str, search: &Search, lent: &Lent) {
        let choices = self.chance.pick(&KNOWN_CHOICES);
        if (choices, self.read_chosen(name, search, choices, lent)) == (DEFAULT, UNSETTLED) {
            self.read_chosen(name, search, ONE_HEADER_SETTLES, lent);
        }
    }

    /// The number that both answer.
    fn read_chosen(&mut self, name: &str, search: &Search, choices: u64, lent: &Lent) -> u32 {
        let (index, report) = (self.chance.octets(lent.index), self.chance.octets(lent.report));
        let answer: Vec<u64> = (0..lent.answer).map(|_| self.chance.word()).collect();
        let came = Outcome { number: 0, kept: 1, place: self.chance.word(), answer, index, report };
        let call = search.call(b'B', self.driver.mode()).long(choices).signed(&lent.tables.codebook).signed(&lent.tables.thresholds);
        let call = call.octets(&came.index).octets(&came.report).longs(&came.answer).long(came.place);
        let mut back = self.driver.call(call, 16 + 8 * lent.answer + lent.index + lent.report);
        let got = Outcome {
            number: back.word(),
            kept: back.word(),
            place: back.long(),
            answer: (0..lent.answer).map(|_| back.long()).collect(),
            index: back.take(lent.index).to_vec(),
            report: back.take(lent.report).to_vec(),
        };
        let want = self.expected(search, choices, lent, came);
        if got != want {
            let first = |a: &[u8], b: &[u8]| a.iter().zip(b).position(|(x, y)| x != y);
            println!("{name}: octets {:02x?}\nfrom {} least {} before {}", search.octets, search.from, search.least, search.before);
            println!("choices {choices} thresholds {:?} rooms {} {}", lent.tables.thresholds, lent.index, lent.report);
            println!("library: number {} kept {} place {} answer {:?}", got.number, got.kept, got.place, got.answer);
            println!("independent: number {} kept {} place {} answer {:?}", want.number, want.kept, want.place, want.answer);
            println!("first other octet of index {:?}, of report {:?}", first(&got.index, &want.index), first(&got.report, &want.report));
            panic!("library and independent version differ");
        }
        self.driver.count(&format!("read: {name}"), 1);
        self.driver.count(&format!("of these readings answered with {:2}", want.number), 1);
        want.number
    }

    /// What the independent version returns and leaves of the memory that came.
    fn expected(&mut self, search: &Search, choices: u64, lent: &Lent, came: Outcome) -> Outcome {
        if lent.answer < ANSWER {
            return Outcome { number: ANSWER_SHORT, ..came };
        }
        let Some(rule) = rule_of(choices) else { return Outcome { number: NO_SUCH_CHOICE, ..came } };
        let (from, rooms) = (search.from - search.skipped(), (lent.index, lent.report));
        match read_bits(&self.code, &search.searched(), from, search.least, rule, lent.tables.lent(), rooms) {
            Ok(hunting) => {
                let (reading, counts) = (hunting.reading, [hunting.outside, hunting.tested]);
                self.driver.count("of these, multiframes found and read", reading.answer[2] as usize);
                self.driver.count("of these, readings with bits outside", (hunting.outside > 0) as usize);
                self.driver.count_notes(&reading.report);
                Outcome {
                    answer: over(&came.answer, &[&reading.answer[..], &counts].concat()),
                    index: over(&came.index, &reading.index),
                    report: over(&came.report, &reading.report),
                    ..came
                }
            }
            Err(refusal) => Outcome { number: refusal.number, place: search.place(&refusal), ..came },
        }
    }

    fn read_roomy(&mut self, name: &str, search: &Search) {
        let tables = tables(&mut self.chance);
        self.read_roomy_by(name, search, tables);
    }

    /// With room to spare for as many multiframes as could be there.
    fn read_roomy_by(&mut self, name: &str, search: &Search, tables: Tables) {
        let m = search.octets.len() / MULTIFRAME;
        let spare = self.chance.below(3);
        let lent = Lent { tables, index: INDICES * m + 20 * spare, report: REPORT * m + 20 * spare, answer: ANSWER + spare };
        self.read(name, search, &lent);
    }

    /// As read_roomy, with no threshold negative.
    fn read_fit(&mut self, name: &str, search: &Search) {
        let tables = fit_tables(&mut self.chance);
        self.read_roomy_by(name, search, tables);
    }

    fn both(&mut self, name: &str, search: &Search) {
        self.hunt(name, search);
        self.read_roomy(name, search);
    }

    fn least(&mut self) -> u64 {
        self.chance.pick(&LEASTS)
    }

    /// Mostly the start or a bit not far from it; else anywhere up to beyond the end, or where the last places are.
    fn first_bit(&mut self, octets: &[u8]) -> u64 {
        let bits = 8 * octets.len();
        (match self.chance.below(20) {
            0 => self.chance.below(bits + 3),
            1 => bits.saturating_sub(MULTIFRAME_BITS + self.chance.below(3)),
            2..=5 => self.chance.below(200.min(bits + 1)),
            _ => 0,
        }) as u64
    }

    fn parts(&mut self, most: usize) -> Vec<Part> {
        let m = 1 + self.chance.below(most);
        utterance(&mut self.chance, m)
    }

    fn shifts(&mut self) {
        for shift in 0..=1200 {
            for least in LEASTS {
                let octets = image(&self.parts(3));
                let bits = [gap(&mut self.chance, shift), bits_of(&octets)].concat();
                let octets = whole(&mut self.chance, &bits);
                self.both("images shifted by 0 to 1,200 bits", &Search::new(&octets, 0, least));
            }
        }
    }

    fn sync_flips(&mut self) {
        for flips in (0..1u32 << SYNC_BITS).filter(|flips| flips.count_ones() <= 5) {
            let parts = utterance(&mut self.chance, 1);
            let shift = self.chance.below(9);
            let mut bits = [noise(&mut self.chance, shift), bits_of(&parts[0].octets())].concat();
            for i in (0..SYNC_BITS).filter(|i| flips >> i & 1 == 1) {
                bits[shift + i] = !bits[shift + i];
            }
            let octets = whole(&mut self.chance, &bits);
            for least in LEASTS {
                self.hunt("every 0 to 5 flips of the sync", &Search::new(&octets, 0, least));
            }
        }
        for _ in 0..15_000 {
            let parts = self.parts(4);
            let bits = spread(&mut self.chance, &parts, 5, 40);
            let octets = whole(&mut self.chance, &bits);
            let (from, least) = (self.first_bit(&octets), self.least());
            self.read_roomy("0 to 5 flips in each sync", &Search::new(&octets, from, least));
        }
    }

    /// An opening at every distance before a true multiframe, over it or under it, and so that the bits end with either of the two.
    fn near_matches_before(&mut self) {
        for distance in 1..=MULTIFRAME_BITS + 8 {
            for over in [false, true] {
                for _ in 0..2 {
                    let (least, shift, tail) = (self.least(), self.chance.below(20), self.chance.below(1300));
                    let mut bits = gap(&mut self.chance, shift + distance + MULTIFRAME_BITS + tail);
                    let near = near_match(&mut self.chance, least);
                    lay(&mut bits, shift, &near);
                    lay(&mut bits, shift + distance, &bits_of(&image(&utterance(&mut self.chance, 1))));
                    if over {
                        lay(&mut bits, shift, &near);
                    }
                    let octets = whole(&mut self.chance, &bits);
                    self.both("a match at every distance before a multiframe", &Search::new(&octets, 0, least));
                }
            }
        }
    }

    fn near_matches_anywhere(&mut self) {
        for _ in 0..15_000 {
            let (parts, least) = (self.parts(4), self.least());
            let longest = self.chance.pick(&[0, 7, 60, 300, 1300]);
            let mut bits = spread(&mut self.chance, &parts, 16 - least as usize, longest);
            for _ in 0..1 + self.chance.below(4) {
                let place = self.chance.below(bits.len());
                let near = near_match(&mut self.chance, least);
                lay(&mut bits, place, &near);
            }
            let octets = whole(&mut self.chance, &bits);
            let from = self.first_bit(&octets);
            self.both("matches before, between and inside multiframes", &Search::new(&octets, from, least));
        }
    }

    fn gaps(&mut self) {
        for _ in 0..10_000 {
            let parts = self.parts(4);
            let longest = self.chance.pick(&[1, 7, 16, 64, 400]);
            let bits = spread(&mut self.chance, &parts, 0, longest);
            let octets = whole(&mut self.chance, &bits);
            let (from, least) = (self.first_bit(&octets), self.least());
            self.both("gaps of any number of bits, inverse syncs", &Search::new(&octets, from, least));
        }
    }

    /// Tails of every length: any bits, zeros, and a multiframe that is cut.
    fn tails(&mut self) {
        for tail in 0..MULTIFRAME_BITS + 8 {
            let parts = utterance(&mut self.chance, 2);
            let next = bits_of(&image(&parts));
            for bits in [noise(&mut self.chance, tail), vec![false; tail], next[..tail].to_vec()] {
                let shift = bits.len().next_multiple_of(8) - bits.len() + 8 * self.chance.below(2);
                let row = [gap(&mut self.chance, shift), bits_of(&parts[0].octets()), bits].concat();
                let octets = octets_of(&row);
                let least = self.least();
                self.both("tails of 0 to 1,159 bits", &Search::new(&octets, 0, least));
                self.hunt("tails alone", &Search::new(&octets, (shift + MULTIFRAME_BITS) as u64, least));
            }
        }
    }

    /// Every first bit from the start to beyond the end, and those that reach round the end of 64 bits.
    fn first_bits(&mut self) {
        for _ in 0..3 {
            let parts = utterance(&mut self.chance, 2);
            let bits = spread(&mut self.chance, &parts, 1, 90);
            let octets = whole(&mut self.chance, &bits);
            for from in 0..=8 * octets.len() as u64 + 9 {
                let least = self.least();
                self.both("every first bit, also beyond the end", &Search::new(&octets, from, least));
            }
        }
        let octets = image(&utterance(&mut self.chance, 2));
        for back in 1..=MULTIFRAME_BITS as u64 + 8 {
            let least = self.least();
            self.both("first bits just below 2^64", &Search::new(&octets, 0u64.wrapping_sub(back), least));
        }
        for power in 3..64 {
            for off in [-1153, -1152, -1, 0, 1, 1152] {
                for octets in [&octets[..], &octets[..100], &[]] {
                    let (from, least) = ((1u64 << power).wrapping_add_signed(off), self.least());
                    self.both("first bits about powers of two", &Search::new(octets, from, least));
                }
            }
        }
    }

    /// Every small T, and those that become 12 to 16 where a number is cut.
    fn leasts(&mut self) {
        let ends = [u64::MAX, u64::MAX - 3, 1 << 63, i64::MAX as u64];
        let cut = [8, 16, 31, 32, 63].into_iter().flat_map(|power| (11..=17).map(move |least| (1u64 << power) + least));
        let leasts: Vec<u64> = (0..=20).chain(ends).chain(cut).collect();
        let rows = [vec![], vec![0x87, 0xB2], self.chance.octets(200), image(&utterance(&mut self.chance, 2))];
        for &least in &leasts {
            for octets in &rows {
                for from in [0, 7, 8 * octets.len() as u64, u64::MAX] {
                    self.both("T from 0 to 20, and extreme ones", &Search::new(octets, from, least));
                }
            }
        }
    }

    /// Every flip of one, two and three header bits, and messages of other settings with 0 to 4.
    fn headers(&mut self) {
        for flips in up_to_three_flips() {
            let mut parts = utterance(&mut self.chance, 2);
            let k = self.chance.below(2);
            parts[k].header ^= flips;
            let bits = spread(&mut self.chance, &parts, 0, 12);
            let (octets, least) = (whole(&mut self.chance, &bits), self.least());
            self.both("every 1, 2 and 3 flips of a header", &Search::new(&octets, 0, least));
        }
        for _ in 0..10_000 {
            let mut parts = self.parts(5);
            let most = 1 + self.chance.below(4);
            for part in &mut parts {
                if self.chance.once_in(4) {
                    part.other_header(&mut self.chance);
                }
                part.header_damage(&mut self.chance, most);
            }
            let bits = spread(&mut self.chance, &parts, 1, 30);
            let octets = whole(&mut self.chance, &bits);
            let (from, least) = (self.first_bit(&octets), self.least());
            self.read_roomy("headers with other messages and 0 to 4 flips", &Search::new(&octets, from, least));
        }
    }

    fn damage_pairs(&mut self, parts: &mut [Part], rare: usize) {
        for part in parts {
            for p in 0..PAIRS {
                if self.chance.once_in(rare) {
                    part.packets[p] = bad_packet(&mut self.chance, part.packets[p]);
                }
            }
        }
    }

    fn pairs(&mut self) {
        for _ in 0..20_000 {
            let mut parts = self.parts(4);
            let rare = self.chance.pick(&[1, 2, 4, 12, 40]);
            self.damage_pairs(&mut parts, rare);
            let least = self.least();
            let bits = spread(&mut self.chance, &parts, 16 - least as usize, 20);
            let octets = whole(&mut self.chance, &bits);
            self.read_roomy("damaged pairs", &Search::new(&octets, 0, least));
        }
    }

    fn random_bits(&mut self) {
        for turn in 0..6_000 {
            let n = 130 + self.chance.below(300);
            let octets = self.chance.octets(n);
            let (from, least) = (self.first_bit(&octets), self.chance.pick(&[12, 12, 12, 13, 14, 15, 16]));
            self.hunt("random bits", &Search::new(&octets, from, least));
            if turn % 3 == 0 {
                self.read_roomy("random bits", &Search::new(&octets, from, 12));
            }
        }
        for _ in 0..6_000 {
            let least = self.least();
            let mut bits = vec![];
            while bits.len() < 1000 || !self.chance.once_in(60) {
                let piece = self.piece(least);
                bits.extend(piece);
            }
            let octets = whole(&mut self.chance, &bits);
            let from = self.first_bit(&octets);
            self.both("pieces of syncs, headers and other bits", &Search::new(&octets, from, least));
        }
    }

    /// Something short that a hunt may take for the start of a multiframe.
    fn piece(&mut self, least: u64) -> Bits {
        let n = self.chance.below(40);
        match self.chance.below(5) {
            0 => near_match(&mut self.chance, least),
            1 => opening(&mut self.chance, 0, 0)[..n].to_vec(),
            2 => opening(&mut self.chance, 16, 0)[..n].to_vec(),
            _ => gap(&mut self.chance, n),
        }
    }

    /// Rooms and tables of wrong lengths, together with what is refused before and after them.
    fn rooms(&mut self) {
        for m in 1..=12 {
            for short_index in [0, 1, INDICES, INDICES * m] {
                for short_report in [0, 1, REPORT, REPORT * m] {
                    for answer in [0, 5, 6, 7, 8, 9] {
                        let parts = utterance(&mut self.chance, m);
                        let bits = spread(&mut self.chance, &parts, 1, 9);
                        let search = Search::new(&whole(&mut self.chance, &bits), 0, 15);
                        let (index, report) = (INDICES * m - short_index, REPORT * m - short_report);
                        let lent = Lent { tables: fit_tables(&mut self.chance), index, report, answer };
                        self.read("buffers exact, one short, one multiframe short, empty", &search, &lent);
                    }
                }
            }
        }
        for codebook in [0, 1, 1279, 1280, 1281, 2560] {
            for thresholds in [0, 1, 13, 14, 15, 28] {
                for (least, from, answer) in [(16, 0, 8), (11, 0, 8), (12, u64::MAX, 8), (17, u64::MAX, 8), (12, 0, 7), (11, 1, 0)] {
                    let octets = image(&utterance(&mut self.chance, 2));
                    let tables = Tables { codebook: vec![0; codebook], thresholds: vec![0; thresholds] };
                    let lent = Lent { tables, index: 2 * INDICES, report: 2 * REPORT, answer };
                    self.read("codebooks and thresholds of other lengths", &Search::new(&octets, from, least), &lent);
                }
            }
        }
    }

    /// Several faults at once: the order of the refusals.
    fn mixed(&mut self) {
        for _ in 0..15_000 {
            let mut parts = self.parts(3);
            let m = parts.len();
            let rare = self.chance.pick(&[1, 1, 3]);
            self.damage_pairs(&mut parts, rare);
            for part in parts.iter_mut() {
                if self.chance.once_in(3) {
                    part.other_header(&mut self.chance);
                }
                part.header_damage(&mut self.chance, 3);
            }
            let bits = spread(&mut self.chance, &parts, 2, 30);
            let mut octets = whole(&mut self.chance, &bits);
            if self.chance.once_in(10) {
                octets.truncate(octets.len() - self.chance.below(200).min(octets.len()));
            }
            let mut tables = tables(&mut self.chance);
            if self.chance.once_in(30) {
                tables.codebook.pop();
            }
            let (from, least) = (self.first_bit(&octets), self.chance.pick(&[11, 12, 13, 14, 15, 16, 16, 17]));
            let short = |chance: &mut Chance| chance.pick(&[0, 0, 0, 1]);
            let (index, report) = (INDICES * m - short(&mut self.chance), REPORT * m - short(&mut self.chance));
            let lent = Lent { tables, index, report, answer: self.chance.pick(&[7, 8, 8, 8, 8, 8, 8, 9]) };
            self.read("several faults at once", &Search::new(&octets, from, least), &lent);
        }
    }

    fn most(&mut self) {
        for m in MOST - 1..=MOST + 2 {
            for longest in [0, 5, 60, 1000] {
                for least in LEASTS {
                    let mut parts = utterance(&mut self.chance, m);
                    self.damage_pairs(&mut parts, 40);
                    let bits = spread(&mut self.chance, &parts, 16 - least as usize, longest);
                    let octets = whole(&mut self.chance, &bits);
                    self.read_fit("254 to 257 multiframes, also with gaps", &Search::new(&octets, 0, least));
                }
            }
        }
    }

    /// Every number of multiframes, behind each other and with gaps.
    fn every_number(&mut self) {
        for m in 1..=MOST {
            for longest in [0, 40] {
                let parts = utterance(&mut self.chance, m);
                let bits = spread(&mut self.chance, &parts, 0, longest);
                let octets = whole(&mut self.chance, &bits);
                let least = self.least();
                self.read_fit("every number of multiframes, also with gaps", &Search::new(&octets, 0, least));
            }
        }
    }

    /// 255 multiframes, of which each by turns is lost, out of step, damaged or moved.
    fn one_amiss(&mut self) {
        for k in 0..MOST {
            let mut parts = utterance(&mut self.chance, MOST);
            let kind = self.chance.below(6);
            match kind {
                0 => parts[k].lose_header(&mut self.chance),
                1 => parts[k].header ^= 0b11 << self.chance.below(31),
                2 => parts[k].other_header(&mut self.chance),
                _ => self.damage_pairs(&mut parts[k..k + 1], 3),
            }
            let mut bits = bits_of(&image(&parts));
            let start = MULTIFRAME_BITS * k;
            match kind {
                4 => flip(&mut self.chance, &mut bits[start..][..SYNC_BITS], 3),
                5 => bits = [&bits[..start], &gap(&mut self.chance, 13), &bits[start..]].concat(),
                _ => {}
            }
            let (octets, least) = (whole(&mut self.chance, &bits), self.least());
            self.read_fit("one thing amiss in each of 255 multiframes", &Search::new(&octets, 0, least));
        }
    }

    /// Damage, other settings, runs of bad pairs and gaps anywhere in long utterances; and settings settled by two headers anywhere.
    fn anywhere(&mut self) {
        for turn in 0..80 {
            let m = if turn % 3 == 0 { 20 + self.chance.below(236) } else { MOST };
            let mut parts = utterance(&mut self.chance, m);
            if turn % 2 == 0 {
                damage_anywhere(&mut self.chance, &mut parts);
            } else {
                let agree = self.chance.places(2, m);
                estrange(&mut self.chance, &mut parts, &agree);
            }
            let (flips, longest) = (self.chance.pick(&[0, 0, 3]), self.chance.pick(&[0, 0, 9, 70]));
            let bits = spread(&mut self.chance, &parts, flips, longest);
            let (octets, least) = (whole(&mut self.chance, &bits), self.least());
            self.read_fit("damage and settings anywhere in long utterances", &Search::new(&octets, 0, least));
        }
    }

    /// Every set of refusals that can apply at once, by both rules and with a choice that there is not, each with an answer that is too
    /// short and with one that is not. By the default rule an only multiframe is unsettled whatever its header.
    fn every_set(&mut self) {
        for set in 0..3 * 3 * 64 {
            for turn in 0..4 {
                let (met, settings) = ([0, 22, 15][set % 3], set / 3 % 3);
                let has = |fault: usize| set / 9 >> fault & 1 == 1;
                if met == 15 && turn > 1 {
                    continue;
                }
                let m = if met == 15 { MOST + 1 } else { [1, 2 + self.chance.below(3)][turn / 2] };
                let mut parts = utterance(&mut self.chance, m);
                match settings {
                    1 => unsettle_found(&mut self.chance, &mut parts),
                    2 => forbid(&mut self.chance, &mut parts),
                    _ => {}
                }
                if has(0) {
                    spoil(&mut self.chance, &mut parts);
                }
                let zeros = vec![0; self.chance.below(3)];
                let octets = [&zeros[..], &if met == 22 { self.chance.octets(143) } else { image(&parts) }].concat();
                let from = self.chance.below(8 * zeros.len() + 1) as u64;
                let least = if has(1) { self.chance.pick(&[0, 11, 17, 1 << 32 | 12, u64::MAX]) } else { 16 };
                let lent = self.lend_faulty(m, [has(2), has(3), has(4), has(5)], turn % 2 == 1);
                let search = Search::new(&octets, from, least);
                self.hunt("every set of refusals at once", &search);
                for choices in [DEFAULT, ONE_HEADER_SETTLES, self.chance.pick(&unknown_choices())] {
                    self.read_chosen("every set of refusals at once", &search, choices, &lent);
                }
            }
        }
    }

    /// A search and rooms that are refused with the number if the tables are fit, or read if it is 0.
    fn refused_with(&mut self, number: u32) -> (Search, usize, usize) {
        let m = if number == 15 { MOST + 1 } else { 2 + self.chance.below(2) };
        let mut parts = utterance(&mut self.chance, m);
        match number {
            16 => unsettle_found(&mut self.chance, &mut parts),
            17 => forbid(&mut self.chance, &mut parts),
            20 => spoil(&mut self.chance, &mut parts),
            _ => {}
        }
        let shift = self.chance.below(20);
        let bits = [vec![false; shift], bits_of(&image(&parts))].concat();
        let octets = whole(&mut self.chance, &bits);
        let beyond = [8 * octets.len() as u64, (8 * octets.len() + 1) as u64, 1 << 40, u64::MAX];
        let from = if number == 22 { self.chance.pick(&beyond) } else { 0 };
        let least = if number == 21 { self.chance.pick(&[0, 11, 17, 1 << 32 | 12, u64::MAX]) } else { 16 };
        (Search::new(&octets, from, least), INDICES * m - (number == 18) as usize, REPORT * m - (number == 19) as usize)
    }

    /// Each threshold negative alone, every two of them and all from each on, and 0 at each place, which is not negative: with numbers that
    /// are all 0 and with any, and whatever else would be refused.
    fn negative_thresholds(&mut self) {
        let zeros = Tables { codebook: vec![0; CODEBOOK], thresholds: vec![0; THRESHOLDS] };
        for number in [0].into_iter().chain(15..=22) {
            let (search, index, report) = self.refused_with(number);
            for place in 0..THRESHOLDS {
                for value in [-1, -2, -256, i32::MIN, i32::MIN + 1, negative(&mut self.chance)] {
                    for mut tables in [zeros.clone(), fit_tables(&mut self.chance)] {
                        tables.thresholds[place] = value;
                        let lent = Lent { tables, index, report, answer: ANSWER };
                        self.read("each threshold negative, whatever else is refused", &search, &lent);
                    }
                }
                let mut tables = fit_tables(&mut self.chance);
                tables.thresholds[place..].fill_with(|| negative(&mut self.chance));
                self.read("all thresholds from each on negative", &search, &Lent { tables, index, report, answer: ANSWER });
            }
        }
        let (search, index, report) = self.refused_with(0);
        for value in [-1, -2, i32::MIN, i32::MIN + 1, negative(&mut self.chance)] {
            for tables in [zeros.clone(), fit_tables(&mut self.chance)] {
                let tables = Tables { thresholds: vec![value; THRESHOLDS], ..tables };
                self.read("all thresholds negative and alike", &search, &Lent { tables, index, report, answer: ANSWER });
            }
        }
        for place in 0..THRESHOLDS {
            let mut tables = fit_tables(&mut self.chance);
            tables.thresholds.iter_mut().for_each(|threshold| *threshold = (*threshold).max(1));
            tables.thresholds[place] = 0;
            self.read("each threshold 0 and the others above it", &search, &Lent { tables, index, report, answer: ANSWER });
            for first in 0..place {
                let any = (negative(&mut self.chance), negative(&mut self.chance));
                for (one, two) in [(-1, -1), (-1, i32::MIN), (i32::MIN, -1), any] {
                    let mut tables = fit_tables(&mut self.chance);
                    (tables.thresholds[first], tables.thresholds[place]) = (one, two);
                    self.read("every two thresholds negative", &search, &Lent { tables, index, report, answer: ANSWER });
                }
            }
        }
        let nothing = Search::new(&[], 5, 12);
        for (codebook, thresholds) in [0, 1279, 1280, 1281].into_iter().flat_map(|codebook| [1, 13, 14, 15, 28].map(|n| (codebook, n))) {
            for place in 0..thresholds {
                for search in [&search, &nothing] {
                    let mut tables = Tables { codebook: vec![0; codebook], thresholds: vec![0; thresholds] };
                    tables.thresholds[place] = negative(&mut self.chance);
                    self.read("tables of other lengths with a negative threshold", search, &Lent { tables, index, report, answer: ANSWER });
                }
            }
        }
        self.negative_and_many_octets();
    }

    /// More octets than 255 multiframes have: inverse syncs, and multiframes behind them or none, searched from anywhere and also for a
    /// number of bits that is refused.
    fn negative_and_many_octets(&mut self) {
        let image = image(&utterance(&mut self.chance, 2));
        for length in [36_722, 40_001, 40_002, 65_537, 65_538, 80_000, 131_074, 1 << 18, 1_000_000] {
            let inverse: Vec<u8> = INVERSE.into_iter().cycle().take(length).collect();
            for octets in [[&inverse[..], &image].concat(), inverse] {
                for (place, least) in [(0, 16), (1 + self.chance.below(THRESHOLDS - 2), 17), (THRESHOLDS - 1, 12)] {
                    let from = self.chance.pick(&[0, 8 * length as u64, 8 * octets.len() as u64, u64::MAX]);
                    let mut tables = fit_tables(&mut self.chance);
                    tables.thresholds[place] = negative(&mut self.chance);
                    let lent = Lent { tables, index: 2 * INDICES, report: 2 * REPORT, answer: ANSWER };
                    self.read("a negative threshold and many octets", &Search::new(&octets, from, least), &lent);
                }
            }
        }
    }

    /// The multiframes, a gap before them, read by the tables; once in a while there are gaps between and behind them too.
    fn read_steps(&mut self, name: &str, parts: &[Part], steps: &Steps) {
        let shift = self.chance.below(20);
        let (bits, from) = match self.chance.below(3) {
            0 => (spread(&mut self.chance, parts, 0, 40), 0),
            _ => ([vec![false; shift], bits_of(&image(parts))].concat(), shift as u64),
        };
        let octets = whole(&mut self.chance, &bits);
        self.read_roomy_by(name, &Search::new(&octets, from, 16), steps.tables.clone());
    }

    /// Rises and falls of one element in each of two index pairs, by the threshold, by one more and by more than that: of every two index
    /// pairs, elements, directions and sizes, all over 255 multiframes and alone among calm ones.
    fn rises_and_falls(&mut self) {
        let mut tables: Vec<Steps> = (0..4).map(|_| Steps::any(&mut self.chance)).collect();
        tables.extend([i32::MAX, i32::MAX - 1, 1, 0].map(|threshold| Steps::at_the_ends(&mut self.chance, threshold)));
        for (turn, steps) in tables.iter().enumerate() {
            let twos = every_two_steps_shuffled(&mut self.chance);
            for (first, half) in twos.chunks(1512).enumerate() {
                let parts = steps.dense(&mut self.chance, MOST, first, half);
                self.read_steps("rises and falls in each second of 3,060 pairs", &parts, steps);
            }
            for start in 0..5 {
                let parts = steps.chain(&mut self.chance, MOST, &twos[600 * start..]);
                self.read_steps("rises and falls in long runs of 3,060 pairs", &parts, steps);
            }
            for exceeding in falling_rising_and_all(&twos) {
                let failing = self.chance.pick(&[1, 2, 11, 12, 35]);
                let parts = steps.to_the_end(&mut self.chance, MOST, failing, &exceeding);
                self.read_steps("rises and falls in a run to the last of 3,060 pairs", &parts, steps);
            }
            let places = [0, 1399, 1400, 3059].map(|q| if self.chance.once_in(3) { self.chance.below(3060) } else { q });
            for (q, two) in places.into_iter().zip(&twos) {
                let beside = self.chance.pick(&[Beside::NextFails, Beside::OneBeforeIsBad]);
                let parts = steps.alone(&mut self.chance, MOST, q, two, beside);
                self.read_steps("rises and falls of one pair of 3,060", &parts, steps);
            }
            for two in every_two_steps().iter().skip(turn).step_by(8) {
                let m = 1 + self.chance.below(3);
                let (q, beside) = (self.chance.below(PAIRS * m), self.chance.pick(&[Beside::NextFails, Beside::OneBeforeIsBad]));
                let parts = steps.alone(&mut self.chance, m, q, two, beside);
                self.read_steps("rises and falls of one pair of up to 36", &parts, steps);
            }
        }
    }

    fn read_by_both(&mut self, name: &str, search: &Search, lent: &Lent) {
        for choices in KNOWN_CHOICES {
            self.read_chosen(name, search, choices, lent);
        }
    }

    /// A multiframe that a hunt finds alone, and the first bit searched: by itself, between other bits, or beside another that is not
    /// found, because its header is lost, it is cut, or the search begins behind its first bit.
    fn found_alone(&mut self, only: &Part, company: usize) -> (Bits, u64) {
        let only = bits_of(&only.octets());
        let mut other = utterance(&mut self.chance, 1);
        if company == 2 {
            other[0].lose_header(&mut self.chance);
        }
        let other = bits_of(&image(&other));
        let (before, after) = (self.chance.below(40), self.chance.below(1300));
        match company {
            0 => (only, 0),
            1 => ([gap(&mut self.chance, before), only, gap(&mut self.chance, after)].concat(), 0),
            2 => ([other, only].concat(), 0),
            3 => ([&only[..], &other[..MULTIFRAME_BITS - 8]].concat(), 0),
            _ => ([other, only].concat(), 1),
        }
    }

    /// An only multiframe found, whatever its header and company, by both rules: with its pairs good, some bad or all bad, with short rooms
    /// and wrong tables.
    fn only_multiframe(&mut self) {
        for header in only_headers(&mut self.chance) {
            for faults in 0..3 * 4 * 2 * 5 {
                let mut parts = utterance(&mut self.chance, 1);
                parts[0].header = header;
                match faults % 3 {
                    1 => parts[0].packets[self.chance.below(PAIRS)] ^= 1 << self.chance.below(92),
                    2 => spoil(&mut self.chance, &mut parts),
                    _ => {}
                }
                let (index, report) = (INDICES - faults / 3 % 2, REPORT - faults / 6 % 2);
                let mut tables = tables(&mut self.chance);
                tables.thresholds.truncate(THRESHOLDS - faults / 12 % 2);
                let (bits, from) = self.found_alone(&parts[0], faults / 24);
                let search = Search::new(&whole(&mut self.chance, &bits), from, self.least());
                let lent = Lent { tables, index, report, answer: ANSWER };
                self.read_by_both("an only multiframe, whatever its header, by both rules", &search, &lent);
            }
        }
    }

    /// Two and three multiframes whose headers agree, are mended, have other settings or are lost, in every way: by both rules.
    fn more_than_one(&mut self) {
        for m in [2, 3] {
            for kinds in 0..4usize.pow(m) {
                for _ in 0..8 {
                    let mut parts = utterance(&mut self.chance, m as usize);
                    for (k, part) in parts.iter_mut().enumerate() {
                        set_header(&mut self.chance, part, kinds >> (2 * k) & 3);
                    }
                    let bits = spread(&mut self.chance, &parts, 0, 40);
                    let search = Search::new(&whole(&mut self.chance, &bits), 0, self.least());
                    let (tables, m) = (tables(&mut self.chance), m as usize);
                    let lent = Lent { tables, index: INDICES * m, report: REPORT * m, answer: ANSWER };
                    self.read_by_both("two or three multiframes, headers of every kind", &search, &lent);
                }
            }
        }
    }

    /// Choices that there are not, with answers of every length up to ten numbers, whatever else would be refused or read.
    fn unknown_choices(&mut self) {
        for choices in unknown_choices() {
            for answer in 0..=10 {
                let octets = image(&self.parts(2));
                let m = octets.len() / MULTIFRAME;
                for (from, least) in [(0, 16), (u64::MAX, 12), (0, 11)] {
                    let mut tables = tables(&mut self.chance);
                    tables.codebook.truncate(CODEBOOK - self.chance.below(2));
                    let (index, report) = self.chance.pick(&[(INDICES * m, REPORT * m), (0, 0)]);
                    let search = Search::new(&octets, from, least);
                    self.read_chosen("choices that there are not", &search, choices, &Lent { tables, index, report, answer });
                }
            }
        }
    }

    /// Tables of another length, negative thresholds, short index and report buffers, a short answer: those that are said.
    fn lend_faulty(&mut self, m: usize, faults: [bool; 4], short_answer: bool) -> Lent {
        let tables = faulty_tables(&mut self.chance, faults[0], faults[1]);
        let index = if faults[2] { self.chance.pick(&[0, INDICES * m.min(MOST) - 1]) } else { INDICES * m };
        let report = if faults[3] { self.chance.pick(&[0, REPORT * m.min(MOST) - 1]) } else { REPORT * m };
        let answer = if short_answer { self.chance.below(ANSWER) } else { ANSWER + self.chance.below(3) };
        Lent { tables, index, report, answer }
    }

    /// Hunts that begin, or end, far from the start.
    fn late_hunts(&mut self) {
        for _ in 0..12 {
            let parts = utterance(&mut self.chance, MOST);
            let bits = spread(&mut self.chance, &parts, 3, 30);
            let octets = whole(&mut self.chance, &bits);
            for _ in 0..20 {
                let from = 8 * octets.len() - self.chance.below(5 * MULTIFRAME_BITS);
                let least = self.least();
                self.both("first bits in the last of 255 multiframes", &Search::new(&octets, from as u64, least));
            }
        }
    }

    /// More than 65,536 places before a multiframe, and with none behind them.
    fn far_hunts(&mut self) {
        for turn in 0..60 {
            let n = 8 * 10_000 + self.chance.below(200_000);
            let mut bits = gap(&mut self.chance, n);
            if turn % 3 != 0 {
                bits.extend(bits_of(&image(&self.parts(2))));
            }
            let (octets, least) = (whole(&mut self.chance, &bits), self.least());
            self.both("more than 65,536 places before a multiframe, or none", &Search::new(&octets, 0, least));
        }
    }

    /// What can follow 255 multiframes: a match at any distance, what only nearly is one, and both cut by a few bits.
    fn after_the_last(&mut self) {
        for _ in 0..150 {
            let least = self.least();
            let any = self.chance.below(1300);
            let between = self.chance.pick(&[0, 0, 1, 7, 8, any]);
            let end = [gap(&mut self.chance, between), near_match(&mut self.chance, least)].concat();
            let missing = MULTIFRAME_BITS + between - end.len();
            let left = missing - self.chance.pick(&[0, 0, 0, 1, 7, 8, 300]);
            let end = [end, gap(&mut self.chance, left)].concat();
            let shift = end.len().next_multiple_of(8) - end.len();
            let whole = bits_of(&image(&utterance(&mut self.chance, MOST)));
            let octets = octets_of(&[gap(&mut self.chance, shift), whole, end].concat());
            let from = self.chance.pick(&[0, shift as u64]);
            self.read_fit("255 multiframes and a match, or nearly one", &Search::new(&octets, from, least));
        }
        let octets = image(&utterance(&mut self.chance, MOST));
        for (index, report) in [(42839, 3315), (42840, 3314), (42840, 3315), (42841, 3316), (0, 0)] {
            let lent = Lent { tables: fit_tables(&mut self.chance), index, report, answer: ANSWER };
            self.read("255 multiframes, buffers one short, exact, one more", &Search::new(&octets, 0, 16), &lent);
        }
    }

    /// A match after 255 multiframes is refused before all that the 255 would be refused with: settings, rooms, every pair bad.
    fn too_many_comes_first(&mut self) {
        for kind in 0..4 {
            for (index, report) in [(0, 0), (42839, 3315), (42840, 3314), (42840, 3315)] {
                let mut parts = utterance(&mut self.chance, MOST + 1);
                for (k, part) in parts.iter_mut().enumerate() {
                    match kind {
                        1 => part.header = encode((k as u16) << 7),
                        2 => part.header = encode(2 | (part.header as u16) & !3),
                        _ => {}
                    }
                }
                if kind == 3 {
                    self.damage_pairs(&mut parts, 1);
                }
                let octets = image(&parts);
                for octets in [&octets[..], &octets[..octets.len() - 1]] {
                    let lent = Lent { tables: fit_tables(&mut self.chance), index, report, answer: ANSWER };
                    self.read("256 multiframes, whole and cut, of which 255 would be refused", &Search::new(octets, 0, 16), &lent);
                }
            }
        }
    }

    /// All hunts come before the readings: a library that cuts a bit's number would hunt for long in a reading.
    fn wide(&mut self) {
        let mut searches = vec![];
        for before in [(1 << 29) - 100, 1 << 29, 1 << 32, (1 << 32) + 144] {
            for least in LEASTS.repeat(6) {
                let mut parts = self.parts(4);
                damage_anywhere(&mut self.chance, &mut parts);
                let bits = spread(&mut self.chance, &parts, 17 - least as usize, 50);
                let octets = whole(&mut self.chance, &bits);
                let from = 8 * before + self.first_bit(&octets);
                searches.push(Search { before, octets, from, least });
            }
            let octets = image(&utterance(&mut self.chance, MOST + 1));
            searches.push(Search { before, octets, from: 8 * before, least: 16 });
        }
        for search in &searches {
            self.hunt("bits beyond 2^32 in number", search);
        }
        for search in &searches {
            self.read_fit("bits beyond 2^32 in number, also a 256th multiframe", search);
        }
    }

    fn many_places(&mut self) {
        let octets = image(&self.parts(3));
        self.both("more than 2^24 places before a multiframe", &Search { before: (1 << 21) + 5, octets, from: 0, least: 16 });
    }
}

impl Tools for Check {
    fn tools(&mut self) -> (&mut Driver, &mut Chance) {
        (&mut self.driver, &mut self.chance)
    }
}

fn main() {
    let check = |driver, chance| Check { driver, chance, code: Code::new() };
    let rounds: &[Round<Check>] = &[
        ("negative_thresholds", Check::negative_thresholds),
        ("rises_and_falls", Check::rises_and_falls),
        ("every_set", Check::every_set),
        ("only_multiframe", Check::only_multiframe),
        ("more_than_one", Check::more_than_one),
        ("unknown_choices", Check::unknown_choices),
        ("anywhere", Check::anywhere),
        ("wide", Check::wide),
        ("far_hunts", Check::far_hunts),
        ("many_places", Check::many_places),
        ("every_number", Check::every_number),
        ("one_amiss", Check::one_amiss),
        ("shifts", Check::shifts),
        ("sync_flips", Check::sync_flips),
        ("near_matches_before", Check::near_matches_before),
        ("near_matches_anywhere", Check::near_matches_anywhere),
        ("gaps", Check::gaps),
        ("tails", Check::tails),
        ("first_bits", Check::first_bits),
        ("leasts", Check::leasts),
        ("headers", Check::headers),
        ("pairs", Check::pairs),
        ("random_bits", Check::random_bits),
        ("rooms", Check::rooms),
        ("mixed", Check::mixed),
        ("most", Check::most),
        ("late_hunts", Check::late_hunts),
        ("after_the_last", Check::after_the_last),
        ("too_many_comes_first", Check::too_many_comes_first),
    ];
    run(check, rounds, 250_000);
}
