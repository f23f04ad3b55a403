//! Compares the library's reader with the independent version. Arguments: the command that runs the read driver.
#![deny(dead_code)] // a round that is in no list
use independent::chance::Chance;
use independent::driver::{over, rule_of, unknown_choices, Call, Driver, ANSWER_SHORT, NO_SUCH_CHOICE};
use independent::driver::{DEFAULT, KNOWN_CHOICES, ONE_HEADER_SETTLES};
use independent::header::{encode, Code};
use independent::reading::{read, Rule, CODEBOOK, REPORT, THRESHOLDS};
use independent::rounds::{run, Round, Tools};
use independent::steps::{every_two_steps, every_two_steps_shuffled, falling_rising_and_all, Beside, Steps};
use independent::stream::{packet_of, packets_of, INDICES, PAIRS};
use independent::utterance::{bad_packet, damage_anywhere, estrange, faulty_tables, fit_tables, forbid, image, negative, only_headers};
use independent::utterance::{set_header, spoil, tables, unsettle, utterance, Part, Tables};
use independent::writing::{INVERSE, MULTIFRAME, SYNC};

const ANSWER: usize = 6;
const UNSETTLED: u32 = 16;

/// What a call takes besides octets and tables: the rooms of the index and the report buffer, how many numbers the answer has, and the
/// choice.
#[derive(Clone, Copy, Debug)]
struct Asked {
    rooms: (usize, usize),
    numbers: usize,
    choices: u64,
}

/// What a reading returns and leaves in the lent memory.
#[derive(Clone, PartialEq)]
struct Outcome {
    number: u32,
    kept: u32,
    place: u64,
    answer: Vec<u64>,
    index: Vec<u8>,
    report: Vec<u8>,
}

struct Check {
    driver: Driver,
    chance: Chance,
    code: Code,
}

impl Check {
    /// By either rule; and what the default leaves unsettled by the other too, so that an only multiframe is always read.
    fn compare(&mut self, name: &str, octets: &[u8], tables: &Tables, rooms: (usize, usize)) {
        let choices = self.chance.pick(&KNOWN_CHOICES);
        let number = self.compare_asked(name, octets, tables, Asked { rooms, numbers: ANSWER, choices });
        if (choices, number) == (DEFAULT, UNSETTLED) {
            self.compare_asked(name, octets, tables, Asked { rooms, numbers: ANSWER, choices: ONE_HEADER_SETTLES });
        }
    }

    /// The number that both answer.
    fn compare_asked(&mut self, name: &str, octets: &[u8], tables: &Tables, asked: Asked) -> u32 {
        let Asked { rooms, numbers, choices } = asked;
        let came = self.lend(rooms, numbers);
        let call = Call::kind(b'R').octet(self.driver.mode()).long(choices).octets(octets);
        let call = call.signed(&tables.codebook).signed(&tables.thresholds);
        let call = call.octets(&came.index).octets(&came.report).longs(&came.answer).long(came.place);
        let mut back = self.driver.call(call, 16 + 8 * numbers + rooms.0 + rooms.1);
        let got = Outcome {
            number: back.word(),
            kept: back.word(),
            place: back.long(),
            answer: (0..numbers).map(|_| back.long()).collect(),
            index: back.take(rooms.0).to_vec(),
            report: back.take(rooms.1).to_vec(),
        };
        let want = self.expected(octets, tables, choices, came);
        if got != want {
            let first = |a: &[u8], b: &[u8]| a.iter().zip(b).position(|(x, y)| x != y);
            println!("{name}: octets {octets:02x?}\nthresholds {:?} {asked:?}", tables.thresholds);
            println!("library: number {} kept {} place {} answer {:?}", got.number, got.kept, got.place, got.answer);
            println!("independent: number {} kept {} place {} answer {:?}", want.number, want.kept, want.place, want.answer);
            println!("first other octet of index {:?}, of report {:?}", first(&got.index, &want.index), first(&got.report, &want.report));
            panic!("library and independent version differ");
        }
        self.driver.count(name, 1);
        self.driver.count(&format!("of these answered with {:2}", want.number), 1);
        want.number
    }

    /// What is lent: any octets and numbers.
    fn lend(&mut self, rooms: (usize, usize), numbers: usize) -> Outcome {
        let (index, report) = (self.chance.octets(rooms.0), self.chance.octets(rooms.1));
        let answer = (0..numbers).map(|_| self.chance.word()).collect();
        Outcome { number: 0, kept: 1, place: self.chance.word(), answer, index, report }
    }

    /// What the independent version returns and leaves of the memory that came.
    fn expected(&mut self, octets: &[u8], tables: &Tables, choices: u64, came: Outcome) -> Outcome {
        if came.answer.len() < ANSWER {
            return Outcome { number: ANSWER_SHORT, ..came };
        }
        let Some(rule) = rule_of(choices) else { return Outcome { number: NO_SUCH_CHOICE, ..came } };
        match read(&self.code, octets, rule, tables.lent(), (came.index.len(), came.report.len())) {
            Ok(reading) => {
                self.driver.count_notes(&reading.report);
                Outcome {
                    answer: over(&came.answer, &reading.answer),
                    index: over(&came.index, &reading.index),
                    report: over(&came.report, &reading.report),
                    ..came
                }
            }
            Err(refusal) => Outcome { number: refusal.number, place: refusal.place, ..came },
        }
    }

    /// With room to spare for as many multiframes as could be there.
    fn compare_roomy(&mut self, name: &str, octets: &[u8], tables: &Tables) {
        let m = octets.len() / MULTIFRAME;
        let spare = self.chance.below(3) * 20;
        self.compare(name, octets, tables, (INDICES * m + spare, REPORT * m + spare));
    }

    fn clean(&mut self) {
        for m in (1..=20).chain([64, 254, 255]) {
            for _ in 0..if m > 20 { 5 } else { 100 } {
                let parts = utterance(&mut self.chance, m);
                let tables = tables(&mut self.chance);
                self.compare_roomy("clean utterances of 1 to 20, 64, 254, 255 multiframes", &image(&parts), &tables);
            }
        }
    }

    fn headers(&mut self) {
        for _ in 0..20_000 {
            let m = 1 + self.chance.below(6);
            let mut parts = utterance(&mut self.chance, m);
            let most = 1 + self.chance.below(4);
            for part in &mut parts {
                if self.chance.once_in(4) {
                    part.other_header(&mut self.chance);
                }
                part.header_damage(&mut self.chance, most);
            }
            let tables = tables(&mut self.chance);
            self.compare_roomy("headers with other messages and 0 to 4 flips", &image(&parts), &tables);
        }
        for flips in 0..3 {
            for _ in 0..600 {
                let mut parts = utterance(&mut self.chance, 1);
                if self.chance.once_in(2) {
                    parts[0].other_header(&mut self.chance);
                }
                for place in self.chance.places(flips, 32) {
                    parts[0].header ^= 1 << place;
                }
                let tables = tables(&mut self.chance);
                self.compare_roomy("an only multiframe, 0 to 2 flips", &image(&parts), &tables);
            }
        }
        let parts = utterance(&mut self.chance, 3);
        let tables = fit_tables(&mut self.chance);
        for a in 0..32 {
            for b in a..32 {
                for k in 0..3 {
                    let mut damaged = parts.clone();
                    damaged[k].header ^= 1 << a | 1 << b;
                    self.compare_roomy("every one and two flipped places of each of three headers", &image(&damaged), &tables);
                }
            }
        }
    }

    /// All headers lost but two that agree, at every two places; and all but one.
    fn lost_headers(&mut self) {
        for m in [2, 5, 20] {
            for a in 0..m {
                for b in a..m {
                    let mut parts = utterance(&mut self.chance, m);
                    for (k, part) in parts.iter_mut().enumerate() {
                        if k != a && k != b {
                            part.header ^= 0b111 << self.chance.below(30);
                        }
                    }
                    let tables = fit_tables(&mut self.chance);
                    self.compare_roomy("all headers lost but two, and but one", &image(&parts), &tables);
                }
            }
        }
    }

    fn pairs(&mut self) {
        for _ in 0..40_000 {
            let m = 1 + self.chance.below(4);
            let mut parts = utterance(&mut self.chance, m);
            let rare = self.chance.pick(&[1, 2, 4, 12, 40]);
            for k in 0..m {
                for p in 0..PAIRS {
                    if self.chance.once_in(rare) {
                        parts[k].packets[p] = bad_packet(&mut self.chance, parts[k].packets[p]);
                    }
                }
            }
            let tables = tables(&mut self.chance);
            self.compare_roomy("pairs with flips, bursts and double flips", &image(&parts), &tables);
        }
        for distance in 1..92 {
            for at in (0..92 - distance).step_by(7) {
                let mut parts = utterance(&mut self.chance, 2);
                let (k, p) = (self.chance.below(2), self.chance.below(PAIRS));
                parts[k].packets[p] ^= 1 << at | 1 << (at + distance);
                let tables = fit_tables(&mut self.chance);
                self.compare_roomy("double flips at every distance", &image(&parts), &tables);
            }
        }
    }

    /// Every two flipped bits of a packet, in the middle of an octet and at its start, first, middle and last.
    fn two_flips(&mut self) {
        let parts = utterance(&mut self.chance, 2);
        let tables = Tables { codebook: (0..CODEBOOK).map(|_| self.chance.below(2001) as i32).collect(), thresholds: vec![400; THRESHOLDS] };
        for (k, p) in [(0, 0), (0, 11), (1, 6), (1, 11)] {
            for a in 0..92 {
                for b in a + 1..92 {
                    let mut damaged = parts.clone();
                    damaged[k].packets[p] ^= 1 << a | 1 << b;
                    self.compare_roomy("every two flipped bits of four packets", &image(&damaged), &tables);
                }
            }
        }
    }

    /// A run of bad pairs from every start to every end, so at both ends and across multiframes; with every table.
    fn runs(&mut self) {
        for m in [1, 2, 3] {
            for start in 0..PAIRS * m {
                for end in start + 1..=PAIRS * m {
                    for _ in 0..4 {
                        let mut parts = utterance(&mut self.chance, m);
                        for p in start..end {
                            parts[p / PAIRS].packets[p % PAIRS] ^= 1 << self.chance.below(92);
                        }
                        let tables = tables(&mut self.chance);
                        self.compare_roomy("a run of bad pairs from every pair to every pair", &image(&parts), &tables);
                    }
                }
            }
        }
        let any: Vec<[usize; 2]> = (0..8).map(|_| [self.chance.below(3060), self.chance.below(3060)]).collect();
        let ends = [[0, 0], [1, 1], [1500, 1500], [3058, 3058], [3059, 3059], [0, 3059], [1, 3058], [10, 3000]];
        for good in ends.into_iter().chain(any) {
            let mut parts = utterance(&mut self.chance, 255);
            for p in (0..3060).filter(|p| !good.contains(p)) {
                parts[p / PAIRS].packets[p % PAIRS] ^= 1;
            }
            // by most tables the good pairs are inconsistent too; by those with nothing but zeros none is
            let zeros = Tables { codebook: vec![0; CODEBOOK], thresholds: vec![0; THRESHOLDS] };
            for tables in [fit_tables(&mut self.chance), zeros] {
                self.compare_roomy("255 multiframes with one or two good pairs", &image(&parts), &tables);
            }
        }
    }

    /// Inverse syncs anywhere between, and cuts at every octet.
    fn cuts(&mut self) {
        for _ in 0..6_000 {
            let m = self.chance.below(4);
            let octets = self.spread(m);
            let tables = tables(&mut self.chance);
            self.compare_roomy("inverse syncs before, between and after", &octets, &tables);
        }
        for turn in 0..12 {
            let octets = self.spread(1 + turn % 3);
            let tables = fit_tables(&mut self.chance);
            for end in 0..=octets.len() {
                self.compare_roomy("cut at every octet", &octets[..end], &tables);
            }
        }
        for _ in 0..10_000 {
            let m = self.chance.below(3);
            let mut octets = self.spread(m);
            let at = self.chance.below(octets.len() + 1);
            match self.chance.below(4) {
                0 => octets.insert(at, self.chance.pick(&[0x87, 0x78, 0xB2, 0x4D, 0x00])),
                1 => octets.extend(&[0x87, 0xB2, 0x78, 0x4D, 0x87, 0x78][..self.chance.below(7)]),
                2 => octets.truncate(at),
                _ if at < octets.len() => octets[at] = self.chance.pick(&[0x87, 0x78, 0xB2, 0x4D, 0x00]),
                _ => octets.push(0x78),
            }
            let tables = tables(&mut self.chance);
            self.compare_roomy("octets put in, changed and cut", &octets, &tables);
        }
    }

    fn few_octets(&mut self) {
        for first in 0..=255u8 {
            let tables = fit_tables(&mut self.chance);
            self.compare_roomy("every single octet", &[first], &tables);
            for second in [0x00, 0x4D, 0xB2, 0xFF] {
                self.compare_roomy("every first octet with 00, 4D, B2, FF", &[first, second], &tables);
            }
        }
        for second in 0..=255u8 {
            let tables = fit_tables(&mut self.chance);
            for first in [0x87, 0x78] {
                self.compare_roomy("87 and 78 with every second octet", &[first, second], &tables);
            }
        }
        for _ in 0..2_000 {
            let n = self.chance.below(400);
            let octets = self.chance.octets(n);
            let tables = tables(&mut self.chance);
            self.compare_roomy("random octets", &octets, &tables);
        }
    }

    fn spread(&mut self, m: usize) -> Vec<u8> {
        let parts = if m == 0 { vec![] } else { utterance(&mut self.chance, m) };
        let mut octets = vec![];
        for k in 0..=m {
            for _ in 0..self.chance.pick(&[0, 0, 1, 2, 5]) {
                octets.extend(INVERSE);
            }
            if k < m {
                octets.extend(parts[k].octets());
            }
        }
        octets
    }

    /// 255 multiframes and what can follow them.
    fn most(&mut self) {
        let tables = fit_tables(&mut self.chance);
        let parts = utterance(&mut self.chance, 256);
        let whole = image(&parts[..255]);
        let last = parts[255].octets();
        for length in [0, 1, 2, 3, 143, 144] {
            let octets = [&whole[..], &last[..length]].concat();
            self.compare_roomy("255 multiframes and a part of the next", &octets, &tables);
            let octets = [&whole[..], &INVERSE, &INVERSE, &last[..length]].concat();
            self.compare_roomy("255 multiframes and a part of the next", &octets, &tables);
        }
        for tail in [&[0x78][..], &[0x78, 0x4D], &[0x78, 0x4D, 0x78], &[0x00], &[0x87, 0x00], &[0x78, 0xB2]] {
            self.compare_roomy("255 multiframes and other octets", &[&whole[..], tail].concat(), &tables);
        }
        let long = [&INVERSE.repeat(30_000)[..], &whole].concat();
        self.compare_roomy("60,000 octets of inverse sync before 255 multiframes", &long, &tables);
    }

    fn rooms(&mut self) {
        for m in 1..=20 {
            for short_index in [0, 1, INDICES, INDICES * m] {
                for short_report in [0, 1, REPORT, REPORT * m] {
                    let parts = utterance(&mut self.chance, m);
                    let tables = fit_tables(&mut self.chance);
                    let rooms = (INDICES * m - short_index, REPORT * m - short_report);
                    self.compare("buffers exact, one octet short, one multiframe short, empty", &image(&parts), &tables, rooms);
                }
            }
        }
        let parts = utterance(&mut self.chance, 255);
        let tables = fit_tables(&mut self.chance);
        for rooms in [(42839, 3315), (42840, 3314), (42840, 3315), (42841, 3316), (0, 0)] {
            self.compare("255 multiframes, buffers one octet short, exact, one more", &image(&parts), &tables, rooms);
        }
    }

    fn table_lengths(&mut self) {
        for codebook in [0, 1, 1279, 1280, 1281, 2560] {
            for thresholds in [0, 1, 13, 14, 15, 28] {
                for octets in [vec![], vec![0x87], image(&utterance(&mut self.chance, 2))] {
                    let tables = Tables { codebook: vec![0; codebook], thresholds: vec![0; thresholds] };
                    self.compare_roomy("codebooks and thresholds of other lengths", &octets, &tables);
                }
            }
        }
    }

    /// Several faults at once: the order of the refusals.
    fn mixed(&mut self) {
        for _ in 0..20_000 {
            let m = 1 + self.chance.below(3);
            let mut parts = utterance(&mut self.chance, m);
            let all_bad = self.chance.once_in(3);
            for part in &mut parts {
                if self.chance.once_in(2) {
                    part.header = self.chance.word() as u32;
                }
                if self.chance.once_in(3) {
                    part.other_header(&mut self.chance);
                }
                for p in 0..PAIRS {
                    if all_bad || self.chance.once_in(3) {
                        part.packets[p] ^= 1 << self.chance.below(92);
                    }
                }
            }
            let mut octets = image(&parts);
            if self.chance.once_in(10) {
                octets.truncate(octets.len() - self.chance.below(200).min(octets.len()));
            }
            let mut tables = tables(&mut self.chance);
            if self.chance.once_in(30) {
                tables.codebook.pop();
            }
            let short = |chance: &mut Chance| chance.pick(&[0, 0, 0, 1]);
            let rooms = (INDICES * m - short(&mut self.chance), REPORT * m - short(&mut self.chance));
            self.compare("several faults at once", &octets, &tables, rooms);
        }
    }

    /// Damage, other settings and runs of bad pairs anywhere in long utterances, up to the longest.
    fn anywhere(&mut self) {
        for turn in 0..120 {
            let m = if turn % 3 == 0 { 20 + self.chance.below(236) } else { 255 };
            let mut parts = utterance(&mut self.chance, m);
            damage_anywhere(&mut self.chance, &mut parts);
            let tables = fit_tables(&mut self.chance);
            self.compare_roomy("damage anywhere in long utterances", &image(&parts), &tables);
        }
    }

    /// Long utterances in which each header has settings of its own, or is lost, but for two that agree; or for two and another two.
    fn far_settings(&mut self) {
        let ends = [(0, 254), (0, 253), (1, 254), (253, 254), (0, 1), (127, 128)];
        let any: Vec<(usize, usize)> = (0..60).map(|_| (self.chance.below(254), 254 - self.chance.below(100))).collect();
        for (a, b) in ends.into_iter().chain(any) {
            let mut parts = utterance(&mut self.chance, 255);
            estrange(&mut self.chance, &mut parts, &[a, b]);
            if self.chance.once_in(2) {
                let settings = encode(self.chance.pick(&[0u16, 1, 3, 4, 5, 7, 2, 128]) | 8);
                self.chance.places(2, 255).into_iter().for_each(|k| parts[k].header = settings);
            }
            let tables = fit_tables(&mut self.chance);
            self.compare_roomy("settings settled by two headers anywhere of 255", &image(&parts), &tables);
        }
    }

    /// Every number of multiframes, with room enough, just enough, and an octet less of each buffer.
    fn every_number(&mut self) {
        for m in 1..=255 {
            let octets = image(&utterance(&mut self.chance, m));
            let tables = fit_tables(&mut self.chance);
            self.compare_roomy("every number of multiframes", &octets, &tables);
            for rooms in [(INDICES * m, REPORT * m), (INDICES * m - 1, REPORT * m), (INDICES * m, REPORT * m - 1)] {
                self.compare("every number of multiframes, room just enough or an octet short", &octets, &tables, rooms);
            }
        }
    }

    /// Each of 255 headers the earlier of two that agree, and each the later.
    fn each_settles(&mut self) {
        for k in 0..255 {
            for other in [0, self.chance.below(255), 254] {
                let mut parts = utterance(&mut self.chance, 255);
                estrange(&mut self.chance, &mut parts, &[k, other]);
                let tables = fit_tables(&mut self.chance);
                self.compare_roomy("settings settled by each of 255 headers and another", &image(&parts), &tables);
            }
        }
    }

    /// One multiframe of 255 damaged or with another header, each by turns.
    fn one_amiss(&mut self) {
        let parts = utterance(&mut self.chance, 255);
        let tables = fit_tables(&mut self.chance);
        let whole = image(&parts);
        for k in 0..255 {
            let mut part = parts[k].clone();
            match k % 4 {
                0 => part.header ^= 1 << self.chance.below(32),
                1 => part.lose_header(&mut self.chance),
                2 => part.other_header(&mut self.chance),
                _ => part.packets[self.chance.below(PAIRS)] ^= 1 << self.chance.below(92),
            }
            let octets = [&whole[..MULTIFRAME * k], &part.octets(), &whole[MULTIFRAME * (k + 1)..]].concat();
            self.compare_roomy("one thing amiss in each of 255 multiframes", &octets, &tables);
        }
    }

    /// Octets that cutting refuses with the number, or none if it is 0: behind m multiframes, 14 behind none and 15 behind 255.
    fn cut_off(&mut self, number: u32, parts: &[Part]) -> Vec<u8> {
        let any = self.chance.below(142);
        let border = self.chance.below(parts.len() + 1);
        let inverse = INVERSE.repeat(self.chance.below(3));
        let begun = [&SYNC[..], &self.chance.octets(any)].concat();
        let lone = self.chance.pick(&[SYNC[0], INVERSE[0]]);
        let unknown = self.chance.pick(&[[0, 0x87], [0x87, 0x4D], [0x78, 0xB2], [0xB2, 0x87], [0xFF, 0x78]]);
        let end = match number {
            12 => return [&image(&parts[..border])[..], &inverse, &unknown, &image(&parts[border..])].concat(),
            13 if self.chance.once_in(2) => vec![lone],
            13 | 15 => begun,
            _ => vec![],
        };
        [&image(parts)[..], &inverse, &end].concat()
    }

    /// Every set of refusals that can apply at once, by both rules and with a choice that there is not, each with an answer that is too
    /// short and with one that is not. By the default rule an only multiframe is unsettled whatever its header.
    fn every_set(&mut self) {
        for set in 0..5 * 3 * 32 {
            for turn in 0..6 {
                for choices in [DEFAULT, ONE_HEADER_SETTLES, self.chance.pick(&unknown_choices())] {
                    self.one_set(set, turn, choices);
                }
            }
        }
    }

    fn one_set(&mut self, set: usize, turn: usize, choices: u64) {
        let (cut, settings) = ([0, 12, 13, 14, 15][set % 5], set / 5 % 3);
        let short = [1, 2, 3 + self.chance.below(3)][turn / 2];
        let m = if cut == 15 || turn == 4 && set % 8 == 0 { 255 } else { short };
        if cut == 15 && turn > 1 {
            return;
        }
        let has = |fault: usize| set / 15 >> fault & 1 == 1;
        let mut parts = utterance(&mut self.chance, m);
        match settings {
            1 => unsettle(&mut self.chance, &mut parts),
            2 => forbid(&mut self.chance, &mut parts),
            _ => {}
        }
        if has(0) {
            spoil(&mut self.chance, &mut parts);
        }
        let octets = self.cut_off(cut, if cut == 14 { &[] } else { &parts });
        let tables = faulty_tables(&mut self.chance, has(1), has(4));
        let short = |chance: &mut Chance, short, room| if short { chance.pick(&[0, room - 1]) } else { room };
        let rooms = (short(&mut self.chance, has(2), INDICES * m), short(&mut self.chance, has(3), REPORT * m));
        let numbers = if turn % 2 == 0 { ANSWER + self.chance.below(5) } else { self.chance.below(ANSWER) };
        self.compare_asked("every set of refusals at once", &octets, &tables, Asked { rooms, numbers, choices });
    }

    /// Octets and rooms that are refused with the number if the tables are fit, or read if it is 0.
    fn refused_with(&mut self, number: u32) -> (Vec<u8>, (usize, usize)) {
        let m = if number == 15 { 255 } else { 2 + self.chance.below(2) };
        let mut parts = utterance(&mut self.chance, m);
        match number {
            16 => unsettle(&mut self.chance, &mut parts),
            17 => forbid(&mut self.chance, &mut parts),
            20 => spoil(&mut self.chance, &mut parts),
            _ => {}
        }
        let octets = self.cut_off(number, if number == 14 { &[] } else { &parts });
        (octets, (INDICES * m - (number == 18) as usize, REPORT * m - (number == 19) as usize))
    }

    /// Each threshold negative alone, every two of them and all from each on, and 0 at each place, which is not negative: with numbers that
    /// are all 0 and with any, and whatever else would be refused.
    fn negative_thresholds(&mut self) {
        let zeros = Tables { codebook: vec![0; CODEBOOK], thresholds: vec![0; THRESHOLDS] };
        for number in [0].into_iter().chain(12..=20) {
            let (octets, rooms) = self.refused_with(number);
            for place in 0..THRESHOLDS {
                for value in [-1, -2, -256, i32::MIN, i32::MIN + 1, negative(&mut self.chance)] {
                    for mut tables in [zeros.clone(), fit_tables(&mut self.chance)] {
                        tables.thresholds[place] = value;
                        self.compare("each threshold negative, whatever else is refused", &octets, &tables, rooms);
                    }
                }
                let mut tables = fit_tables(&mut self.chance);
                tables.thresholds[place..].fill_with(|| negative(&mut self.chance));
                self.compare("all thresholds from each on negative", &octets, &tables, rooms);
                let mut tables = fit_tables(&mut self.chance);
                tables.thresholds.iter_mut().for_each(|threshold| *threshold = (*threshold).max(1));
                tables.thresholds[place] = 0;
                self.compare("each threshold 0 and the others above it", &octets, &tables, rooms);
            }
        }
        let (octets, rooms) = self.refused_with(0);
        for value in [-1, -2, i32::MIN, i32::MIN + 1, negative(&mut self.chance)] {
            for tables in [zeros.clone(), fit_tables(&mut self.chance)] {
                let alike = Tables { thresholds: vec![value; THRESHOLDS], ..tables };
                self.compare("all thresholds negative and alike", &octets, &alike, rooms);
            }
        }
        for second in 0..THRESHOLDS {
            for first in 0..second {
                let any = (negative(&mut self.chance), negative(&mut self.chance));
                for (one, two) in [(-1, -1), (-1, i32::MIN), (i32::MIN, -1), any] {
                    let mut tables = fit_tables(&mut self.chance);
                    (tables.thresholds[first], tables.thresholds[second]) = (one, two);
                    self.compare("every two thresholds negative", &octets, &tables, rooms);
                }
            }
        }
        for (codebook, thresholds) in [0, 1279, 1280, 1281].into_iter().flat_map(|codebook| [1, 13, 14, 15, 28].map(|n| (codebook, n))) {
            for place in 0..thresholds {
                let mut tables = Tables { codebook: vec![0; codebook], thresholds: vec![0; thresholds] };
                tables.thresholds[place] = negative(&mut self.chance);
                for octets in [&octets[..], &[]] {
                    self.compare("tables of other lengths with a negative threshold", octets, &tables, rooms);
                }
            }
        }
        self.negative_and_many_octets();
    }

    /// More octets than 255 multiframes have: inverse syncs, cut or not, and multiframes behind them or none.
    fn negative_and_many_octets(&mut self) {
        let (whole, rooms) = self.refused_with(0);
        for length in [36_722, 40_001, 40_002, 65_537, 65_538, 80_000, 131_074, 1 << 18, 1_000_000] {
            let inverse: Vec<u8> = INVERSE.into_iter().cycle().take(length).collect();
            for octets in [[&inverse[..], &whole].concat(), inverse] {
                for place in [0, 1 + self.chance.below(THRESHOLDS - 2), THRESHOLDS - 1] {
                    let mut tables = fit_tables(&mut self.chance);
                    tables.thresholds[place] = negative(&mut self.chance);
                    self.compare("a negative threshold and many octets", &octets, &tables, rooms);
                }
            }
        }
    }

    /// Tables for which steps can be made: any, and those at the ends of 32 bits.
    fn steps(&mut self) -> Vec<Steps> {
        let any = (0..8).map(|_| Steps::any(&mut self.chance)).collect::<Vec<_>>();
        let ends = [i32::MAX, i32::MAX - 1, 1, 0].map(|threshold| Steps::at_the_ends(&mut self.chance, threshold));
        any.into_iter().chain(ends).collect()
    }

    /// The multiframes with inverse syncs before them, between two of them, behind them or anywhere, so that the octets are mostly no
    /// multiple of a multiframe's.
    fn with_inverses(&mut self, parts: &[Part], anywhere: usize) -> Vec<u8> {
        let between = 1 + self.chance.below(parts.len() - 1);
        let mut octets = vec![];
        for k in 0..=parts.len() {
            let some = self.chance.pick(&[1, 2, 5, 71, 73, 100]);
            let count = match anywhere % 4 {
                3 => self.chance.below(3),
                only => some * (k == [0, between, parts.len()][only]) as usize,
            };
            octets.extend(INVERSE.repeat(count));
            octets.extend(parts.get(k).map_or(vec![], Part::octets));
        }
        octets
    }

    /// Rises and falls of one element in each of two index pairs, by the threshold, by one more and by more than that: of every two index
    /// pairs, elements, directions and sizes, all over 255 multiframes and alone among calm ones.
    fn rises_and_falls(&mut self) {
        for (turn, steps) in self.steps().iter().enumerate() {
            let twos = every_two_steps_shuffled(&mut self.chance);
            for (first, half) in twos.chunks(1512).enumerate() {
                let parts = steps.dense(&mut self.chance, 255, first, half);
                self.compare_roomy("rises and falls in each second of 3,060 pairs", &image(&parts), &steps.tables);
                let octets = self.with_inverses(&parts, turn + first);
                self.compare_roomy("rises and falls of 3,060 pairs among inverse syncs", &octets, &steps.tables);
            }
            let parts = steps.chain(&mut self.chance, 255, &twos);
            self.compare_roomy("rises and falls in long runs of 3,060 pairs", &image(&parts), &steps.tables);
            for (way, exceeding) in falling_rising_and_all(&twos).iter().enumerate() {
                let failing = self.chance.pick(&[1, 2, 11, 12, 35]);
                let parts = steps.to_the_end(&mut self.chance, 255, failing, exceeding);
                self.compare_roomy("rises and falls in a run to the last of 3,060 pairs", &image(&parts), &steps.tables);
                let octets = self.with_inverses(&parts, turn + way);
                self.compare_roomy("rises and falls of 3,060 pairs among inverse syncs", &octets, &steps.tables);
            }
            let ends = [0, 1, 11, 12, 1399, 1400, 3058, 3059].map(|q| if self.chance.once_in(3) { self.chance.below(3060) } else { q });
            for (q, two) in ends.into_iter().zip(&twos) {
                let beside = self.chance.pick(&[Beside::NextFails, Beside::OneBeforeIsBad]);
                let parts = steps.alone(&mut self.chance, 255, q, two, beside);
                self.compare_roomy("rises and falls of one pair of 3,060", &image(&parts), &steps.tables);
            }
            for two in every_two_steps().iter().skip(turn % 8).step_by(8) {
                let m = 1 + self.chance.below(3);
                let (q, beside) = (self.chance.below(PAIRS * m), self.chance.pick(&[Beside::NextFails, Beside::OneBeforeIsBad]));
                let parts = steps.alone(&mut self.chance, m, q, two, beside);
                self.compare_roomy("rises and falls of one pair of up to 36", &image(&parts), &steps.tables);
            }
        }
    }

    fn compare_by_both(&mut self, name: &str, octets: &[u8], tables: &Tables, rooms: (usize, usize)) {
        for choices in KNOWN_CHOICES {
            self.compare_asked(name, octets, tables, Asked { rooms, numbers: ANSWER, choices });
        }
    }

    /// An only multiframe, whatever its header, by both rules: with its pairs good, some bad or all bad, with short rooms and wrong tables,
    /// and with inverse syncs before and after it, also as many octets of them as a multiframe has.
    fn only_multiframe(&mut self) {
        for header in only_headers(&mut self.chance) {
            for faults in 0..3 * 4 * 2 * 4 {
                let mut parts = utterance(&mut self.chance, 1);
                parts[0].header = header;
                match faults % 3 {
                    1 => parts[0].packets[self.chance.below(PAIRS)] ^= 1 << self.chance.below(92),
                    2 => spoil(&mut self.chance, &mut parts),
                    _ => {}
                }
                let rooms = (INDICES - faults / 3 % 2, REPORT - faults / 6 % 2);
                let mut tables = tables(&mut self.chance);
                tables.thresholds.truncate(THRESHOLDS - faults / 12 % 2);
                let mut inverse = |stands: usize| INVERSE.repeat(stands * self.chance.pick(&[1, 2, 5, 71, 72, 73, 144]));
                let octets = [inverse(faults / 24 % 2), image(&parts), inverse(faults / 48)].concat();
                self.compare_by_both("an only multiframe, whatever its header, by both rules", &octets, &tables, rooms);
            }
        }
        let parts = utterance(&mut self.chance, 1);
        let tables = fit_tables(&mut self.chance);
        for a in 0..32 {
            for b in a..32 {
                let mut flipped = parts.clone();
                flipped[0].header ^= 1 << a | 1 << b;
                self.compare_by_both("every one and two flipped places of an only header", &image(&flipped), &tables, (INDICES, REPORT));
            }
        }
    }

    /// Two and three multiframes whose headers agree, are mended, have other settings or are lost, in every way: the rule changes nothing.
    fn more_than_one(&mut self) {
        for m in [2, 3] {
            for kinds in 0..4usize.pow(m) {
                for _ in 0..8 {
                    let mut parts = utterance(&mut self.chance, m as usize);
                    for (k, part) in parts.iter_mut().enumerate() {
                        set_header(&mut self.chance, part, kinds >> (2 * k) & 3);
                    }
                    let (tables, m) = (tables(&mut self.chance), m as usize);
                    let rooms = (INDICES * m, REPORT * m);
                    self.compare_by_both("two or three multiframes, headers of every kind", &image(&parts), &tables, rooms);
                }
            }
        }
    }

    /// Choices that there are not, with answers of every length up to ten numbers, whatever else would be refused or read.
    fn unknown_choices(&mut self) {
        for choices in unknown_choices() {
            for numbers in 0..=10 {
                let two = image(&utterance(&mut self.chance, 2));
                for octets in [vec![], vec![0], two[..MULTIFRAME].to_vec(), two] {
                    let mut tables = tables(&mut self.chance);
                    tables.codebook.truncate(CODEBOOK - self.chance.below(2));
                    let m = octets.len() / MULTIFRAME;
                    let rooms = self.chance.pick(&[(INDICES * m, REPORT * m), (0, 0)]);
                    self.compare_asked("choices that there are not", &octets, &tables, Asked { rooms, numbers, choices });
                }
            }
        }
    }

    /// Places beyond 65,536: as many inverse syncs stand before, or between the first and the second multiframe.
    fn far_places(&mut self) {
        let far = INVERSE.repeat(40_000);
        for number in [0, 12, 13, 14, 15] {
            for m in [1, 2, 4, 255] {
                let m = if number == 15 { 255 } else { m };
                let parts = utterance(&mut self.chance, m);
                let near = self.cut_off(number, if number == 14 { &[] } else { &parts });
                let between = [&parts[0].octets()[..], &far, &near].concat();
                let tables = fit_tables(&mut self.chance);
                for octets in [[&far[..], &near].concat(), between] {
                    self.compare("places beyond 65,536", &octets, &tables, (INDICES * 255, REPORT * 255));
                }
            }
        }
    }

    /// One call with so many inverse syncs before the octets, and with tables and rooms of these lengths, all zeros; by either rule.
    fn wide_call(&mut self, before: u64, lengths: [u64; 5], octets: &[u8]) {
        let choices = self.chance.pick(&KNOWN_CHOICES);
        let mut call = Call::kind(b'L').long(choices).long(before);
        for length in lengths {
            call = call.long(length);
        }
        let came = self.chance.word();
        let mut back = self.driver.call(call.octets(octets).long(came), 8 + 32);
        let got = (back.word(), back.word(), [back.long(), back.long(), back.long(), back.long()]);
        let rooms = (lengths[2] as usize, lengths[3] as usize);
        let right = [CODEBOOK as u64, THRESHOLDS as u64] == lengths[..2];
        let tables = Tables { codebook: vec![0; if right { CODEBOOK } else { 0 }], thresholds: vec![0; THRESHOLDS] };
        let rule = rule_of(choices).expect("it is known");
        let want = match read(&self.code, octets, rule, tables.lent(), rooms) {
            Ok(reading) => (0, 1, [came, reading.answer[2], reading.index[0] as u64, reading.report[0] as u64]),
            Err(refusal) => {
                let moved = if (12..=15).contains(&refusal.number) { before } else { 0 };
                (refusal.number, 1, [refusal.place + moved, 0, 0, 0])
            }
        };
        assert_eq!(got, want, "{before} octets of inverse syncs before, lengths {lengths:?}, octets {octets:02x?}");
        self.driver.count("places and lengths beyond 32 bits", 1);
    }

    fn wide_lengths(&mut self) {
        let right = [CODEBOOK as u64, THRESHOLDS as u64, 168 * 255, 13 * 255, 6];
        let parts = utterance(&mut self.chance, 2);
        for long in 0..5 {
            // tables that are right where they are cut, and rooms that are then too short
            let mut lengths = right;
            lengths[long] = (1 << 32) + if long < 2 { right[long] } else { 0 };
            self.wide_call(0, lengths, &image(&parts));
        }
    }

    /// A refusal with a place, or a reading if it is 0, behind 4 GiB. Each is a round, for each such call takes seconds.
    fn wide_place(&mut self, number: u32) {
        let right = [CODEBOOK as u64, THRESHOLDS as u64, 168 * 255, 13 * 255, 6];
        let parts = utterance(&mut self.chance, if number == 15 { 255 } else { 2 });
        let octets = self.cut_off(number, if number == 14 { &[] } else { &parts });
        self.wide_call((1 << 32) + 2 * number as u64, right, &octets);
    }

    /// The two replacements and the listing's input that 01 prints, as they stand there.
    fn examples(&mut self) {
        let mut listing = vec![0x87, 0xB2, 0x08, 0x00, 0x0E, 0xEE, 0x01];
        listing.extend([0; 10]);
        listing.push(0x04);
        listing.extend([0; 126]);
        let zeros = Tables { codebook: vec![0; CODEBOOK], thresholds: vec![0; THRESHOLDS] };
        let by = |rule: Rule, octets: &[u8]| read(&self.code, octets, rule, zeros.lent(), (168, 13));
        let reading = by(Rule::OneHeaderSettles, &listing).ok().expect("01's listing is read");
        assert_eq!((reading.answer, reading.report), ([0, 0, 1, 1, 0, 1], vec![0; 13]));
        let refused = by(Rule::TwoHeaders, &listing).err().expect("one header alone does not settle");
        assert_eq!((refused.number, refused.place), (16, 0));
        for (bad, want) in [(1..2, [1, 2, 2, 5, 5, 6, 7, 8]), (1..3, [1, 2, 2, 2, 7, 7, 7, 8])] {
            let frames: Vec<[u8; 7]> = (1..=24).map(|f| [f; 7]).collect();
            let mut packets: [u128; PAIRS] = std::array::from_fn(|p| packet_of(&frames[2 * p], &frames[2 * p + 1]));
            bad.for_each(|p| packets[p] ^= 1);
            let octets = Part { header: encode(8), packets }.octets();
            let reading = by(Rule::OneHeaderSettles, &octets).ok().expect("it is read");
            let got: Vec<u8> = reading.index.chunks(7).take(8).map(|frame| frame[0]).collect();
            assert_eq!(got, want);
            assert_eq!(packets_of(&octets[6..]), packets);
        }
    }
}

impl Tools for Check {
    fn tools(&mut self) -> (&mut Driver, &mut Chance) {
        (&mut self.driver, &mut self.chance)
    }
}

fn main() {
    let check = |driver, chance| Check { driver, chance, code: Code::new() };
    let rounds: &[Round<Check>] = &[
        ("examples", Check::examples),
        ("negative_thresholds", Check::negative_thresholds),
        ("rises_and_falls", Check::rises_and_falls),
        ("every_set", Check::every_set),
        ("only_multiframe", Check::only_multiframe),
        ("more_than_one", Check::more_than_one),
        ("unknown_choices", Check::unknown_choices),
        ("anywhere", Check::anywhere),
        ("far_settings", Check::far_settings),
        ("each_settles", Check::each_settles),
        ("every_number", Check::every_number),
        ("far_places", Check::far_places),
        ("wide_lengths", Check::wide_lengths),
        ("wide_place_of_12", |check| check.wide_place(12)),
        ("wide_place_of_13", |check| check.wide_place(13)),
        ("wide_place_of_14", |check| check.wide_place(14)),
        ("wide_place_of_15", |check| check.wide_place(15)),
        ("wide_reading", |check| check.wide_place(0)),
        ("one_amiss", Check::one_amiss),
        ("clean", Check::clean),
        ("headers", Check::headers),
        ("lost_headers", Check::lost_headers),
        ("pairs", Check::pairs),
        ("two_flips", Check::two_flips),
        ("runs", Check::runs),
        ("cuts", Check::cuts),
        ("few_octets", Check::few_octets),
        ("most", Check::most),
        ("rooms", Check::rooms),
        ("table_lengths", Check::table_lengths),
        ("mixed", Check::mixed),
    ];
    run(check, rounds, 150_000);
}
