//! Compares the library's settling with the independent version, and both with the full reading. Arguments: the command that runs the settle
//! driver.
#![deny(dead_code)] // a round that is in no list
use independent::chance::Chance;
use independent::driver::{over, rule_of, unknown_choices, Call, Driver, ANSWER_SHORT, DONE, KNOWN_CHOICES, NO_SUCH_CHOICE};
use independent::header::{encode, Code};
use independent::reading::{read, CODEBOOK, THRESHOLDS};
use independent::rounds::{run, Round, Tools};
use independent::settling::{octets_looked_at, settle};
use independent::utterance::{damage_anywhere, estrange, forbid, image, only_headers, set_header, spoil, unsettle, utterance, Part};
use independent::writing::{write, INVERSE, MULTIFRAME, SYNC};

const ANSWER: usize = 3;
const FIT: [u16; 6] = [0, 1, 3, 4, 5, 7];
const UNFIT: u32 = 17;
/// Room for every reading.
const ROOMS: (usize, usize) = (1 << 20, 1 << 20);

/// What a call takes besides octets: how many numbers the answer has, the choice, and how many octets more than there are the length says.
#[derive(Clone, Copy, Debug)]
struct Asked {
    numbers: usize,
    choices: u64,
    unseen: u64,
}

/// What a settling returns and leaves in the lent memory.
#[derive(Clone, PartialEq, Debug)]
struct Outcome {
    number: u32,
    kept: u32,
    place: u64,
    answer: Vec<u64>,
}

struct Check {
    driver: Driver,
    chance: Chance,
    code: Code,
}

/// A multiframe with that header and nothing said.
fn part_with(header: u32) -> Part {
    Part { header, packets: [0; 12] }
}

/// What may stand behind: nothing, what is cut, what begins nothing known, a multiframe; and each of these behind inverse syncs.
fn tails(chance: &mut Chance) -> Vec<Vec<u8>> {
    let multiframe = part_with(encode(chance.word() as u16)).octets();
    let cut = 2 + chance.below(MULTIFRAME - 2);
    let few = [&[][..], &[0x87], &[0x78], &[0x00], &[0x4D], &[0x87, 0x4D], &[0x78, 0xB2], &SYNC];
    let mut tails: Vec<Vec<u8>> = few.iter().map(|octets| octets.to_vec()).collect();
    tails.extend([chance.octets(7), multiframe[..cut].to_vec(), multiframe]);
    let behind_inverse: Vec<Vec<u8>> = tails.iter().map(|tail| [&INVERSE.repeat(1 + chance.below(80))[..], tail].concat()).collect();
    [tails, behind_inverse].concat()
}

impl Check {
    /// By both rules; and once more with no octet to be seen behind the settling multiframe, if there is one.
    fn compare(&mut self, name: &str, octets: &[u8]) {
        for choices in KNOWN_CHOICES {
            let numbers = ANSWER + self.chance.pick(&[0, 0, 1, 5]);
            self.compare_asked(name, octets, Asked { numbers, choices, unseen: 0 });
            self.hold_to_the_full_reading(octets, choices);
        }
        if let Some(seen) = octets_looked_at(&self.code, octets) {
            if self.chance.once_in(4) {
                let choices = self.chance.pick(&KNOWN_CHOICES);
                // the last is a length that would fall short, if it were cut to 32 bits
                let unseen = self.chance.pick(&[1, 2, 143, 144, 145, 4096, 36720, 1 << 40, (1 << 32) - 1]);
                let asked = Asked { numbers: ANSWER, choices, unseen };
                self.compare_asked("no octet to be seen behind the settling multiframe", &octets[..seen], asked);
            }
        }
    }

    fn compare_asked(&mut self, name: &str, octets: &[u8], asked: Asked) {
        let Asked { numbers, choices, unseen } = asked;
        let answer: Vec<u64> = (0..numbers).map(|_| self.chance.word()).collect();
        let came = Outcome { number: DONE, kept: 1, place: self.chance.word(), answer };
        let call = Call::kind(b'S').octet(self.driver.mode()).long(choices).long(unseen);
        let call = call.octets(octets).longs(&came.answer).long(came.place);
        let mut back = self.driver.call(call, 16 + 8 * numbers);
        let (number, kept, place) = (back.word(), back.word(), back.long());
        let got = Outcome { number, kept, place, answer: (0..numbers).map(|_| back.long()).collect() };
        let want = self.expected(octets, choices, came.clone());
        if got != want {
            println!("{name}: {} octets {:02x?}.. {asked:?}", octets.len(), &octets[..octets.len().min(600)]);
            println!("library: {got:?}\nindependent: {want:?}\nlent: {came:?}");
            panic!("library and independent version differ");
        }
        self.driver.count(name, 1);
        self.driver.count(&format!("of these answered with {:2}", want.number), 1);
    }

    /// What the independent version returns and leaves of the memory that came.
    fn expected(&self, octets: &[u8], choices: u64, came: Outcome) -> Outcome {
        if came.answer.len() < ANSWER {
            return Outcome { number: ANSWER_SHORT, ..came };
        }
        let Some(rule) = rule_of(choices) else { return Outcome { number: NO_SUCH_CHOICE, ..came } };
        match settle(&self.code, octets, rule) {
            Ok(settled) => Outcome { answer: over(&came.answer, &settled), ..came },
            Err(refusal) => Outcome { number: refusal.number, place: refusal.place, ..came },
        }
    }

    /// 02's three sentences: the full reading's settings whenever it succeeds; where it refuses further on, the settings or 17; and else the
    /// full reading's refusal. The full reading is the independent one, and now and then the library's own.
    fn hold_to_the_full_reading(&mut self, octets: &[u8], choices: u64) {
        let rare = if octets.len() > 20 * MULTIFRAME { 40 } else { 4 };
        if !self.chance.once_in(rare) {
            return;
        }
        let rule = rule_of(choices).expect("it is known");
        let full = match read(&self.code, octets, rule, (&[0; CODEBOOK], &[0; THRESHOLDS]), ROOMS) {
            Ok(reading) => (DONE, 0, [reading.answer[0], reading.answer[1]]),
            Err(refusal) => (refusal.number, refusal.place, [255, 0]),
        };
        let mut back = self.driver.call(Call::kind(b'F').long(choices).octets(octets), 4 + 24);
        let library = (back.word(), back.long(), [back.long(), back.long()]);
        let settled = settle(&self.code, octets, rule).map_err(|refused| (refused.number, refused.place));
        let further_on = settled.is_ok() || settled == Err((UNFIT, 0));
        for (number, place, settings) in [full, (library.0, library.1, [library.2[0], library.2[1]])] {
            let holds = match number {
                DONE => settled.is_ok_and(|s| s[..2] == settings),
                12 | 13 | 15 => further_on || settled == Err((number, place)),
                14 | 16 | 17 => settled == Err((number, place)),
                _ => settled.is_ok(),
            };
            assert!(holds, "settled {settled:?}, in full {number} at {place} with {settings:?}: octets {octets:02x?} choices {choices}");
        }
        self.driver.count("of these held to two full readings", 1);
    }

    fn written(&mut self) {
        self.compare("written images of 0 to 20, 64, 254 and 255 multiframes", &[]);
        for m in (1..=20).chain([64, 254, 255]) {
            for (rate, kind) in [(0, 0), (0, 1), (1, 0), (1, 1), (3, 0), (3, 1)] {
                let frames: Vec<[u8; 7]> = (1..24 * m).map(|_| self.chance.speech()).collect();
                let octets = write(rate, kind, &frames.concat(), MULTIFRAME * m).ok().expect("it is written");
                self.compare("written images of 0 to 20, 64, 254 and 255 multiframes", &octets);
            }
        }
    }

    /// Headers of one setting out of three, or lost, in every order of up to six; the settings differ in one bit or in more.
    fn orders(&mut self) {
        for length in 1..=6 {
            for order in 0..4usize.pow(length) {
                let first = self.chance.pick(&FIT);
                let second = first ^ self.chance.pick(&[1, 2, 4, 1 << 7, 1 << 11, 1 << 15]);
                let common = [first, second, self.chance.pick(&[2, 6, 1 << 8, 0xFF87, 1 << 15 | 1])];
                let octets: Vec<u8> = (0..length).flat_map(|k| self.header_of_order(&common, order >> (2 * k) & 3)).collect();
                let tails = tails(&mut self.chance);
                let tail = if length == 6 { &[][..] } else { &tails[self.chance.below(tails.len())] };
                self.compare("headers of three settings, or lost, in every order", &[&octets[..], tail].concat());
            }
        }
    }

    fn header_of_order(&mut self, common: &[u16; 3], which: usize) -> Vec<u8> {
        let mut part = part_with(encode(common[which % 3] | (self.chance.below(16) as u16) << 3));
        match which {
            3 => part.lose_header(&mut self.chance),
            _ if self.chance.once_in(3) => part.header_damage(&mut self.chance, 2),
            _ => {}
        }
        part.octets()
    }

    /// Every value of the nine expansion bits but 0 is refused.
    fn expansions(&mut self) {
        for expansion in 1..512u16 {
            let message = self.chance.pick(&FIT) | expansion << 7;
            let octets = image(&[part_with(encode(message)), part_with(encode(message | 1 << 3))]);
            self.compare("every value of the expansion bits", &octets);
            self.compare("every value of the expansion bits", &octets[..MULTIFRAME]);
        }
    }

    /// Two headers that differ in one bit of the message, whichever, agree exactly if it is the counter's; a third agrees with the first.
    fn single_bits(&mut self) {
        for bit in 0..16 {
            for common in FIT.into_iter().chain([2, 6, 1 << 7, 1 << 15]) {
                for counter in 0..16u16 {
                    let message = common | counter << 3;
                    let octets = image(&[message, message ^ 1 << bit, message].map(|message| part_with(encode(message))));
                    self.compare("headers that differ in one bit of the message", &octets[..2 * MULTIFRAME]);
                    self.compare("headers that differ in one bit of the message", &octets);
                }
            }
        }
    }

    fn flips(&mut self) {
        for _ in 0..10_000 {
            let m = 1 + self.chance.below(6);
            let mut parts = utterance(&mut self.chance, m);
            let most = 1 + self.chance.below(6);
            for part in &mut parts {
                if self.chance.once_in(4) {
                    part.other_header(&mut self.chance);
                }
                part.header_damage(&mut self.chance, most);
            }
            if self.chance.once_in(3) {
                spoil(&mut self.chance, &mut parts);
            }
            self.compare("headers with other messages and 0 to 6 flips, any CRCs", &image(&parts));
        }
        let parts = utterance(&mut self.chance, 2);
        for (a, b) in (0..32).flat_map(|a| (a..32).map(move |b| (a, b))) {
            for k in 0..2 {
                let mut damaged = parts.clone();
                damaged[k].header ^= 1 << a | 1 << b;
                self.compare("every one and two flipped places of each of two headers", &image(&damaged));
            }
        }
    }

    /// Two and three multiframes whose headers agree, are mended, have other settings or are lost, in every way, and anything behind.
    fn behind(&mut self) {
        for m in [2, 3] {
            for kinds in 0..4usize.pow(m) {
                let mut parts = utterance(&mut self.chance, m as usize);
                for (k, part) in parts.iter_mut().enumerate() {
                    set_header(&mut self.chance, part, kinds >> (2 * k) & 3);
                }
                if self.chance.once_in(4) {
                    forbid(&mut self.chance, &mut parts);
                }
                for tail in tails(&mut self.chance) {
                    self.compare("anything behind two or three multiframes", &[&image(&parts)[..], &tail].concat());
                }
            }
        }
    }

    /// An only multiframe, whatever its header, with anything behind it, and inverse syncs before it.
    fn only_multiframe(&mut self) {
        for header in only_headers(&mut self.chance) {
            let part = Part { header, ..utterance(&mut self.chance, 1).remove(0) };
            let before = INVERSE.repeat(self.chance.pick(&[0, 0, 1, 2, 72, 73]));
            for tail in tails(&mut self.chance) {
                self.compare("an only multiframe with anything behind it", &[&before[..], &part.octets(), &tail].concat());
            }
        }
        for (a, b) in (0..32).flat_map(|a| (a..32).map(move |b| (a, b))) {
            let octets = part_with(encode(8) ^ (1 << a | 1 << b)).octets();
            self.compare("every one and two flipped places of an only header", &octets);
        }
    }

    /// Each header has settings of its own or is lost, but for two that agree, at any two of twelve and at chosen ones of up to 255, and
    /// anything behind.
    fn late(&mut self) {
        let near: Vec<[usize; 2]> = (0..12).flat_map(|b| (0..b).map(move |a| [a, b])).collect();
        let far = [[0, 254], [253, 254], [127, 254], [0, 253], [252, 253], [0, 199], [198, 199], [0, 200], [199, 200], [127, 128]];
        let any: Vec<[usize; 2]> = (0..80).map(|_| [self.chance.below(100), 100 + self.chance.below(155)]).collect();
        for [a, b] in near.into_iter().chain(far).chain(any) {
            let mut parts = utterance(&mut self.chance, b + 1);
            if self.chance.once_in(4) {
                forbid(&mut self.chance, &mut parts);
            }
            estrange(&mut self.chance, &mut parts, &[a, b]);
            let octets = image(&parts);
            for tail in tails(&mut self.chance) {
                self.compare("settled late by two headers, anything behind", &[&octets[..], &tail].concat());
            }
            self.compare("the octets before the settling multiframe alone", &octets[..MULTIFRAME * b]);
            self.compare("the settling multiframe cut by an octet", &octets[..octets.len() - 1]);
        }
    }

    /// Every multiframe settles once, whatever the counters of the two headers that agree, mended or not, with any expansion bits, and with
    /// inverse syncs anywhere; and of those before it no two agree, or all are lost.
    fn every_multiframe(&mut self) {
        for b in (1..255).chain([255; 12]) {
            let mut parts = utterance(&mut self.chance, b + 1);
            let expansion = if self.chance.once_in(3) { self.chance.word() as u16 & 0xFF80 } else { 0 };
            for part in &mut parts {
                part.header = encode(part.header as u16 & 7 | expansion | (self.chance.below(16) as u16) << 3);
            }
            let a = self.chance.below(b);
            estrange(&mut self.chance, &mut parts, &[a, b]);
            parts[a].header_damage(&mut self.chance, 2);
            parts[b].header_damage(&mut self.chance, 2);
            let tails = tails(&mut self.chance);
            for turn in 0..2 {
                let octets = if turn == 0 { image(&parts) } else { self.spread(&parts) };
                let tail = &tails[self.chance.below(tails.len())];
                self.compare("every multiframe settles, mended or not, inverse syncs anywhere", &[&octets[..], tail].concat());
            }
            parts.pop();
            for name in ["no two of those before it agree", "all before it are lost"] {
                let octets = self.spread(&parts);
                let tail = &tails[self.chance.below(tails.len())];
                self.compare(name, &[&octets[..], tail].concat());
                parts.iter_mut().for_each(|part| part.lose_header(&mut self.chance));
            }
        }
    }

    /// No two headers agree: what stands behind decides, and a sync behind 255 multiframes is one too many, even a cut one.
    fn never(&mut self) {
        for m in (1..=10).chain([253, 254, 255, 255, 256]) {
            let mut parts = utterance(&mut self.chance, m);
            unsettle(&mut self.chance, &mut parts);
            for tail in tails(&mut self.chance) {
                self.compare("no two headers agree, anything behind", &[&image(&parts)[..], &tail].concat());
            }
        }
        for lost in [0..255, 0..1, 254..255, 0..2, 1..255, 0..254] {
            let mut parts = utterance(&mut self.chance, 255);
            unsettle(&mut self.chance, &mut parts);
            for (k, part) in parts.iter_mut().enumerate() {
                part.header = encode(part.header as u16);
                if lost.contains(&k) {
                    part.lose_header(&mut self.chance);
                }
            }
            for tail in tails(&mut self.chance) {
                self.compare("255 multiframes, chosen headers lost, anything behind", &[&image(&parts)[..], &tail].concat());
            }
        }
    }

    fn agreement_with_the_last(&mut self) {
        let mut parts = utterance(&mut self.chance, 257);
        estrange(&mut self.chance, &mut parts, &[0, 255]);
        for length in [0, 1, 2, 3, 143, 144, 145, 288] {
            self.compare("agreement only with the 256th multiframe", &image(&parts)[..255 * MULTIFRAME + length]);
        }
        parts[254].header = encode(parts[0].header as u16);
        for length in [0, 1, 2, 3, 143, 144, 145, 288] {
            self.compare("agreement with the 255th of 257 multiframes", &image(&parts)[..255 * MULTIFRAME + length]);
        }
    }

    /// Inverse syncs before, between and behind.
    fn spread(&mut self, parts: &[Part]) -> Vec<u8> {
        let mut octets = vec![];
        for k in 0..=parts.len() {
            octets.extend(INVERSE.repeat(self.chance.pick(&[0, 0, 1, 2, 5])));
            if k < parts.len() {
                octets.extend(parts[k].octets());
            }
        }
        octets
    }

    fn cuts(&mut self) {
        for turn in 0..12 {
            let mut parts = utterance(&mut self.chance, 3);
            if turn % 2 == 0 {
                estrange(&mut self.chance, &mut parts, &[0, 2]);
            }
            let octets = self.spread(&parts);
            for end in 0..=octets.len() {
                self.compare("cut at every octet", &octets[..end]);
            }
        }
        for _ in 0..6_000 {
            let m = 1 + self.chance.below(3);
            let mut parts = utterance(&mut self.chance, m);
            if self.chance.once_in(2) {
                estrange(&mut self.chance, &mut parts, &[0]);
            }
            let mut octets = self.spread(&parts);
            let at = self.chance.below(octets.len() + 1);
            match self.chance.below(4) {
                0 => octets.insert(at, self.chance.pick(&[0x87, 0x78, 0xB2, 0x4D, 0x00])),
                1 => octets.truncate(at),
                2 if at < octets.len() => octets[at] = self.chance.pick(&[0x87, 0x78, 0xB2, 0x4D, 0x00]),
                _ => {}
            }
            self.compare("inverse syncs anywhere, octets put in, changed and cut", &octets);
        }
    }

    fn few_octets(&mut self) {
        for first in 0..=255u8 {
            self.compare("every single octet", &[first]);
            for second in [0x00, 0x4D, 0xB2, 0xFF] {
                self.compare("every first octet with 00, 4D, B2, FF", &[first, second]);
            }
            for opening in [0x87, 0x78] {
                self.compare("87 and 78 with every second octet", &[opening, first]);
            }
        }
        for _ in 0..1_000 {
            let n = self.chance.below(400);
            let octets = self.chance.octets(n);
            self.compare("random octets", &octets);
        }
    }

    fn anywhere(&mut self) {
        for _ in 0..60 {
            let m = 20 + self.chance.below(236);
            let mut parts = utterance(&mut self.chance, m);
            damage_anywhere(&mut self.chance, &mut parts);
            self.compare("damage anywhere in long utterances", &image(&parts));
        }
    }

    /// What settles, and what each refusal is given for.
    fn one_of_each(&mut self) -> Vec<Vec<u8>> {
        let two = utterance(&mut self.chance, 2);
        let (mut strangers, mut unfit) = (two.clone(), two.clone());
        unsettle(&mut self.chance, &mut strangers);
        forbid(&mut self.chance, &mut unfit);
        let two = image(&two);
        vec![vec![], vec![0], vec![0x87], two[..MULTIFRAME].to_vec(), two, image(&strangers), image(&unfit)]
    }

    /// Choices that there are not, and answers of every length up to ten numbers.
    fn not_begun(&mut self) {
        for choices in unknown_choices() {
            for numbers in 0..=10 {
                let all = self.one_of_each();
                let octets = &all[self.chance.below(all.len())];
                self.compare_asked("choices that there are not", octets, Asked { numbers, choices, unseen: 0 });
            }
        }
        for numbers in 0..=10 {
            for choices in KNOWN_CHOICES.into_iter().chain([2, 3, 255, 256, 257, 1 << 32, 1 << 32 | 1, u64::MAX]) {
                for octets in self.one_of_each() {
                    self.compare_asked("answers of 0 to 10 numbers", &octets, Asked { numbers, choices, unseen: 0 });
                }
            }
        }
        for choices in unknown_choices() {
            let asked = Asked { numbers: self.chance.below(5), choices, unseen: 4096 };
            self.compare_asked("choices that there are not, and no octet to be seen", &[], asked);
        }
    }

    /// Places beyond 65,536: as many inverse syncs stand before, or between the first multiframe and the rest.
    fn far_places(&mut self) {
        let far = INVERSE.repeat(40_000);
        for octets in self.one_of_each() {
            let alone = part_with(encode(1 << 14)).octets();
            for tail in tails(&mut self.chance) {
                self.compare("places beyond 65,536", &[&far[..], &octets, &tail].concat());
                self.compare("places beyond 65,536", &[&alone[..], &far, &octets, &tail].concat());
            }
        }
    }

    /// A place beyond 32 bits: the call goes through 4 GiB of inverse syncs.
    fn wide_place(&mut self) {
        let before = (1 << 32) + 6;
        let choices = self.chance.pick(&KNOWN_CHOICES);
        let octets = [&utterance(&mut self.chance, 1)[0].octets()[..], &[0x78]].concat();
        let call = Call::kind(b'L').long(choices).long(before).octets(&octets).long(5);
        let mut back = self.driver.call(call, 4 + 32);
        let got = (back.word(), [back.long(), back.long(), back.long(), back.long()]);
        assert_eq!(got, (13, [before + MULTIFRAME as u64, 0, 0, 0]), "a lone 78 behind 4 GiB of inverse syncs and a multiframe");
        self.driver.count("a place beyond 32 bits", 1);
    }
}

impl Tools for Check {
    fn tools(&mut self) -> (&mut Driver, &mut Chance) {
        (&mut self.driver, &mut self.chance)
    }
}

fn main() {
    let check = |driver, chance| Check { driver, chance, code: Code::new() };
    let rounds: &[Round<Check>] = &[
        ("written", Check::written),
        ("orders", Check::orders),
        ("expansions", Check::expansions),
        ("single_bits", Check::single_bits),
        ("not_begun", Check::not_begun),
        ("few_octets", Check::few_octets),
        ("only_multiframe", Check::only_multiframe),
        ("behind", Check::behind),
        ("late", Check::late),
        ("every_multiframe", Check::every_multiframe),
        ("never", Check::never),
        ("agreement_with_the_last", Check::agreement_with_the_last),
        ("flips", Check::flips),
        ("cuts", Check::cuts),
        ("far_places", Check::far_places),
        ("anywhere", Check::anywhere),
        ("wide_place", Check::wide_place),
    ];
    run(check, rounds, 80_000);
}
