//! Pairs of frames made to measure, for 02 C-12: index pairs that rise or fall by just the threshold, by one more or by much more, in one
//! element and no other.
use crate::chance::Chance;
use crate::reading::{CODEBOOK, THRESHOLDS};
use crate::stream::{packet_of, FRAME, PAIRS};
use crate::utterance::{utterance, Part, Tables};

/// How far an element goes: as far as its threshold, which is not flagged; by one more; by more than that.
#[derive(Clone, Copy, PartialEq, Debug)]
pub enum Size {
    Reach,
    Over,
    Far,
}

const SIZES: [Size; 3] = [Size::Reach, Size::Over, Size::Far];

/// What one element of one index pair does.
#[derive(Clone, Copy, Debug)]
pub struct Step {
    pub c: usize,
    pub element: usize,
    pub falls: bool,
    pub size: Size,
}

impl Step {
    pub fn exceeds(&self) -> bool {
        self.size != Size::Reach
    }
}

fn every_step(c: usize) -> Vec<Step> {
    let ways = [(0, false), (0, true), (1, false), (1, true)];
    ways.into_iter().flat_map(|(element, falls)| SIZES.map(|size| Step { c, element, falls, size })).collect()
}

/// Each step of an index pair with each of another: 3,024.
pub fn every_two_steps() -> Vec<[Step; 2]> {
    let twos = (0..FRAME).flat_map(|a| (a + 1..FRAME).map(move |b| (a, b)));
    let with = |(a, b)| every_step(a).into_iter().flat_map(move |one| every_step(b).into_iter().map(move |two| [one, two]));
    twos.flat_map(with).collect()
}

/// The same in an order drawn by chance.
pub fn every_two_steps_shuffled(chance: &mut Chance) -> Vec<[Step; 2]> {
    let mut twos = every_two_steps();
    for i in (1..twos.len()).rev() {
        twos.swap(i, chance.below(i + 1));
    }
    twos
}

/// Those of which both steps exceed: where both fall, where both rise, and all of them.
pub fn falling_rising_and_all(twos: &[[Step; 2]]) -> [Vec<[Step; 2]>; 3] {
    let ways: [fn(&Step) -> bool; 3] = [|step| step.falls, |step| !step.falls, |_| true];
    ways.map(|way| twos.iter().filter(|two| two.iter().all(|step| step.exceeds() && way(step))).copied().collect())
}

/// The entries of a codebook are of seven kinds: both elements low, or one of them higher by a size.
const KINDS: usize = 1 + 2 * SIZES.len();
const LOW: usize = 0;

fn kind(element: usize, size: Size) -> usize {
    1 + SIZES.len() * element + size as usize
}

/// Tables for which any step can be made.
pub struct Steps {
    pub tables: Tables,
    /// Of which kind the first entry of each codebook is; the others follow in turn.
    first: [usize; FRAME],
}

impl Steps {
    fn new(chance: &mut Chance, mut levels: impl FnMut(&mut Chance) -> (i32, i32, i32)) -> Steps {
        let mut steps = Steps {
            tables: Tables { codebook: vec![0; CODEBOOK], thresholds: vec![0; THRESHOLDS] },
            first: std::array::from_fn(|_| chance.below(KINDS)),
        };
        for (number, c, element) in (0..THRESHOLDS).map(|number| (number, number / 2, number % 2)) {
            let (low, threshold, far) = levels(chance);
            steps.tables.thresholds[number] = threshold;
            for j in 0..entries(c) {
                let sizes = [low + threshold, low + threshold + 1, far];
                let higher = SIZES.into_iter().position(|size| steps.kind_of(c, j) == kind(element, size));
                steps.tables.codebook[128 * c + 2 * j + element] = higher.map_or(low, |size| sizes[size]);
            }
        }
        steps
    }

    /// Every element has a threshold and numbers of its own, small ones, any, and those at the ends of 32 bits.
    pub fn any(chance: &mut Chance) -> Steps {
        Steps::new(chance, |chance| {
            let (small, any) = (chance.below(1000) as i32, chance.below(1 << 31) as i32);
            let threshold = chance.pick(&[0, 1, small, any, any, i32::MAX - 1, i32::MAX]);
            let highest = i32::MAX - threshold - 1;
            let between = from_to(chance, i32::MIN, highest);
            let low = chance.pick(&[i32::MIN, highest, between, between, 0.min(highest), (-1).min(highest)]);
            let over = low + threshold + 1;
            let (beyond, of_33_bits) = (from_to(chance, over, i32::MAX), low.saturating_add(i32::MAX).saturating_add(1));
            (low, threshold, chance.pick(&[i32::MAX, over, beyond, of_33_bits.max(over)]))
        })
    }

    /// One threshold for all elements, and the numbers at the ends of 32 bits: what goes far goes from the lowest to the highest, or back.
    pub fn at_the_ends(chance: &mut Chance, threshold: i32) -> Steps {
        Steps::new(chance, |_| (i32::MIN, threshold, i32::MAX))
    }

    fn kind_of(&self, c: usize, j: usize) -> usize {
        (self.first[c] + j) % KINDS
    }

    /// Any index of that kind.
    fn index(&self, chance: &mut Chance, c: usize, kind: usize) -> u8 {
        let start = (kind + KINDS - self.first[c]) % KINDS;
        let count = (entries(c) - start).div_ceil(KINDS);
        (start + KINDS * chance.below(count)) as u8
    }

    /// A pair that makes these steps. Of the other index pairs none exceeds its thresholds: each stays or, if it is not `calm`, may go as
    /// far as one of them.
    pub fn packet(&self, chance: &mut Chance, steps: &[Step], calm: bool) -> u128 {
        let mut frames = [[0; FRAME]; 2];
        for c in 0..FRAME {
            let reach = Step { c, element: chance.below(2), falls: chance.once_in(2), size: Size::Reach };
            let made = steps.iter().find(|step| step.c == c).or((!calm && chance.once_in(2)).then_some(&reach));
            let (first, second) = match made {
                Some(step) if step.falls => (kind(step.element, step.size), LOW),
                Some(step) => (LOW, kind(step.element, step.size)),
                None => [(LOW, LOW), (kind(reach.element, Size::Far), kind(reach.element, Size::Far))][chance.below(2)],
            };
            (frames[0][c], frames[1][c]) = (self.index(chance, c, first), self.index(chance, c, second));
        }
        packet_of(&frames[0], &frames[1])
    }
}

/// What makes a pair bad if it is inconsistent.
#[derive(Clone, Copy, PartialEq, Debug)]
pub enum Beside {
    NextFails,
    OneBeforeIsBad,
}

impl Steps {
    fn failed(&self, chance: &mut Chance) -> u128 {
        self.packet(chance, &[], false) ^ 1 << chance.below(92)
    }

    /// So many multiframes in which no index pair does more than go as far as a threshold, and no CRC fails.
    fn quiet(&self, chance: &mut Chance, m: usize, calm: bool) -> Vec<Part> {
        let mut parts = utterance(chance, m);
        parts.iter_mut().flat_map(|part| &mut part.packets).for_each(|packet| *packet = self.packet(chance, &[], calm));
        parts
    }

    /// From pair `first` on, each two steps are a pair's, and the CRC of the pair behind each fails: so all of them are judged.
    pub fn dense(&self, chance: &mut Chance, m: usize, first: usize, twos: &[[Step; 2]]) -> Vec<Part> {
        let mut parts = self.quiet(chance, m, false);
        for (k, two) in twos.iter().enumerate().take_while(|(k, _)| first + 2 * k + 1 < PAIRS * m) {
            put(&mut parts, first + 2 * k, self.packet(chance, two, false));
            put(&mut parts, first + 2 * k + 1, self.failed(chance));
        }
        parts
    }

    /// One CRC fails, and then each pair makes two steps that exceed, as long as it goes: all of those are bad. Then comes one that is held
    /// back by a threshold, and all again.
    pub fn chain(&self, chance: &mut Chance, m: usize, twos: &[[Step; 2]]) -> Vec<Part> {
        let mut parts = self.quiet(chance, m, false);
        let mut exceeding = twos.iter().filter(|two| two.iter().all(Step::exceeds)).cycle();
        let mut held = twos.iter().filter(|two| !two.iter().all(Step::exceeds)).cycle();
        let mut left = 0;
        for q in 0..PAIRS * m {
            let two = match left {
                0 => None,
                1 => held.next(),
                _ => exceeding.next(),
            };
            let packet = match two {
                Some(two) => self.packet(chance, two, false),
                None => self.failed(chance),
            };
            put(&mut parts, q, packet);
            left = if left == 0 { 1 + chance.below(120) } else { left - 1 };
        }
        parts
    }

    /// Only the CRC of pair `failing` fails, and each pair behind it makes two steps that exceed: all of those are bad, up to the last.
    pub fn to_the_end(&self, chance: &mut Chance, m: usize, failing: usize, exceeding: &[[Step; 2]]) -> Vec<Part> {
        let mut parts = self.quiet(chance, m, false);
        put(&mut parts, failing, self.failed(chance));
        for (q, two) in (failing + 1..PAIRS * m).zip(exceeding.iter().cycle()) {
            put(&mut parts, q, self.packet(chance, two, false));
        }
        parts
    }

    /// Only pair q makes steps, and only one CRC fails: that of the pair behind it or before it, if there is one.
    pub fn alone(&self, chance: &mut Chance, m: usize, q: usize, two: &[Step], beside: Beside) -> Vec<Part> {
        let mut parts = self.quiet(chance, m, true);
        let failing = match beside {
            Beside::NextFails => Some(q + 1).filter(|&next| next < PAIRS * m),
            Beside::OneBeforeIsBad => q.checked_sub(1),
        };
        if let Some(failing) = failing {
            put(&mut parts, failing, self.failed(chance));
        }
        put(&mut parts, q, self.packet(chance, two, true));
        parts
    }
}

fn put(parts: &mut [Part], q: usize, packet: u128) {
    parts[q / PAIRS].packets[q % PAIRS] = packet;
}

fn from_to(chance: &mut Chance, least: i32, most: i32) -> i32 {
    (least as i64 + chance.below((most as i64 - least as i64 + 1) as usize) as i64) as i32
}

fn entries(c: usize) -> usize {
    if c == 6 { 256 } else { 64 }
}

#[cfg(test)]
mod tests {
    use super::*;
    use crate::header::Code;
    use crate::reading::{inconsistent, read, Rule, REPORT};
    use crate::stream::{frames_of, INDICES};
    use crate::utterance::image;
    use std::sync::LazyLock;

    #[test]
    fn two_that_exceed_are_inconsistent_and_one_is_not() {
        let mut chance = Chance::new(1);
        let mut tables: Vec<Steps> = (0..20).map(|_| Steps::any(&mut chance)).collect();
        tables.extend([0, 1, i32::MAX - 1, i32::MAX].map(|threshold| Steps::at_the_ends(&mut chance, threshold)));
        assert_eq!(every_two_steps().len(), 3024);
        for made in &tables {
            let (codebook, thresholds) = made.tables.lent();
            let mut judged = |steps: &[Step], calm| inconsistent(&frames_of(made.packet(&mut chance, steps, calm)), codebook, thresholds);
            for two in every_two_steps() {
                assert_eq!(judged(&two, false), two[0].exceeds() && two[1].exceeds(), "{two:?}");
                assert!(!judged(&two[..1], false) && !judged(&two[1..], true));
            }
            assert!(!judged(&[], true) && !judged(&[], false));
        }
    }

    /// An element goes up or down by just the threshold, by one more, or by more, and the other stays.
    #[test]
    fn steps_are_as_long_as_they_say() {
        let mut chance = Chance::new(2);
        let made = Steps::any(&mut chance);
        let value = |frame: &[u8; FRAME], step: &Step, e: usize| made.tables.codebook[128 * step.c + 2 * frame[step.c] as usize + e] as i64;
        for two in every_two_steps() {
            let (first, second) = frames_of(made.packet(&mut chance, &two, true));
            for step in &two {
                let apart = |e: usize| value(&second, step, e) - value(&first, step, e);
                let threshold = made.tables.thresholds[2 * step.c + step.element] as i64;
                let length = if step.falls { -apart(step.element) } else { apart(step.element) };
                assert_eq!(apart(1 - step.element), 0);
                assert!(match step.size {
                    Size::Reach => length == threshold,
                    Size::Over => length == threshold + 1,
                    Size::Far => length > threshold,
                });
            }
        }
    }

    static CODE: LazyLock<Code> = LazyLock::new(Code::new);

    /// The pair notes of an utterance.
    fn notes(parts: &[Part], made: &Steps) -> Vec<u8> {
        let rooms = (INDICES * parts.len(), REPORT * parts.len());
        let reading = read(&CODE, &image(parts), Rule::OneHeaderSettles, made.tables.lent(), rooms).ok().expect("it is read");
        reading.report.chunks(REPORT).flat_map(|part| part[1..].to_vec()).collect()
    }

    #[test]
    fn each_pair_is_judged() {
        let mut chance = Chance::new(3);
        let made = Steps::any(&mut chance);
        let twos = every_two_steps_shuffled(&mut chance);
        let exceed = |two: &[Step; 2]| two.iter().all(Step::exceeds);
        for first in [0, 1] {
            let notes = notes(&made.dense(&mut chance, 255, first, &twos), &made);
            for (k, two) in twos.iter().take(1529).enumerate() {
                assert_eq!(notes[first + 2 * k..][..2], [2 * exceed(two) as u8, 1]);
            }
        }
        let chained = notes(&made.chain(&mut chance, 255, &twos), &made);
        let [good, failed, bad] = [0, 1, 2].map(|note| chained.iter().filter(|&&n| n == note).count());
        assert!(bad > 2700 && (good..=good + 1).contains(&failed), "{good} {failed} {bad}");
        for exceeding in falling_rising_and_all(&twos) {
            let ended = notes(&made.to_the_end(&mut chance, 255, 7, &exceeding), &made);
            assert_eq!(ended, [&[0; 7][..], &[1], &[2; 3052]].concat());
        }
        for (q, two) in [0, 1, 17, 34, 35].into_iter().flat_map(|q| twos[..40].iter().map(move |two| (q, two))) {
            let next = notes(&made.alone(&mut chance, 3, q, two, Beside::NextFails), &made);
            let before = notes(&made.alone(&mut chance, 3, q, two, Beside::OneBeforeIsBad), &made);
            assert_eq!((next[q], before[q]), (2 * (exceed(two) && q < 35) as u8, 2 * (exceed(two) && q > 0) as u8));
            assert_eq!(next.iter().chain(&before).filter(|&&note| note == 1).count(), 1 + (q > 0 && q < 35) as usize);
        }
    }
}
