//! dsr trial: many utterances by chance, through damage and both readers, held against what was sent.
mod chart;
mod scale;
mod sent;
mod table;
mod tally;
mod trust;

use std::ffi::OsStr;
use std::thread;

use dsr::{Choices, Error, Tables, MOST_FRAMES, MULTIFRAME_FRAMES};

use crate::arguments::Arguments;
use crate::damage::{self, bits::Bits, bounded, flips::Flips, Chance};
use crate::failure::{Failure, Outcome, CLEAN};
use crate::output;
use crate::reader::{Rooms, USUAL_MATCH};
use sent::Sent;
use tally::Tally;

const USUAL_UTTERANCES: u64 = 200;
/// Days of work: more is a slip of the pen.
const MOST_UTTERANCES: u64 = 1_000_000_000;
const USUAL_FRAMES: usize = 300;
/// So many bits before each image are enough for anything that can be learnt of a hunt.
const MOST_SHIFT: u64 = 1_000_000;
const USUAL_RATES: [f64; 8] = [1e-5, 3e-5, 1e-4, 3e-4, 1e-3, 3e-3, 1e-2, 3e-2];

/// The kind of damage, whose rate differs from row to row.
#[derive(Debug, Clone, Copy, PartialEq, Eq)]
pub enum Kind {
    Ber { burst: u64, spare_syncs: bool },
    Bounded,
}

/// What is to be tried.
pub struct Plan {
    utterances: u64,
    frames: usize,
    rates: Vec<f64>,
    kind: Kind,
    /// So many bits by chance stand before each image.
    shift: u64,
    /// The matching bits of a sync that the hunting reader asks for.
    least: u64,
    seed: u64,
}

/// What came of all utterances, at one rate.
pub struct Row {
    rate: f64,
    octets: Tally,
    bits: Tally,
}

/// dsr trial.
pub fn run(arguments: &Arguments) -> Outcome<u8> {
    if arguments.has("trust") {
        return trust::run(arguments);
    }
    if arguments.value("output").is_some_and(output::is_standard) {
        return Err(arguments.wrong("--output has to be a file: the table goes to standard output"));
    }
    let plan = Plan::new(arguments)?;
    let rows = plan.rows().map_err(|refusal| Failure::refused("an utterance by chance", refusal))?;
    output::put_standard(table::page(&plan, &rows).as_bytes())?;
    if let Some(name) = arguments.value("output") {
        output::put(Some(name), chart::chart(&plan, &rows).as_bytes())?;
    }
    Ok(CLEAN)
}

impl Plan {
    fn new(arguments: &Arguments) -> Outcome<Plan> {
        for other in ["ber", "burst", "spare-syncs"] {
            arguments.not_both("bounded", other)?;
        }
        let (kind, rates) = match arguments.value("bounded") {
            Some(value) => (Kind::Bounded, shares(arguments, "bounded", value, damage::MOST_BOUNDED)?),
            None => (by_rate(arguments)?, rates(arguments)?),
        };
        let plan = Plan {
            utterances: within(arguments, "utterances", USUAL_UTTERANCES, MOST_UTTERANCES)?,
            frames: within(arguments, "frames", USUAL_FRAMES as u64, MOST_FRAMES as u64)? as usize,
            rates,
            kind,
            shift: shift(arguments)?,
            least: arguments.number("match", USUAL_MATCH)?,
            seed: arguments.number("seed", damage::USUAL_SEED)?,
        };
        plan.admitted()
    }

    /// The library is asked with no octets at all: what it then says of T it says of every recording.
    fn admitted(self) -> Outcome<Plan> {
        match dsr::read_bits(&[], 0, self.least, &Tables::ZEROS, Choices::DEFAULT) {
            Err(refusal @ Error::HuntMatch { .. }) => Err(Failure::refused("--match", refusal)),
            _ => Ok(self),
        }
    }

    /// All rows. The utterances are dealt out to as many threads as there are processors; sums do not depend on how.
    fn rows(&self) -> Result<Vec<Row>, Error> {
        let hands = thread::available_parallelism().map_or(1, usize::from) as u64;
        let parts: Vec<_> = thread::scope(|scope| {
            let begun = |hand| thread::Builder::new().spawn_scoped(scope, move || self.part(hand, hands)).map_err(|_| hand);
            let at_work: Vec<_> = (0..hands).map(begun).collect();
            // what no thread could be made for is done here
            let done = |one: Result<thread::ScopedJoinHandle<_>, u64>| match one {
                Ok(thread) => thread.join().expect("a thread of this program does not panic"),
                Err(hand) => self.part(hand, hands),
            };
            at_work.into_iter().map(done).collect()
        });
        parts.into_iter().try_fold(self.no_rows(), |all, part| Ok(all.into_iter().zip(part?).map(Row::plus).collect()))
    }

    fn no_rows(&self) -> Vec<Row> {
        self.rates.iter().map(|rate| Row { rate: *rate, octets: Tally::default(), bits: Tally::default() }).collect()
    }

    /// What comes of one hand's utterances: each `hands`th, from number `hand` on.
    fn part(&self, hand: u64, hands: u64) -> Result<Vec<Row>, Error> {
        let mut rows = self.no_rows();
        let mut rooms = Rooms::new();
        let mut number = hand;
        while number < self.utterances {
            let seed = damage::derived(self.seed, number);
            let sent = Sent::draw(self.frames, &mut damage::stream(seed, Chance::Frames))?;
            for row in &mut rows {
                let mut image = sent.image.clone();
                self.damage(&mut image, row.rate, seed);
                row.read(&sent, self.shifted(image, seed).octets(), self.least, &mut rooms);
            }
            number += hands;
        }
        Ok(rows)
    }

    /// Damages an image as dsr damage does.
    fn damage(&self, image: &mut [u8], rate: f64, seed: u64) {
        match self.kind {
            Kind::Bounded => bounded::damage(image, rate, &mut damage::stream(seed, Chance::Bounded)),
            Kind::Ber { burst, spare_syncs } => {
                Flips::new(rate, burst, damage::stream(seed, Chance::Ber)).flip(image, spare_syncs)
            }
        };
    }

    /// The image behind bits by chance, if it is to be, as dsr damage shifts it.
    fn shifted(&self, image: Vec<u8>, seed: u64) -> Bits {
        let bits = Bits::of(image);
        if self.shift == 0 {
            return bits;
        }
        bits.behind(self.shift, &mut damage::stream(seed, Chance::Shift)).expect("there is memory for a short recording")
    }

    fn multiframes(&self) -> usize {
        self.frames / MULTIFRAME_FRAMES + 1
    }

    /// The damage, in a line.
    fn damage_words(&self) -> String {
        match self.kind {
            Kind::Bounded => "damage of the kind for which naming is proved".to_string(),
            Kind::Ber { burst, spare_syncs } => {
                let bursts = if burst > 1 { format!("in bursts of {burst}") } else { "each by itself".to_string() };
                let spared = if spare_syncs { ", none in a sync" } else { "" };
                format!("bits flipped {bursts}{spared}")
            }
        }
    }

    /// How much was tried, in a line.
    fn size(&self) -> String {
        let Plan { utterances, frames, least, seed, shift, .. } = self;
        let counted = |many: u64, one: &str| format!("{many} {one}{}", if many == 1 { "" } else { "s" });
        let each = format!("{} ({})", counted(*frames as u64, "frame"), counted(self.multiframes() as u64, "multiframe"));
        let behind = if *shift > 0 { format!(", behind {}", counted(*shift, "bit")) } else { String::new() };
        format!("{} of {each}{behind} in each row; T {least}, seed {seed}", counted(*utterances, "utterance"))
    }
}

impl Row {
    /// Reads the image by both readers.
    fn read(&mut self, sent: &Sent, image: &[u8], least: u64, rooms: &mut Rooms) {
        let Rooms { index, report } = rooms;
        let heard = dsr::read_into(image, &Tables::ZEROS, Choices::DEFAULT, index, report);
        self.octets.add(sent, heard);
        let heard = dsr::read_bits_into(image, 0, least, &Tables::ZEROS, Choices::DEFAULT, index, report);
        self.bits.add(sent, heard.map(|bits| bits.utterance));
    }

    fn plus((one, other): (Row, Row)) -> Row {
        Row { rate: one.rate, octets: one.octets.plus(&other.octets), bits: one.bits.plus(&other.bits) }
    }

    /// The rate as it is usually written: of bits 3e-4, of pairs 0.05.
    pub fn rate_shown(&self, plan: &Plan) -> String {
        match plan.kind {
            Kind::Ber { .. } if self.rate > 0.0 => format!("{:e}", self.rate),
            _ => format!("{}", self.rate),
        }
    }
}

fn by_rate(arguments: &Arguments) -> Outcome<Kind> {
    Ok(Kind::Ber { burst: damage::burst(arguments)?, spare_syncs: arguments.has("spare-syncs") })
}

fn rates(arguments: &Arguments) -> Outcome<Vec<f64>> {
    match arguments.value("ber") {
        Some(value) => shares(arguments, "ber", value, damage::MOST_BER),
        None => Ok(USUAL_RATES.to_vec()),
    }
}

/// Rates or shares with commas between them.
fn shares(arguments: &Arguments, name: &str, value: &OsStr, most: f64) -> Outcome<Vec<f64>> {
    let shown = value.to_string_lossy();
    shown.split(',').map(|one| damage::share(arguments, name, OsStr::new(one.trim()), most)).collect()
}

/// The bits before each image.
fn shift(arguments: &Arguments) -> Outcome<u64> {
    match arguments.number("shift", 0)? {
        shift @ 0..=MOST_SHIFT => Ok(shift),
        shift => Err(arguments.wrong(&format!("--shift {shift}: it is a whole number from 0 to {MOST_SHIFT}"))),
    }
}

/// A whole number from 1 to `most`.
fn within(arguments: &Arguments, name: &str, usual: u64, most: u64) -> Outcome<u64> {
    let number = arguments.number(name, usual)?;
    if (1..=most).contains(&number) {
        return Ok(number);
    }
    Err(arguments.wrong(&format!("--{name} {number}: it is a whole number from 1 to {most}")))
}

#[cfg(test)]
mod tests {
    use super::{chart, Kind, Plan, Row};

    fn plan(kind: Kind, rates: &[f64]) -> Plan {
        Plan { utterances: 30, frames: 60, rates: rates.to_vec(), kind, shift: 0, least: 14, seed: 3 }
    }

    /// It is proved: damage of this kind is named, all of it, and nothing is refused.
    #[test]
    fn bounded_damage_is_named() {
        for row in plan(Kind::Bounded, &[0.0, 0.3, 1.0]).rows().expect("the writer takes all") {
            for tally in [row.octets, row.bits] {
                assert_eq!((tally.refusals(), tally.wrong, tally.settings, tally.untrue), (0, 0, 0, 0));
            }
        }
    }

    #[test]
    fn the_sums_do_not_depend_on_how_many_count() {
        let plan = plan(Kind::Ber { burst: 1, spare_syncs: false }, &[1e-3, 1e-2]);
        let part = |hand, hands| plan.part(hand, hands).expect("the writer takes all");
        let three = part(0, 3).into_iter().zip(part(1, 3)).map(Row::plus).zip(part(2, 3)).map(Row::plus);
        for (one, other) in part(0, 1).iter().zip(three) {
            assert_eq!((&one.octets, &one.bits), (&other.octets, &other.bits));
        }
    }

    /// Rows of nothing, of a rate of 0 and of all that was refused have no place that is no number.
    #[test]
    fn a_chart_has_numbers_alone() {
        for (kind, rates) in [(Kind::Bounded, &[0.0, 1.0][..]), (Kind::Ber { burst: 2, spare_syncs: true }, &[0.0, 0.001, 0.5])] {
            let plan = plan(kind, rates);
            let svg = chart::chart(&plan, &plan.rows().expect("the writer takes all"));
            assert!(svg.starts_with("<svg ") && svg.ends_with("</svg>\n"));
            assert!(!svg.contains("NaN") && !svg.contains("inf"));
        }
    }
}
