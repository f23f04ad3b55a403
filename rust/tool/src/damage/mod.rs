//! dsr damage: what a bad link does to an image, drawn from a seed, the same way each time.
pub mod bits;
pub mod bounded;
pub mod flips;

use std::ffi::OsStr;

use dsr::{Choices, Tables, MULTIFRAME_OCTETS};

use crate::arguments::Arguments;
use crate::explain;
use crate::failure::{self, Failure, Outcome, CLEAN};
use crate::random::Random;
use crate::{input, output};
use bits::Bits;
use flips::Flips;

/// The seed if none is given.
pub const USUAL_SEED: u64 = 1;
/// The largest bit error rate: at one half nothing is left of what was sent, and above it the bits come back turned over.
pub const MOST_BER: f64 = 0.5;
/// The largest share of damaged pairs.
pub const MOST_BOUNDED: f64 = 1.0;
/// The longest burst. Beyond it nothing is to be learnt, and rates could no longer be reckoned with exactly.
const LONGEST_BURST: u64 = 1_000_000;
/// So many bits (1 GiB) may stand there after a repetition or a shift, so that a slip of the pen does not eat all memory.
const MOST_BITS: u64 = 1 << 33;

/// What chance is drawn for. Each kind has a stream of its own, so that an option more changes nothing of what the others draw.
#[derive(Debug, Clone, Copy, PartialEq, Eq)]
pub enum Chance {
    Bounded = 1,
    Ber,
    Shift,
    Frames,
    Trust,
}

/// A seed made of a seed and a number, with which nothing else shares its draws.
pub fn derived(seed: u64, number: u64) -> u64 {
    Random::new(Random::new(seed).bits() ^ number).bits()
}

/// The stream of that kind of chance.
pub fn stream(seed: u64, kind: Chance) -> Random {
    Random::new(derived(seed, kind as u64))
}

/// A rate or share from 0 to `most`, as one value of that option says it.
pub fn share(arguments: &Arguments, name: &str, value: &OsStr, most: f64) -> Outcome<f64> {
    let read: f64 = arguments.parsed(name, value)?;
    if (0.0..=most).contains(&read) {
        return Ok(read);
    }
    Err(arguments.wrong(&format!("--{name} {}: it is a number from 0 to {most}", value.to_string_lossy())))
}

/// The length of a burst: 1, if none is asked for.
pub fn burst(arguments: &Arguments) -> Outcome<u64> {
    let length = arguments.number("burst", 1)?;
    if (1..=LONGEST_BURST).contains(&length) {
        return Ok(length);
    }
    Err(arguments.wrong(&format!("--burst {length}: a burst has 1 to {LONGEST_BURST} bits")))
}

/// What is to be done, as the options say it.
struct Wanted<'a> {
    seed: u64,
    /// The share of damaged pairs.
    bounded: Option<f64>,
    /// The bit error rate, and the length of a burst.
    ber: Option<(f64, u64)>,
    spare_syncs: bool,
    moves: Vec<Move<'a>>,
    shift: u64,
}

/// Bits that are lost, or sent twice.
struct Move<'a> {
    name: &'static str,
    value: &'a OsStr,
    at: u64,
    many: u64,
}

/// What was done, in numbers of bits.
#[derive(Debug, Default, PartialEq, Eq)]
struct Done {
    flipped: u64,
    lost: u64,
    repeated: u64,
    before: u64,
}

/// dsr damage.
pub fn run(arguments: &Arguments) -> Outcome<u8> {
    let wanted = Wanted::new(arguments)?;
    let name = &arguments.operands[0];
    let mut octets = input::octets(name)?;
    for option in ["bounded", "spare-syncs"].into_iter().filter(|option| arguments.has(option)) {
        needs_multiframes(option, &input::shown(name), &octets)?;
    }
    let mut done = Done { flipped: wanted.flip(&mut octets), ..Done::default() };
    let moved = wanted.move_bits(arguments, Bits::of(octets), &mut done)?;
    output::put_binary(arguments.value("output"), moved.octets())?;
    failure::tell(&line(&done, wanted.seed));
    Ok(CLEAN)
}

impl<'a> Wanted<'a> {
    /// Reads all options before anything is done, so that a wrong one is told at once.
    fn new(arguments: &'a Arguments) -> Outcome<Wanted<'a>> {
        arguments.only_with("burst", "ber")?;
        arguments.only_with("spare-syncs", "ber")?;
        if !["ber", "bounded", "drop", "repeat", "shift"].iter().any(|name| arguments.has(name)) {
            return Err(arguments.wrong("what damage? there are --ber, --bounded, --drop, --repeat and --shift"));
        }
        let one = |name, most| arguments.value(name).map(|value| share(arguments, name, value, most)).transpose();
        let length = burst(arguments)?;
        let moves = arguments.in_order().filter(|(name, _)| ["drop", "repeat"].contains(name));
        Ok(Wanted {
            seed: arguments.number("seed", USUAL_SEED)?,
            bounded: one("bounded", MOST_BOUNDED)?,
            ber: one("ber", MOST_BER)?.map(|rate| (rate, length)),
            spare_syncs: arguments.has("spare-syncs"),
            moves: moves.map(|(name, value)| Move::new(arguments, name, value)).collect::<Outcome<_>>()?,
            shift: arguments.number("shift", 0)?,
        })
    }

    /// Flips bits by --bounded and then by --ber, and says how many.
    fn flip(&self, octets: &mut [u8]) -> u64 {
        let mut flipped = 0;
        if let Some(pairs) = self.bounded {
            flipped += bounded::damage(octets, pairs, &mut stream(self.seed, Chance::Bounded));
        }
        if let Some((rate, length)) = self.ber {
            flipped += Flips::new(rate, length, stream(self.seed, Chance::Ber)).flip(octets, self.spare_syncs);
        }
        flipped
    }

    /// Loses and repeats bits in the order of the options, and then puts bits before all others.
    fn move_bits(&self, arguments: &Arguments, mut bits: Bits, done: &mut Done) -> Outcome<Bits> {
        for moved in &self.moves {
            let Move { at, many, .. } = *moved;
            moved.fits(arguments, bits.count())?;
            if moved.name == "drop" {
                bits = bits.without(at, many).map_err(|_| too_much())?;
                done.lost += many;
            } else {
                room(arguments, "repeat", bits.count(), many)?;
                bits = bits.twice(at, many).map_err(|_| too_much())?;
                done.repeated += many;
            }
        }
        if self.shift > 0 {
            room(arguments, "shift", bits.count(), self.shift)?;
            bits = bits.behind(self.shift, &mut stream(self.seed, Chance::Shift)).map_err(|_| too_much())?;
            done.before = self.shift;
        }
        Ok(bits)
    }
}

impl<'a> Move<'a> {
    /// Reads a value AT:N.
    fn new(arguments: &Arguments, name: &'static str, value: &'a OsStr) -> Outcome<Move<'a>> {
        let shown = value.to_string_lossy();
        let two = shown.split_once(':').and_then(|(at, many)| Some((at.parse().ok()?, many.parse().ok()?)));
        let (at, many) =
            two.ok_or_else(|| arguments.wrong(&format!("--{name} {shown}: it is AT:N, two whole numbers of bits")))?;
        Ok(Move { name, value, at, many })
    }

    /// All of its bits have to be among those that there are.
    fn fits(&self, arguments: &Arguments, count: u64) -> Outcome<()> {
        if self.at.checked_add(self.many).is_some_and(|end| end <= count) {
            return Ok(());
        }
        let shown = self.value.to_string_lossy();
        Err(arguments.wrong(&format!("--{} {shown}: there are {count} bits then, and this ends behind them", self.name)))
    }
}

fn line(done: &Done, seed: u64) -> String {
    let Done { flipped, lost, repeated, before } = done;
    format!("damage: bits flipped {flipped}, lost {lost}, repeated {repeated}, put before {before}; seed {seed}")
}

/// Where syncs, headers and packets stand is known of multiframes one behind the other alone. The library is asked whether these are.
fn needs_multiframes(option: &str, file: &str, octets: &[u8]) -> Outcome<()> {
    let trouble = match dsr::read(octets, &Tables::ZEROS, Choices::ONE_HEADER_SETTLES) {
        Ok(heard) if MULTIFRAME_OCTETS * heard.reading.multiframes == octets.len() => return Ok(()),
        Ok(_) => "something stands before, between or behind these".to_string(),
        Err(refusal) => explain::refusal_line(refusal.number(), refusal.place()),
    };
    let needs = "needs multiframes one behind the other and nothing else, as dsr write makes them";
    Err(Failure::trouble(format!("{file}: --{option} {needs}: {trouble}")))
}

fn room(arguments: &Arguments, name: &str, count: u64, more: u64) -> Outcome<()> {
    if count.checked_add(more).is_some_and(|all| all <= MOST_BITS) {
        return Ok(());
    }
    Err(arguments.wrong(&format!("--{name}: more than {MOST_BITS} bits (1 GiB) would stand there then")))
}

fn too_much() -> Failure {
    Failure::trouble("damage: these bits do not fit into memory")
}

#[cfg(test)]
mod tests {
    use super::{derived, line, Chance, Done, Move};
    use crate::arguments::Arguments;
    use crate::commands;
    use std::ffi::OsStr;

    fn arguments() -> Arguments {
        let command = commands::command("damage").expect("there is such a command");
        Arguments::read(command, ["x".into()].into_iter()).expect("one operand")
    }

    #[test]
    fn says_what_was_done() {
        let done = Done { flipped: 12, lost: 24, repeated: 0, before: 11 };
        assert_eq!(line(&done, 7), "damage: bits flipped 12, lost 24, repeated 0, put before 11; seed 7");
    }

    #[test]
    fn takes_stretches_inside_the_bits_alone() {
        let taken = |value| Move::new(&arguments(), "drop", OsStr::new(value)).and_then(|moved| moved.fits(&arguments(), 96));
        let read = |value| taken(value).map_err(|failure| failure.line);
        assert_eq!(read("72:24"), Ok(()));
        assert!(read("73:24").unwrap_err().contains("there are 96 bits then"));
        assert!(read("1:18446744073709551615").unwrap_err().contains("there are 96 bits then"));
        assert!(read("5").unwrap_err().contains("it is AT:N"));
        assert!(read("5:-1").unwrap_err().contains("it is AT:N"));
    }

    #[test]
    fn kinds_of_chance_share_no_stream() {
        let seeds: Vec<u64> = (0..4).flat_map(|seed| (0..4).map(move |number| derived(seed, number))).collect();
        let apart = seeds.iter().enumerate().all(|(place, seed)| !seeds[..place].contains(seed));
        assert!(apart && Chance::Bounded as u64 == 1);
    }
}
