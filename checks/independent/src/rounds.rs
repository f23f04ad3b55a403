//! A comparison is a list of rounds. Each has a stream of chance of its own, so a round that is run alone makes the very calls that it makes
//! among the others, and a round that is changed changes no other.
use crate::chance::{seed, Chance};
use crate::driver::Driver;

/// What a round works with. Nothing else that changes may go from one round to the next.
pub trait Tools {
    fn tools(&mut self) -> (&mut Driver, &mut Chance);
}

/// For a comparison that keeps nothing besides.
impl Tools for (Driver, Chance) {
    fn tools(&mut self) -> (&mut Driver, &mut Chance) {
        (&mut self.0, &mut self.1)
    }
}

pub type Round<C> = (&'static str, fn(&mut C));

/// Runs every round in the list's order, or that one alone which the environment variable ROUND names; with ROUND=? it prints their names
/// instead. The rounds together have to try `at_least` so many inputs.
pub fn run<C: Tools>(make: fn(Driver, Chance) -> C, rounds: &[Round<C>], at_least: usize) {
    let alone = std::env::var("ROUND").ok();
    if alone.as_deref() == Some("?") {
        rounds.iter().for_each(|(name, _)| println!("{name}"));
        return;
    }
    let asked: Vec<&Round<C>> = rounds.iter().filter(|(name, _)| alone.as_ref().is_none_or(|alone| alone == name)).collect();
    assert!(!asked.is_empty(), "there is no round {}", alone.unwrap_or_default());
    let seed = seed();
    let mut check = make(Driver::start(), Chance::new(seed));
    for (name, round) in asked {
        // before the round, so that a difference is told behind it
        println!("  round {name}");
        let (driver, chance) = check.tools();
        driver.begin_round();
        *chance = Chance::new(seed ^ fnv_1a(name));
        round(&mut check);
    }
    check.tools().0.end(if alone.is_none() { at_least } else { 0 });
}

fn fnv_1a(name: &str) -> u64 {
    name.bytes().fold(0xCBF2_9CE4_8422_2325, |hash, octet| (hash ^ octet as u64).wrapping_mul(0x0100_0000_01B3))
}

#[cfg(test)]
mod tests {
    use super::*;

    /// As published with the function.
    #[test]
    fn hashes_of_words() {
        assert_eq!(["", "a", "foobar"].map(fnv_1a), [0xCBF2_9CE4_8422_2325, 0xAF63_DC4C_8601_EC8C, 0x8594_4171_F739_67E8]);
    }
}
