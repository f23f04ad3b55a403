//! Bits one behind the other, cut and joined at any bit. Bit t is in octet t / 8, with value 2^(t % 8), as the library counts them.
use std::collections::TryReserveError;
use std::ops::Range;

use crate::random::Random;

/// So many bits. Those that the last octet has too many are 0.
#[derive(Debug, Clone, PartialEq, Eq)]
pub struct Bits {
    octets: Vec<u8>,
    count: u64,
}

impl Bits {
    /// All bits of whole octets.
    pub fn of(octets: Vec<u8>) -> Bits {
        let count = 8 * octets.len() as u64;
        Bits { octets, count }
    }

    pub fn count(&self) -> u64 {
        self.count
    }

    pub fn octets(&self) -> &[u8] {
        &self.octets
    }

    /// These bits without `many` of them from bit `at` on.
    pub fn without(&self, at: u64, many: u64) -> Result<Bits, TryReserveError> {
        joined(&[(self, 0..at), (self, at + many..self.count)])
    }

    /// These bits with `many` of them from bit `at` on sent twice.
    pub fn twice(&self, at: u64, many: u64) -> Result<Bits, TryReserveError> {
        joined(&[(self, 0..at + many), (self, at..self.count)])
    }

    /// These bits with `many` drawn ones before them.
    pub fn behind(&self, many: u64, random: &mut Random) -> Result<Bits, TryReserveError> {
        let mut octets = Vec::new();
        octets.try_reserve_exact(octets_for(many))?;
        octets.extend((0..octets_for(many)).map(|_| random.below(256) as u8));
        joined(&[(&Bits::of(octets), 0..many), (self, 0..self.count)])
    }

    /// The eight bits from that one on; zeros where there are none.
    fn eight(&self, from: u64) -> u8 {
        let octet = |place: u64| self.octets.get(place as usize).copied().unwrap_or(0);
        let two = u16::from_le_bytes([octet(from / 8), octet(from / 8 + 1)]);
        (two >> (from % 8)) as u8
    }

    fn append(&mut self, bits: &Bits, range: Range<u64>) {
        for from in range.clone().step_by(8) {
            self.push(bits.eight(from), (range.end - from).min(8));
        }
    }

    /// Adds the first `many` bits, 1 to 8, of an octet.
    fn push(&mut self, octet: u8, many: u64) {
        let (used, octet) = (self.count % 8, octet & (0xFF >> (8 - many)));
        self.count += many;
        let two = u16::from(octet) << used;
        match self.octets.last_mut() {
            Some(last) if used > 0 => *last |= two as u8,
            _ => self.octets.push(two as u8),
        }
        if used + many > 8 {
            self.octets.push((two >> 8) as u8);
        }
    }
}

fn octets_for(bits: u64) -> usize {
    bits.div_ceil(8) as usize
}

/// Stretches of bits, one behind the other.
fn joined(parts: &[(&Bits, Range<u64>)]) -> Result<Bits, TryReserveError> {
    let count = parts.iter().map(|(_, range)| range.end - range.start).sum();
    let mut all = Bits { octets: Vec::new(), count: 0 };
    all.octets.try_reserve_exact(octets_for(count))?;
    for (bits, range) in parts {
        all.append(bits, range.clone());
    }
    Ok(all)
}

#[cfg(test)]
mod tests {
    use super::Bits;
    use crate::random::Random;

    fn bits(text: &str) -> Bits {
        let mut all = Bits::of(Vec::new());
        text.chars().filter(|c| *c != ' ').for_each(|c| all.push(u8::from(c == '1'), 1));
        all
    }

    #[test]
    fn the_first_bit_has_the_smallest_value() {
        let octets = bits("1000 0000 0000 0001 11");
        assert_eq!((octets.octets(), octets.count()), (&[0x01, 0x80, 0x03][..], 18));
    }

    #[test]
    fn loses_and_repeats() {
        let all = bits("1100 1010 0111 0001 101");
        assert_eq!(all.without(3, 5), Ok(bits("110 0111 0001 101")));
        assert_eq!(all.without(0, 19), Ok(bits("")));
        assert_eq!(all.without(19, 0), Ok(all.clone()));
        assert_eq!(all.twice(2, 9), Ok(bits("1100 1010 011 00 1010 0111 0001 101")));
        assert_eq!(all.twice(18, 1), Ok(bits("1100 1010 0111 0001 101 1")));
    }

    #[test]
    fn whole_octets_are_cut_as_octets_are() {
        let octets: Vec<u8> = (0..100).collect();
        let all = Bits::of(octets.clone());
        assert_eq!(all.without(80, 800 - 80).map(|left| left.octets().to_vec()), Ok(octets[..10].to_vec()));
        assert_eq!(all.twice(8, 16).map(|more| more.octets()[..6].to_vec()), Ok(vec![0, 1, 2, 1, 2, 3]));
    }

    #[test]
    fn what_stood_first_stands_behind_a_shift() {
        let all = bits("1100 1010 0111");
        let shifted = all.behind(11, &mut Random::new(3)).expect("there is room");
        assert_eq!((shifted.count(), shifted.octets().len()), (23, 3));
        assert_eq!(shifted.without(0, 11), Ok(all));
    }
}
