//! Damage of the kind for which naming is proved (demand 3): syncs whole, up to two flips in each header, and in each packet nothing, flips
//! inside four neighbouring bits, or two flips whose distance is no multiple of 15. One pair stays whole, and so does an only header.
use dsr::{MULTIFRAME_OCTETS, MULTIFRAME_PAIRS};

use crate::layout;
use crate::random::Random;

/// A header's first bit in its multiframe, behind the sync.
const HEADER: u64 = layout::SYNC_BITS as u64;
const HEADER_BITS: u64 = layout::HEADER_BITS as u64;
const MOST_HEADER_FLIPS: u64 = 2;
/// The feature stream's first bit in its multiframe. Packet q of it begins q packets further on.
const STREAM: u64 = HEADER + HEADER_BITS;
const PACKET_BITS: u64 = layout::PACKET_BITS as u64;
const NEIGHBOURS: u64 = 4;
const UNSEEN: u64 = layout::UNSEEN as u64;

/// Damages multiframes that stand one behind the other, each pair with that probability, and gives the number of flips.
pub fn damage(octets: &mut [u8], pairs: f64, random: &mut Random) -> u64 {
    let multiframes = octets.len() / MULTIFRAME_OCTETS;
    if multiframes == 0 {
        return 0;
    }
    let whole = random.below((multiframes * MULTIFRAME_PAIRS) as u64) as usize;
    let mut flipped = 0;
    for (number, multiframe) in octets.chunks_exact_mut(MULTIFRAME_OCTETS).enumerate() {
        if multiframes > 1 {
            flipped += flip_all(multiframe, HEADER, &header_flips(random));
        }
        for packet in 0..MULTIFRAME_PAIRS {
            let is_hit = random.happens(pairs) && number * MULTIFRAME_PAIRS + packet != whole;
            let flips = if is_hit { packet_flips(random) } else { Vec::new() };
            flipped += flip_all(multiframe, STREAM + PACKET_BITS * packet as u64, &flips);
        }
    }
    flipped
}

fn flip_all(multiframe: &mut [u8], from: u64, flips: &[u64]) -> u64 {
    for bit in flips.iter().map(|flip| from + flip) {
        multiframe[(bit / 8) as usize] ^= 1 << (bit % 8);
    }
    flips.len() as u64
}

/// None, one or two different bits of a header, each number as often.
fn header_flips(random: &mut Random) -> Vec<u64> {
    let many = random.below(MOST_HEADER_FLIPS + 1);
    let first = random.below(HEADER_BITS);
    let second = (first + 1 + random.below(HEADER_BITS - 1)) % HEADER_BITS;
    [first, second].into_iter().take(many as usize).collect()
}

/// Bits of a packet to be flipped: each of the two kinds as often.
fn packet_flips(random: &mut Random) -> Vec<u64> {
    if random.below(2) == 0 {
        neighbours(random)
    } else {
        two_apart(random)
    }
}

/// Any of fifteen patterns, at any place.
fn neighbours(random: &mut Random) -> Vec<u64> {
    let first = random.below(PACKET_BITS - NEIGHBOURS + 1);
    let pattern = 1 + random.below((1 << NEIGHBOURS) - 1);
    (0..NEIGHBOURS).filter(|bit| pattern >> bit & 1 == 1).map(|bit| first + bit).collect()
}

/// Any two places whose distance is no multiple of 15, so that they are not the same either.
fn two_apart(random: &mut Random) -> Vec<u64> {
    loop {
        let (first, second) = (random.below(PACKET_BITS), random.below(PACKET_BITS));
        if first.abs_diff(second) % UNSEEN != 0 {
            return vec![first, second];
        }
    }
}

#[cfg(test)]
mod tests {
    use super::damage;
    use crate::random::Random;

    /// The damaged bits of a multiframe: of its sync, its header and its twelve packets.
    fn apart(multiframe: &[u8]) -> Vec<Vec<usize>> {
        let hit: Vec<usize> = (0..1152).filter(|bit| multiframe[bit / 8] >> (bit % 8) & 1 == 1).collect();
        let within = |from: usize, to: usize| hit.iter().filter(|bit| (from..to).contains(bit)).map(|bit| bit - from).collect();
        let packets = (0..12).map(|q| within(48 + 92 * q, 140 + 92 * q));
        [within(0, 16), within(16, 48)].into_iter().chain(packets).collect()
    }

    /// Demand 3's words, for one packet.
    fn is_of_the_kind(flips: &[usize]) -> bool {
        match (flips.first(), flips.last()) {
            (Some(first), Some(last)) => last - first < 4 || (flips.len() == 2 && (last - first) % 15 != 0),
            _ => true,
        }
    }

    #[test]
    fn stays_within_its_bounds() {
        for seed in 0..500 {
            let mut octets = vec![0; 144 * 3];
            let pairs = [0.0, 0.1, 0.5, 1.0][seed as usize % 4];
            let flipped = damage(&mut octets, pairs, &mut Random::new(seed));
            let multiframes: Vec<_> = octets.chunks(144).map(apart).collect();
            assert!(multiframes.iter().all(|parts| parts[0].is_empty() && parts[1].len() <= 2));
            assert!(multiframes.iter().all(|parts| parts[2..].iter().all(|flips| is_of_the_kind(flips))));
            let hit = multiframes.iter().flat_map(|parts| &parts[2..]).filter(|flips| !flips.is_empty()).count();
            assert!(hit < 36 && (pairs < 1.0 || hit == 35) && (pairs > 0.0 || hit == 0));
            assert_eq!(flipped as usize, multiframes.iter().flatten().map(Vec::len).sum::<usize>());
        }
    }

    #[test]
    fn an_only_header_stays_whole() {
        for seed in 0..200 {
            let mut octets = vec![0; 144];
            damage(&mut octets, 1.0, &mut Random::new(seed));
            let parts = apart(&octets);
            assert!(parts[0].is_empty() && parts[1].is_empty());
            assert_eq!(parts[2..].iter().filter(|flips| flips.is_empty()).count(), 1);
        }
    }

    /// Every number of flips of a header comes, and both kinds of damage to a packet.
    #[test]
    fn every_kind_comes() {
        let mut octets = vec![0; 144 * 100];
        damage(&mut octets, 0.5, &mut Random::new(1));
        let multiframes: Vec<_> = octets.chunks(144).map(apart).collect();
        assert!((0..3).all(|many| multiframes.iter().any(|parts| parts[1].len() == many)));
        let packets = || multiframes.iter().flat_map(|parts| &parts[2..]);
        assert!((0..5).all(|many| packets().any(|flips| flips.len() == many)));
        assert!(packets().any(|flips| flips.len() == 2 && flips[1] - flips[0] > 45));
    }
}
