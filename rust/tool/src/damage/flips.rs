//! Flipped bits at a rate, alone or in bursts.
use dsr::MULTIFRAME_OCTETS;

use crate::layout::SYNC_OCTETS;
use crate::random::Random;

/// Says of one bit after another whether it is flipped.
///
/// At each bit outside a burst one begins with the probability `begins`. It has `length` bits: the first and the last are flipped, those
/// between with probability 1/2. Each bit is drawn for itself, and numbers are compared and not put into functions, so that the same seed
/// gives the same flips on every machine.
pub struct Flips {
    random: Random,
    begins: f64,
    length: u64,
    /// The bits of a burst under way that are still to come.
    left: u64,
}

impl Flips {
    /// Flips at that rate, 0 to 0.5, in bursts of that length, 1 or more.
    ///
    /// From the beginning of one burst to that of the next there are F / rate bits on average, F flips being in a burst; `length` of them
    /// are the burst, and (1 - begins) / begins stand outside. Since F is above length / 2, `begins` is never above 1.
    pub fn new(rate: f64, length: u64, mut random: Random) -> Flips {
        let flips = if length == 1 { 1.0 } else { 2.0 + (length - 2) as f64 / 2.0 };
        let between = flips / rate;
        let begins = 1.0 / (between - length as f64 + 1.0);
        // the link was there before the first bit: so a burst may be under way, and the rate is the same from the first bit on
        let under_way = random.happens((length - 1) as f64 / between);
        let left = if under_way { 1 + random.below(length - 1) } else { 0 };
        Flips { random, begins, length, left }
    }

    /// Flips bits of all octets, or with `spare_syncs` of all but the syncs of multiframes one behind the other; gives their number.
    pub fn flip(&mut self, octets: &mut [u8], spare_syncs: bool) -> u64 {
        let mut flipped = 0;
        for (place, octet) in octets.iter_mut().enumerate() {
            // drawn for a spared octet too: the others' flips do not depend on what is spared
            let flips = self.eight();
            if spare_syncs && place % MULTIFRAME_OCTETS < SYNC_OCTETS {
                continue;
            }
            *octet ^= flips;
            flipped += u64::from(flips.count_ones());
        }
        flipped
    }

    fn eight(&mut self) -> u8 {
        (0..8).fold(0, |octet, bit| octet | u8::from(self.next()) << bit)
    }

    fn next(&mut self) -> bool {
        if self.left > 0 {
            self.left -= 1;
            return self.left == 0 || self.random.happens(0.5);
        }
        let begins = self.random.happens(self.begins);
        if begins {
            self.left = self.length - 1;
        }
        begins
    }
}

#[cfg(test)]
mod tests {
    use super::Flips;
    use crate::random::Random;

    /// The share of flipped bits of two million.
    fn share(rate: f64, length: u64) -> f64 {
        let mut octets = vec![0; 250_000];
        let flipped = Flips::new(rate, length, Random::new(9)).flip(&mut octets, false);
        assert_eq!(flipped, octets.iter().map(|octet| u64::from(octet.count_ones())).sum::<u64>());
        flipped as f64 / 2e6
    }

    #[test]
    fn the_rate_is_kept_with_and_without_bursts() {
        for rate in [0.001, 0.02, 0.3, 0.5] {
            for length in [1, 2, 3, 8, 100] {
                let off = (share(rate, length) / rate - 1.0).abs();
                // the flips of a burst come together, so a sample of bursts says less
                assert!(off < 0.1 * (1.0 + length as f64 / 40.0), "{rate} in bursts of {length} is off by {off}");
            }
        }
    }

    /// Many short beginnings: the rate is that from the first bit on, though bursts are longer than what is looked at.
    #[test]
    fn the_rate_is_kept_at_the_beginning() {
        let flipped: u64 = (0..40_000).map(|seed| Flips::new(0.1, 50, Random::new(seed)).flip(&mut [0; 4], false)).sum();
        let off = (flipped as f64 / (40_000.0 * 32.0) / 0.1 - 1.0).abs();
        assert!(off < 0.05, "off by {off}");
    }

    #[test]
    fn nothing_and_half_are_rates() {
        assert_eq!(share(0.0, 1), 0.0);
        assert_eq!(share(0.0, 7), 0.0);
        assert!(share(0.5, 1_000_000) > 0.4);
    }

    /// A burst of five bits begins and ends with a flip, and outside of bursts there is none.
    #[test]
    fn a_burst_begins_and_ends_with_a_flip() {
        let mut octets = vec![0; 100_000];
        Flips::new(1e-4, 5, Random::new(4)).flip(&mut octets, false);
        let bits: Vec<bool> = (0..800_000).map(|bit| octets[bit / 8] >> (bit % 8) & 1 == 1).collect();
        let mut bursts = 0;
        let mut bit = 5; // behind a burst that was under way
        while bit < bits.len() - 5 {
            bursts += u32::from(bits[bit]);
            assert!(!bits[bit] || bits[bit + 4]);
            bit += if bits[bit] { 5 } else { 1 };
        }
        assert!(bursts > 10, "{bursts} bursts");
    }

    #[test]
    fn spared_syncs_stay_and_the_rest_is_as_without() {
        let (mut spared, mut all) = (vec![0; 1440], vec![0; 1440]);
        let flipped = Flips::new(0.2, 3, Random::new(5)).flip(&mut spared, true);
        assert!(Flips::new(0.2, 3, Random::new(5)).flip(&mut all, false) > flipped);
        for (one, other) in spared.chunks(144).zip(all.chunks(144)) {
            assert_eq!((&one[..2], &one[2..]), (&[0, 0][..], &other[2..]));
        }
    }
}
