//! A fixed stream of numbers (splitmix64), so that each run tries the same inputs.

/// The seed of a run that is given none.
pub const SEED: u64 = 201_108;

/// The seed that the environment variable SEED gives, or the fixed one; it is printed.
pub fn seed() -> u64 {
    let seed = std::env::var("SEED").map_or(SEED, |text| text.parse().expect("SEED is a number"));
    println!("  seed {seed}");
    seed
}

pub struct Chance(u64);

impl Chance {
    pub fn new(seed: u64) -> Chance {
        Chance(seed)
    }

    pub fn word(&mut self) -> u64 {
        self.0 = self.0.wrapping_add(0x9E37_79B9_7F4A_7C15);
        let mut z = self.0;
        z = (z ^ z >> 30).wrapping_mul(0xBF58_476D_1CE4_E5B9);
        z = (z ^ z >> 27).wrapping_mul(0x94D0_49BB_1331_11EB);
        z ^ z >> 31
    }

    pub fn below(&mut self, n: usize) -> usize {
        (self.word() % n as u64) as usize
    }

    /// True once in n times.
    pub fn once_in(&mut self, n: usize) -> bool {
        self.below(n) == 0
    }

    pub fn pick<T: Copy>(&mut self, list: &[T]) -> T {
        list[self.below(list.len())]
    }

    pub fn octets(&mut self, n: usize) -> Vec<u8> {
        (0..n).map(|_| self.word() as u8).collect()
    }

    /// A frame whose indices fit; one in eight is zero.
    pub fn frame(&mut self) -> [u8; 7] {
        if self.once_in(8) {
            return [0; 7];
        }
        self.speech()
    }

    /// A frame whose indices fit and that is not zero.
    pub fn speech(&mut self) -> [u8; 7] {
        let mut frame: [u8; 7] = std::array::from_fn(|i| self.below(if i < 6 { 64 } else { 256 }) as u8);
        frame[6] |= (frame == [0; 7]) as u8;
        frame
    }

    /// `count` different places below n.
    pub fn places(&mut self, count: usize, n: usize) -> Vec<usize> {
        let mut list: Vec<usize> = vec![];
        while list.len() < count {
            let place = self.below(n);
            if !list.contains(&place) {
                list.push(place);
            }
        }
        list
    }
}
