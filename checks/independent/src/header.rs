//! The header code, 01 "Parity" and "Headers". Parity by division on whole numbers; reading by the two halves of a word: if at most
//! two bits are flipped, the message half is untouched, or one bit of it is flipped, or the parity half is untouched.

/// 1 + X^8 + X^12 + X^14 + X^15.
const GENERATOR: u64 = 1 | 1 << 8 | 1 << 12 | 1 << 14 | 1 << 15;

pub fn encode(message: u16) -> u32 {
    let mut rest = (message as u64) << 15;
    while rest >> 15 != 0 {
        let top = 63 - rest.leading_zeros();
        rest ^= GENERATOR << (top - 15);
    }
    let word = message as u32 | (rest as u32) << 16;
    word | (word.count_ones() % 2) << 31
}

/// A header as 01 reads it: the message and the number of flips, or nothing if it is lost.
pub type Read = Option<(u16, u32)>;

pub struct Code {
    words: Vec<u32>,
    by_parity: Vec<Vec<u16>>,
}

impl Code {
    pub fn new() -> Code {
        let words: Vec<u32> = (0..=u16::MAX).map(encode).collect();
        let mut by_parity = vec![vec![]; 65536];
        for (message, word) in words.iter().enumerate() {
            by_parity[(word >> 16) as usize].push(message as u16);
        }
        Code { words, by_parity }
    }

    pub fn read(&self, word: u32) -> Read {
        let message = word as u16;
        let mut close: Vec<u16> = vec![message];
        close.extend((0..16).map(|i| message ^ 1 << i));
        close.extend(&self.by_parity[(word >> 16) as usize]);
        close
            .into_iter()
            .map(|m| (m, (self.words[m as usize] ^ word).count_ones()))
            .find(|&(_, flips)| flips <= 2)
    }
}

impl Default for Code {
    fn default() -> Self {
        Code::new()
    }
}

#[cfg(test)]
mod tests {
    use super::*;

    #[test]
    fn examples_of_01() {
        let octets = |m| encode(m).to_le_bytes();
        assert_eq!(octets(1 << 3), [0x08, 0x00, 0x0E, 0xEE]);
        assert_eq!(octets(2 << 3), [0x10, 0x00, 0x1D, 0x0D]);
        assert_eq!(octets(3 << 3), [0x18, 0x00, 0x13, 0xE3]);
        assert_eq!(octets(1), [0x01, 0x00, 0x01, 0xD1]);
        assert_eq!(octets(1 << 15), [0x00, 0x80, 0x80, 0xE8]);
        let code = Code::new();
        assert_eq!(code.read(u32::from_le_bytes([0x01, 0x00, 0x01, 0x01])), None);
    }
}
