//! What several tests use: multiframes by hand, and bits.
#![allow(dead_code)]
use dsr::{header_encode, FrontEnd, Rate, Settings};

pub const SETTINGS: Settings = Settings::new(Rate::Khz8, FrontEnd::Standard);
pub const MULTIFRAME_BITS: usize = 1152;

/// A multiframe whose header has that message, one frame of speech (1, 0, .., 0) and then zeros.
pub fn multiframe(message: u16) -> Vec<u8> {
    let mut octets = vec![0x87, 0xB2];
    octets.extend(header_encode(message).to_le_bytes());
    octets.push(0x01);
    octets.extend([0; 10]);
    octets.push(0x04);
    octets.extend([0; 126]);
    octets
}

/// The input of the listing in 01.
pub fn listing() -> Vec<u8> {
    let mut octets = vec![0x87, 0xB2, 0x08, 0x00, 0x0E, 0xEE, 0x01];
    octets.extend([0; 10]);
    octets.push(0x04);
    octets.extend([0; 126]);
    octets
}

/// The listing's multiframe with a flip in the first bit of each of its twelve packets.
pub fn all_bad() -> Vec<u8> {
    let mut octets = listing();
    for pair in 0..12 {
        flip(&mut octets, 48 + 92 * pair);
    }
    octets
}

/// `before` zero bits, the octets' bits, `after` zero bits, and zeros up to a whole octet.
pub fn shifted(octets: &[u8], before: usize, after: usize) -> Vec<u8> {
    let bits = before + 8 * octets.len() + after;
    let mut out = vec![0; bits.div_ceil(8)];
    for t in (0..8 * octets.len()).filter(|t| octets[t / 8] >> (t % 8) & 1 == 1) {
        flip(&mut out, before + t);
    }
    out
}

pub fn flip(octets: &mut [u8], bit: usize) {
    octets[bit / 8] ^= 1 << (bit % 8);
}

/// So many frames, no index 0.
pub fn speech(frames: usize) -> Vec<u8> {
    (0..7 * frames).map(|i| (i * 37 % 63 + 1) as u8).collect()
}
