//! Frames, pair packets and the feature stream, 01 "Frame" and "CRC". A packet is one number of 92 bits, first sent least significant;
//! the CRC is a sum of powers of X, one for each bit that is set.
use crate::driver::WRONG_LENGTH;

pub const FRAME: usize = 7;
pub const FRAMES: usize = 24;
pub const PAIRS: usize = 12;
pub const INDICES: usize = FRAME * FRAMES;
pub const STREAM: usize = 138;

const PACKET_BITS: usize = 92;
const FRAME_BITS: u32 = 44;

/// X^k modulo 1 + X + X^4, the value of X^3 being 8.
fn power(k: usize) -> u8 {
    const POWERS: [u8; 15] = [1, 2, 4, 8, 3, 6, 12, 11, 5, 10, 7, 14, 15, 13, 9];
    POWERS[k % 15]
}

/// Packet bit i of the 88 stands for X^(91-i): the first sent is the highest power, and the whole is times X^4.
fn crc(packet: u128) -> u8 {
    (0..88).filter(|i| packet >> i & 1 == 1).fold(0, |sum, i| sum ^ power(91 - i))
}

/// The CRC as it is sent, highest power first, in packet bits 88 to 91.
fn crc_sent(packet: u128) -> u128 {
    ((crc(packet).reverse_bits() >> 4) as u128) << 88
}

fn frame_number(frame: &[u8]) -> u128 {
    let narrow = frame[..6].iter().rev().fold(0u128, |n, &index| n << 6 | index as u128);
    narrow | (frame[6] as u128) << 36
}

fn frame_of(number: u128) -> [u8; FRAME] {
    std::array::from_fn(|i| (number >> (6 * i)) as u8 & if i < 6 { 63 } else { 255 })
}

pub fn fits(frame: &[u8]) -> bool {
    frame.iter().take(6).all(|&index| index <= 63)
}

pub fn packet_of(first: &[u8], second: &[u8]) -> u128 {
    let data = frame_number(first) | frame_number(second) << FRAME_BITS;
    data | crc_sent(data)
}

pub fn right(packet: u128) -> bool {
    packet >> 88 << 88 == crc_sent(packet)
}

pub fn frames_of(packet: u128) -> ([u8; FRAME], [u8; FRAME]) {
    (frame_of(packet), frame_of(packet >> FRAME_BITS))
}

/// Two packets are 23 whole octets.
pub fn stream_of(packets: &[u128; PAIRS]) -> Vec<u8> {
    let mut stream = vec![];
    for two in packets.chunks(2) {
        let low = two[0] | two[1] << PACKET_BITS;
        let high = two[1] >> (128 - PACKET_BITS);
        stream.extend(low.to_le_bytes());
        stream.extend(&high.to_le_bytes()[..7]);
    }
    stream
}

pub fn packets_of(stream: &[u8]) -> [u128; PAIRS] {
    let mask = (1u128 << PACKET_BITS) - 1;
    std::array::from_fn(|p| {
        let two = &stream[23 * (p / 2)..][..23];
        let mut octets = [0u8; 16];
        octets[..12].copy_from_slice(if p % 2 == 0 { &two[..12] } else { &two[11..] });
        u128::from_le_bytes(octets) >> (4 * (p % 2)) & mask
    })
}

/// dsr_pack's answer: the stream, or the number of the refusal.
pub fn pack(indices: &[u8], room: usize) -> Result<Vec<u8>, u32> {
    if indices.len() != INDICES || room != STREAM {
        return Err(WRONG_LENGTH);
    }
    if !indices.chunks(FRAME).all(fits) {
        return Err(4);
    }
    Ok(stream_of(&std::array::from_fn(|p| packet_of(&indices[14 * p..][..7], &indices[14 * p + 7..][..7]))))
}

/// The index octets and the twelve notes of a stream.
pub fn unpack(stream: &[u8]) -> (Vec<u8>, Vec<u8>) {
    let packets = packets_of(stream);
    let indices = packets.iter().flat_map(|&p| [frames_of(p).0, frames_of(p).1].concat()).collect();
    (indices, packets.iter().map(|&p| !right(p) as u8).collect())
}

#[cfg(test)]
mod tests {
    use super::*;

    #[test]
    fn examples_of_01() {
        let packet = packet_of(&[1, 0, 0, 0, 0, 0, 0], &[0; 7]);
        assert_eq!(packet, 1 | 1 << 90);
        assert!(right(packet ^ 1 ^ 1 << 15));
        assert!(!right(packet ^ 1 ^ 1 << 14));
    }

    #[test]
    fn powers_follow_the_generator() {
        for k in 0..30 {
            let times_x = (power(k) as u16) << 1;
            let reduced = if times_x > 15 { times_x ^ 0b10011 } else { times_x };
            assert_eq!(power(k + 1) as u16, reduced);
        }
    }

    #[test]
    fn there_and_back() {
        let packets: [u128; PAIRS] = std::array::from_fn(|p| (p as u128 * 0x1234_5678_9ABC_DEF0_1357_9BDF) & ((1 << 92) - 1));
        assert_eq!(packets_of(&stream_of(&packets)), packets);
    }
}
