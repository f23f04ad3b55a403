//! The writer, 01 "Writing".
use crate::header::encode;
use crate::stream::{fits, pack, FRAME, FRAMES, INDICES, STREAM};

pub const MULTIFRAME: usize = 144;
pub const SYNC: [u8; 2] = [0x87, 0xB2];
pub const INVERSE: [u8; 2] = [0x78, 0x4D];

pub struct Refusal {
    pub number: u32,
    pub place: u64,
}

fn refusal<T>(number: u32, place: usize) -> Result<T, Refusal> {
    Err(Refusal { number, place: place as u64 })
}

/// The image, or the refusal.
pub fn write(rate: u64, kind: u64, indices: &[u8], room: usize) -> Result<Vec<u8>, Refusal> {
    if ![0, 1, 3].contains(&rate) || ![0, 1].contains(&kind) {
        return refusal(1, 0);
    }
    if indices.len() % FRAME != 0 {
        return refusal(2, indices.len());
    }
    let frames: Vec<&[u8]> = indices.chunks(FRAME).collect();
    let count = frames.len();
    if count > 6119 {
        return refusal(3, count);
    }
    if let Some(i) = frames.iter().position(|frame| !fits(frame)) {
        return refusal(4, i + 1);
    }
    let marks_the_end = |number: usize| number == count || number % FRAMES == 0;
    if let Some(i) = (0..count).find(|&i| marks_the_end(i + 1) && frames[i].iter().all(|&x| x == 0)) {
        return refusal(5, i + 1);
    }
    let m = count / FRAMES + 1;
    if room < MULTIFRAME * m {
        return refusal(6, MULTIFRAME * m);
    }
    let mut padded = indices.to_vec();
    padded.resize(m * INDICES, 0);
    Ok(padded.chunks(INDICES).enumerate().flat_map(|(k, part)| multiframe(rate, kind, k + 1, part)).collect())
}

/// Sync, header and stream; `position` counts from 1.
pub fn multiframe(rate: u64, kind: u64, position: usize, indices: &[u8]) -> Vec<u8> {
    let message = rate as u16 + 4 * kind as u16 + 8 * (position % 16) as u16;
    let stream = pack(indices, STREAM).expect("indices fit");
    [&SYNC[..], &encode(message).to_le_bytes(), &stream].concat()
}
