//! What a packet's CRC does not see.
use dsr::{Error, MULTIFRAME_FRAMES, MULTIFRAME_INDICES, MULTIFRAME_PAIRS, STREAM_OCTETS};

use super::{grouped, of_all, Finding, TRUST};
use crate::layout::{PACKET_BITS, UNSEEN};
use crate::random::Random;
use crate::trial::sent;

/// Streams of garbage: twelve packets each.
const STREAMS_DRAWN: u64 = 100_000;

pub fn findings(random: &mut Random) -> Result<Vec<Finding>, Error> {
    let frames = sent::frames(MULTIFRAME_FRAMES, random);
    let indices: &[u8; MULTIFRAME_INDICES] = frames[..].try_into().expect("these are a multiframe's frames");
    let stream = dsr::pack(indices)?;
    Ok([vec![bursts(&stream)], two_flips(&stream), vec![garbage(random)]].into_iter().flatten().collect())
}

/// Every pattern of flips inside four neighbouring bits, in each of the twelve packets.
fn bursts(stream: &[u8; STREAM_OCTETS]) -> Finding {
    let (mut seen, mut all) = (0, 0);
    for packet in 0..MULTIFRAME_PAIRS {
        for (first, pattern) in (0..PACKET_BITS).flat_map(|first| (1..16).step_by(2).map(move |pattern: usize| (first, pattern)))
        {
            let places: Vec<usize> = (0..4).filter(|place| pattern >> place & 1 == 1).map(|place| first + place).collect();
            if places.iter().all(|place| *place < PACKET_BITS) {
                all += 1;
                seen += u64::from(!passes(stream, packet, &places));
            }
        }
    }
    Finding::all("flips inside four neighbouring bits, each of 12: CRC fails", (seen, all), TRUST)
}

/// Whether the packet's CRC is right with those bits of it flipped.
fn passes(stream: &[u8; STREAM_OCTETS], packet: usize, places: &[usize]) -> bool {
    let mut hit = *stream;
    for bit in places.iter().map(|place| PACKET_BITS * packet + place) {
        hit[bit / 8] ^= 1 << (bit % 8);
    }
    !dsr::unpack(&hit).1[packet].is_bad()
}

/// Every two places of each of the twelve packets.
fn two_flips(stream: &[u8; STREAM_OCTETS]) -> Vec<Finding> {
    let passing: Vec<Vec<usize>> = (0..MULTIFRAME_PAIRS).map(|packet| passing_distances(stream, packet)).collect();
    let counts: Vec<u64> = passing.iter().map(|distances| distances.len() as u64).collect();
    let pairs = (PACKET_BITS * (PACKET_BITS - 1) / 2) as u64;
    let counted = format!("{} of {}", of_all(&counts), grouped(pairs));
    let mut distances = passing.concat();
    distances.sort_unstable();
    distances.dedup();
    let shown: Vec<String> = distances.iter().map(usize::to_string).collect();
    let multiples: Vec<usize> = (UNSEEN..PACKET_BITS).step_by(UNSEEN).collect();
    vec![
        Finding::exact("two flips in a packet, each of 12: pass its CRC", counted, TRUST, "237 of 4,186"),
        Finding {
            what: "their distances".to_string(),
            counted: shown.join(", "),
            said: "15, 30, ..".to_string(),
            place: TRUST,
            agrees: distances == multiples,
        },
    ]
}

/// The distances of all two flips in that packet for which its CRC is right.
fn passing_distances(stream: &[u8; STREAM_OCTETS], packet: usize) -> Vec<usize> {
    let places = (0..PACKET_BITS).flat_map(|second| (0..second).map(move |first| (first, second)));
    places.filter(|(first, second)| passes(stream, packet, &[*first, *second])).map(|(first, second)| second - first).collect()
}

fn garbage(random: &mut Random) -> Finding {
    let mut right = 0;
    for _ in 0..STREAMS_DRAWN {
        let stream: [u8; STREAM_OCTETS] = std::array::from_fn(|_| random.below(256) as u8);
        right += dsr::unpack(&stream).1.iter().filter(|note| !note.is_bad()).count() as u64;
    }
    let all = STREAMS_DRAWN * MULTIFRAME_PAIRS as u64;
    Finding::sampled("a packet of random garbage has a right CRC", (right, all), 16.0, TRUST, "about 1 of 16")
}
