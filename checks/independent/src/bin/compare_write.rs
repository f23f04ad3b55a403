//! Compares the library's writer with the independent version. Arguments: the command that runs the write driver.
#![deny(dead_code)] // a round that is in no list
use independent::chance::Chance;
use independent::driver::{over, Call, Driver};
use independent::rounds::{run, Round};
use independent::writing::{write, MULTIFRAME};

struct Input {
    rate: u64,
    kind: u64,
    indices: Vec<u8>,
    room: usize,
}

fn compare(driver: &mut Driver, chance: &mut Chance, name: &str, input: &Input) {
    let lent = chance.octets(input.room);
    let call = Call::kind(b'W').octet(driver.mode()).long(input.rate).long(input.kind).long(chance.word());
    let call = call.octets(&input.indices).octets(&lent);
    let mut answer = driver.call(call, 16 + input.room);
    let got = (answer.word(), answer.word(), answer.long(), answer.take(input.room).to_vec());
    let (number, want) = match write(input.rate, input.kind, &input.indices, input.room) {
        Ok(image) => (0, (0, 1, image.len() as u64, over(&lent, &image))),
        Err(refusal) => (refusal.number, (refusal.number, 1, refusal.place, lent)),
    };
    assert!(got == want, "{name}: rate {} type {} indices {:?} room {}: answer {:?}, wanted {:?}, or other octets", input.rate, input.kind, input.indices, input.room, (got.0, got.1, got.2), (want.0, want.1, want.2));
    driver.count(name, 1);
    driver.count(&format!("of these answered with {number}"), 1);
}

fn speech(chance: &mut Chance, n: usize) -> Vec<u8> {
    (0..n).flat_map(|_| chance.speech()).collect()
}

fn needed(n: usize) -> usize {
    MULTIFRAME * (n / 24 + 1)
}

fn accepted(chance: &mut Chance, n: usize) -> Input {
    Input { rate: chance.pick(&[0, 1, 3]), kind: chance.pick(&[0, 1]), indices: speech(chance, n), room: needed(n) + chance.below(3) * 50 }
}

fn settings(driver: &mut Driver, chance: &mut Chance) {
    for rate in 0..=255 {
        for kind in [0, 1, 2, 3, 128, 255] {
            let n = chance.below(3);
            let input = Input { rate, kind, indices: speech(chance, n), room: needed(n) };
            compare(driver, chance, "every rate with types 0, 1, 2, 3, 128, 255", &input);
        }
    }
    let moved = (8..64).flat_map(|power| (0..4).map(move |low| (1u64 << power) + low));
    for big in moved.chain([u64::MAX, u64::MAX - 1, u64::MAX - 2, u32::MAX as u64, i64::MAX as u64]) {
        for (rate, kind) in [(big, 0), (big, 1), (0, big), (3, big), (big, big)] {
            let input = Input { rate, kind, indices: vec![1; 7], room: 144 };
            compare(driver, chance, "rates and types that are right where they are cut", &input);
        }
    }
}

fn lengths(driver: &mut Driver, chance: &mut Chance) {
    for octets in 0..1500 {
        let mut input = accepted(chance, octets / 7 + 1);
        input.indices.truncate(octets);
        compare(driver, chance, "every number of index octets to 1,499", &input);
    }
    for n in [6095, 6096, 6097, 6118, 6119, 6120, 6121, 7000] {
        for short in [0, 1, 144] {
            let mut input = accepted(chance, n);
            input.room = needed(n) - short;
            compare(driver, chance, "around 254, 255 and 256 multiframes, also with room short", &input);
        }
    }
    for n in (0..160).chain([2399, 2400, 6118, 6119]) {
        for room in [0, 1, 143, 144, needed(n) - 1, needed(n), needed(n) + 1] {
            let mut input = accepted(chance, n);
            input.room = room;
            compare(driver, chance, "rooms of nothing, one short, exact, one more", &input);
        }
    }
}

fn edge_frames(driver: &mut Driver, chance: &mut Chance) {
    for place in 0..7 * 50 {
        for value in [63, 64, 255] {
            let mut input = accepted(chance, 50);
            input.indices[place] = value;
            compare(driver, chance, "each index of 50 frames at 63, 64, 255", &input);
        }
    }
    for n in 1..100 {
        for f in 0..n {
            let mut input = accepted(chance, n);
            input.indices[7 * f..7 * f + 7].fill(0);
            compare(driver, chance, "each frame of each utterance of up to 99 zero", &input);
        }
    }
    for f in (23..6119).step_by(24).chain([0, 1, 6117, 6118]) {
        let mut input = accepted(chance, 6119);
        input.indices[7 * f..7 * f + 7].fill(0);
        compare(driver, chance, "6,119 frames, a zero one at each multiple of 24", &input);
    }
}

/// A wide index in each frame of the longest utterance, and a zero frame at the end of utterances of every length. There is no room, so
/// 6 applies too.
fn far_frames(driver: &mut Driver, chance: &mut Chance) {
    let mut input = Input { room: 0, ..accepted(chance, 6119) };
    for f in 0..6119 {
        let (place, value) = (7 * f + chance.below(6), 64 + chance.below(192) as u8);
        let was = std::mem::replace(&mut input.indices[place], value);
        compare(driver, chance, "6,119 frames, a wide index in each", &input);
        input.indices[place] = was;
    }
    for n in (1..=6119usize).rev() {
        input.indices.truncate(7 * n);
        let was = input.indices.split_off(7 * (n - 1));
        input.indices.extend([0; 7]);
        compare(driver, chance, "utterances of each length, the last frame zero", &input);
        input.indices.truncate(7 * (n - 1));
        input.indices.extend(was);
    }
    for _ in 0..150 {
        let n = chance.below(6120);
        let input = accepted(chance, n);
        compare(driver, chance, "accepted utterances of any length", &input);
    }
}

/// Every set of refusals that apply at once, 1 to 6, in short and in long utterances.
fn every_set(driver: &mut Driver, chance: &mut Chance) {
    for set in 0..64 {
        let has = |number: u32| set >> (number - 1) & 1 == 1;
        for length in 0..12 {
            let lengths = [1, 23, 24, 25, 48, 1 + chance.below(100), 1000, 1001, 5000 + chance.below(1000), 6118, 6119, 6119];
            let n = lengths[length] + if has(3) { 6120 - lengths[length] + chance.pick(&[0, 1, 100, 4000]) } else { 0 };
            let mut input = accepted(chance, n);
            if has(1) && chance.once_in(2) {
                input.rate = chance.pick(&[2, 4, 255, 256, 1 << 32, u64::MAX]);
            } else if has(1) {
                input.kind = chance.pick(&[2, 3, 255, 256, 1 << 32, u64::MAX]);
            }
            if has(5) {
                let ends: Vec<usize> = (1..=n).filter(|f| *f == n || f % 24 == 0).collect();
                let f = chance.pick(&ends);
                input.indices[7 * (f - 1)..7 * f].fill(0);
            }
            if has(4) {
                let f = chance.below(n);
                input.indices[7 * f + chance.below(6)] = 64 + chance.below(192) as u8;
            }
            if has(2) {
                let more = 1 + chance.below(6);
                input.indices.extend(chance.octets(more));
            }
            let needed = needed(n);
            input.room = if has(6) { chance.pick(&[0, 1, needed - 144, needed - 1]) } else { needed };
            compare(driver, chance, "every set of the six refusals at once", &input);
        }
    }
    for octets in [65_535, 65_536, 65_537, 70_000, 7 * 65_536 + 1, 7 * 65_536, 7 * 70_000, 1_000_000] {
        let input = Input { rate: 0, kind: 0, indices: vec![1; octets], room: 0 };
        compare(driver, chance, "more than 65,536 octets and frames", &input);
    }
}

/// Several faults at once: the first refusal by number is the answer.
fn random(driver: &mut Driver, chance: &mut Chance) {
    for _ in 0..30_000 {
        let n = if chance.once_in(50) { chance.below(700) } else { chance.below(80) };
        let mut input = accepted(chance, n);
        for _ in 0..chance.below(4) {
            match chance.below(8) {
                0 => input.rate = chance.word() % 5,
                1 => input.kind = chance.word() % 4,
                2 => input.indices.truncate(input.indices.len() - chance.below(input.indices.len() + 1)),
                3 => input.room = input.room.saturating_sub(chance.below(200)),
                4 | 5 if n > 0 => {
                    let f = chance.below(n);
                    input.indices.iter_mut().skip(7 * f).take(7).for_each(|x| *x = 0);
                }
                _ if !input.indices.is_empty() => {
                    let place = chance.below(input.indices.len());
                    input.indices[place] = chance.word() as u8;
                }
                _ => {}
            }
        }
        compare(driver, chance, "random utterances with up to three faults", &input);
    }
}

/// Lengths beyond 32 bits; all octets are zero.
fn wide(driver: &mut Driver) {
    let big = 1u64 << 32;
    for (indices, room, want) in [
        (big, 144, (2, big)),
        (big + 3, 144, (3, (big + 3) / 7)),
        (7 * (big / 7) + 7, 0, (3, big / 7 + 1)),
        (7 * (big + 5), 144, (3, big + 5)),
        (0, big, (0, 144)),
        (0, big + 10, (0, 144)),
    ] {
        let want = if indices % 7 != 0 { (2, indices) } else { want };
        let mut answer = driver.call(Call::kind(b'L').long(0).long(0).long(indices).long(room), 16 + 144);
        let got = (answer.word(), answer.word(), answer.long());
        assert_eq!(got, (want.0, 1, want.1), "{indices} index octets, room {room}");
        let image = write(0, 0, &[], 144).ok().filter(|_| want.0 == 0).unwrap_or(vec![0; 144]);
        assert_eq!(answer.take(144), &image[..], "{indices} index octets, room {room}");
        driver.count("lengths beyond 32 bits", 1);
    }
}

fn main() {
    let rounds: &[Round<(Driver, Chance)>] = &[
        ("settings", |(driver, chance)| settings(driver, chance)),
        ("lengths", |(driver, chance)| lengths(driver, chance)),
        ("every_set", |(driver, chance)| every_set(driver, chance)),
        ("far_frames", |(driver, chance)| far_frames(driver, chance)),
        ("edge_frames", |(driver, chance)| edge_frames(driver, chance)),
        ("random", |(driver, chance)| random(driver, chance)),
        ("wide", |(driver, _)| wide(driver)),
    ];
    run(|driver, chance| (driver, chance), rounds, 35_000);
}
