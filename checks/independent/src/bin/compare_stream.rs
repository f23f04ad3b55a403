//! Compares the library's packing and unpacking of a stream with the independent version. Arguments: the command that runs the
//! stream driver.
#![deny(dead_code)] // a round that is in no list
use independent::chance::Chance;
use independent::driver::{over, Call, Driver, DONE, WRONG_LENGTH};
use independent::rounds::{run, Round};
use independent::stream::{pack, packets_of, stream_of, unpack, INDICES, PAIRS, STREAM};

fn packing(driver: &mut Driver, chance: &mut Chance, name: &str, indices: &[u8], room: usize) {
    let lent = chance.octets(room);
    let mut answer = driver.call(Call::kind(b'P').octet(driver.mode()).octets(indices).octets(&lent), 8 + room);
    let got = (answer.word(), answer.word(), answer.take(room).to_vec());
    let want = match pack(indices, room) {
        Ok(stream) => (DONE, 1, stream),
        Err(number) => (number, 1, lent),
    };
    assert_eq!(got, want, "{name}: pack {indices:?}");
    driver.count(name, 1);
}

fn unpacking(driver: &mut Driver, chance: &mut Chance, name: &str, stream: &[u8], rooms: (usize, usize)) {
    let (indices, notes) = (chance.octets(rooms.0), chance.octets(rooms.1));
    let call = Call::kind(b'U').octet(driver.mode()).octets(stream).octets(&indices).octets(&notes);
    let mut answer = driver.call(call, 8 + rooms.0 + rooms.1);
    let got = (answer.word(), answer.word(), answer.take(rooms.0).to_vec(), answer.take(rooms.1).to_vec());
    let want = if stream.len() == STREAM && rooms == (INDICES, PAIRS) {
        let (new, found) = unpack(stream);
        (DONE, 1, over(&indices, &new), over(&notes, &found))
    } else {
        (WRONG_LENGTH, 1, indices, notes)
    };
    assert_eq!(got, want, "{name}: unpack {stream:?}");
    driver.count(name, 1);
}

/// Lengths that are right where they are cut to 32 bits or less; all octets are zero.
fn wide(driver: &mut Driver) {
    for power in [8, 16, 32] {
        let cut = |right: usize| (1u64 << power) + right as u64;
        for (kind, right) in [(b'p', [STREAM, INDICES, 0]), (b'u', [STREAM, INDICES, PAIRS])] {
            for long in 0..if kind == b'p' { 2 } else { 3 } {
                let length = |i: usize| if i == long { cut(right[i]) } else { right[i] as u64 };
                let call = Call::kind(kind).long(length(0)).long(length(1)).long(length(2));
                assert_eq!(driver.call(call, 4).word(), WRONG_LENGTH, "a length of 2^{power} more than is right");
                driver.count("lengths beyond 8, 16 and 32 bits", 1);
            }
        }
    }
}

fn frames(chance: &mut Chance) -> Vec<u8> {
    (0..24).flat_map(|_| chance.frame()).collect()
}

fn flipped(stream: &[u8], packet: usize, flips: u128) -> Vec<u8> {
    let mut packets = packets_of(stream);
    packets[packet] ^= flips;
    stream_of(&packets)
}

fn wrong_lengths(driver: &mut Driver, chance: &mut Chance) {
    for indices in [0, 1, 7, 167, 168, 169, 175, 336] {
        for room in [0, 1, 137, 138, 139, 144] {
            let mut list: Vec<u8> = frames(chance).into_iter().cycle().take(indices).collect();
            packing(driver, chance, "pack: lengths one short, one long and others", &list, room);
            list.iter_mut().for_each(|x| *x |= 64);
            packing(driver, chance, "pack: the same with wide indices too", &list, room);
        }
    }
    for len in [0, 1, 137, 138, 139, 276] {
        for indices in [0, 167, 168, 169] {
            for notes in [0, 11, 12, 13] {
                let stream = chance.octets(len);
                unpacking(driver, chance, "unpack: lengths one short, one long and others", &stream, (indices, notes));
            }
        }
    }
}

fn edge_indices(driver: &mut Driver, chance: &mut Chance) {
    for place in 0..INDICES {
        for value in [0, 1, 31, 32, 63, 64, 65, 127, 128, 255] {
            let mut list = frames(chance);
            list[place] = value;
            packing(driver, chance, "pack: each index at 0, 63, 64, 255 and others", &list, STREAM);
        }
    }
}

fn damage(driver: &mut Driver, chance: &mut Chance) {
    let whole = (INDICES, PAIRS);
    for packet in [0, 1, 11] {
        let stream = pack(&frames(chance), STREAM).unwrap();
        for a in 0..92 {
            for b in a + 1..92 {
                unpacking(driver, chance, "unpack: every two flipped bits of packets 0, 1, 11", &flipped(&stream, packet, 1 << a | 1 << b), whole);
            }
        }
    }
    for packet in 0..PAIRS {
        let stream = pack(&frames(chance), STREAM).unwrap();
        for at in 0..92 {
            for shape in (1..16u128).step_by(2).filter(|shape| shape << at >> 92 == 0) {
                unpacking(driver, chance, "unpack: every burst of four bits in every packet", &flipped(&stream, packet, shape << at), whole);
            }
        }
    }
}

fn any(driver: &mut Driver, chance: &mut Chance) {
    for _ in 0..20_000 {
        let list = frames(chance);
        packing(driver, chance, "pack: random frames", &list, STREAM);
        let stream = chance.octets(STREAM);
        unpacking(driver, chance, "unpack: random streams", &stream, (INDICES, PAIRS));
        let stream = pack(&list, STREAM).unwrap();
        unpacking(driver, chance, "unpack: packed streams", &stream, (INDICES, PAIRS));
    }
}

fn main() {
    let rounds: &[Round<(Driver, Chance)>] = &[
        ("wide", |(driver, _)| wide(driver)),
        ("wrong_lengths", |(driver, chance)| wrong_lengths(driver, chance)),
        ("edge_indices", |(driver, chance)| edge_indices(driver, chance)),
        ("damage", |(driver, chance)| damage(driver, chance)),
        ("any", |(driver, chance)| any(driver, chance)),
    ];
    run(|driver, chance| (driver, chance), rounds, 80_000);
}
