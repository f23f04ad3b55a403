//! dsr damage as a user calls it: what each kind does, the same way each time.
mod shared;

use std::fmt::Write;

use dsr::{Choices, FrontEnd, Rate, Settings, Tables};
use shared::{golden, Chance, Room};

fn image(frames: usize) -> Vec<u8> {
    dsr::write(Settings::new(Rate::Khz8, FrontEnd::Standard), &Chance(9).frames(frames)).unwrap()
}

fn room(name: &str) -> Room {
    let room = Room::new(name);
    room.put("a.dsr", image(60));
    room
}

/// The places of the bits in which two images of the same length differ.
fn flipped(before: &[u8], after: &[u8]) -> Vec<usize> {
    assert_eq!(before.len(), after.len());
    (0..8 * before.len()).filter(|t| (before[t / 8] ^ after[t / 8]) >> (t % 8) & 1 == 1).collect()
}

/// Bits as a number each, the first sent first.
fn bits(octets: &[u8]) -> Vec<u8> {
    octets.iter().flat_map(|octet| (0..8).map(move |t| octet >> t & 1)).collect()
}

#[test]
fn the_same_seed_flips_the_same_bits() {
    let room = room("seed");
    let mut text = String::new();
    for words in [
        "--ber 1e-2",
        "--ber 1e-2 --seed 7",
        "--ber 1e-2 --burst 3 --seed 7",
        "--ber 1e-2 --burst 3 --seed 7 --spare-syncs",
        "--bounded 0.2 --seed 7",
    ] {
        let said = room.dsr(&format!("damage {words} a.dsr"));
        let again = room.dsr(&format!("damage a.dsr {words} -o out.dsr"));
        assert_eq!((said.status, &said.out, &said.trouble), (0, &room.get("out.dsr"), &again.trouble));
        let _ = writeln!(text, "{words}\n{}{:?}", said.trouble, flipped(&image(60), &said.out));
    }
    golden("damage.txt", &text);
}

#[test]
fn a_kind_more_changes_nothing_of_what_the_others_draw() {
    let room = room("kinds");
    let of = |words: &str| flipped(&image(60), &room.dsr(&format!("damage {words} --seed 3 a.dsr")).out);
    let (bounded, ber, both) = (of("--bounded 0.3"), of("--ber 1e-2"), of("--bounded 0.3 --ber 1e-2"));
    let either: Vec<usize> = (0..8 * image(60).len()).filter(|t| bounded.contains(t) != ber.contains(t)).collect();
    assert_eq!(both, either);
    let shifted = room.dsr("damage --ber 1e-2 --shift 8 --seed 3 a.dsr").out;
    assert_eq!(flipped(&image(60), &shifted[1..]), ber);
}

#[test]
fn bits_are_lost_repeated_and_shifted() {
    let room = Room::new("moves");
    room.put("a", [0b1010_0101, 0b1100_0011]);
    let of = |words: &str| room.dsr(&format!("damage {words} a"));
    assert_eq!(of("--drop 4:8").out, [0b1100_0101]);
    assert_eq!(of("--repeat 0:4").out, [0b0101_0101, 0b0011_1010, 0b0000_1100]);
    assert_eq!(bits(&of("--drop 0:3 --repeat 12:1").out)[..14], [&bits(&[0b1010_0101, 0b1100_0011])[3..], &[1]].concat());
    let shifted = of("--shift 11 --seed 5");
    assert_eq!(bits(&shifted.out)[11..27], bits(&[0b1010_0101, 0b1100_0011]));
    assert_eq!(shifted.trouble, "dsr: damage: bits flipped 0, lost 0, repeated 0, put before 11; seed 5\n");
    assert_eq!(bits(&shifted.out)[27..], [0; 5]);
    // in the order of the options, each in the bits as they are then
    assert_eq!(of("--repeat 0:8 --drop 8:8").out, [0b1010_0101, 0b1100_0011]);
    assert_eq!(of("--drop 8:8 --repeat 0:8").out, [0b1010_0101, 0b1010_0101]);
}

/// The same far behind, against a plain list of bits.
#[test]
fn bits_far_behind_are_moved_alike() {
    let (room, mut chance) = (Room::new("far-moves"), Chance(6));
    let octets: Vec<u8> = (0..200_000).map(|_| chance.below(256) as u8).collect();
    room.put("a", &octets);
    let sent = bits(&octets);
    for (at, many) in [(600_001, 77), (524_285, 1_000_000), (1_599_990, 10), (3, 70_000)] {
        let lost = room.dsr(&format!("damage --drop {at}:{many} a"));
        assert_eq!(lost.trouble, format!("dsr: damage: bits flipped 0, lost {many}, repeated 0, put before 0; seed 1\n"));
        let left = [&sent[..at], &sent[at + many..]].concat();
        assert!(bits(&lost.out)[..left.len()] == left, "{at}:{many}");
        let twice = room.dsr(&format!("damage --repeat {at}:{many} a"));
        assert_eq!(twice.trouble, format!("dsr: damage: bits flipped 0, lost 0, repeated {many}, put before 0; seed 1\n"));
        let all = [&sent[..at + many], &sent[at..]].concat();
        assert!(bits(&twice.out)[..all.len()] == all, "{at}:{many}");
        let shifted = room.dsr(&format!("damage --shift {many} a")).out;
        assert!(bits(&shifted)[many..many + sent.len()] == sent, "{many}");
    }
}

/// What a hunt finds behind a shift is what was sent.
#[test]
fn a_shifted_recording_is_found_again() {
    let room = room("shifted");
    for shift in [1, 11, 100, 1000] {
        assert_eq!(room.dsr(&format!("damage --shift {shift} a.dsr -o a.bits")).status, 0);
        let found = room.dsr("read --bits --match 16 a.bits");
        assert_eq!((found.status, found.text()), (0, room.dsr("read a.dsr").text()), "{shift}");
    }
}

/// Demand 3, tried: within its bounds every damaged pair is named, no other pair's CRC fails, and all else is as it was written.
#[test]
fn bounded_damage_is_named() {
    let room = Room::new("bounded");
    let sent = image(600);
    let before = dsr::read(&sent, &Tables::ZEROS, Choices::DEFAULT).unwrap();
    room.put("a.dsr", &sent);
    for seed in 0..40 {
        let damaged = room.dsr(&format!("damage --bounded 0.{} --seed {seed} a.dsr", 1 + seed % 9)).out;
        let heard = dsr::read(&damaged, &Tables::ZEROS, Choices::DEFAULT).unwrap();
        assert_eq!(heard.reading.settings, before.reading.settings);
        let hit: Vec<usize> = flipped(&sent, &damaged)
            .into_iter()
            .filter(|t| t % 1152 >= 48)
            .map(|t| t / 1152 * 12 + (t % 1152 - 48) / 92)
            .collect();
        for (pair, (now, then)) in heard.pairs().zip(before.pairs()).enumerate() {
            assert_eq!(now.note.is_bad(), hit.contains(&pair), "seed {seed}, pair {pair}");
            assert!(now.note.is_bad() || now.frames == then.frames, "seed {seed}, pair {pair}");
        }
        let header_flips =
            |k: usize| flipped(&sent, &damaged).into_iter().filter(|t| (1152 * k + 16..1152 * k + 48).contains(t)).count();
        for (k, multiframe) in heard.multiframes().enumerate() {
            assert_eq!(usize::from(multiframe.header().octet()), header_flips(k), "seed {seed}, header {k}");
        }
        assert!(flipped(&sent, &damaged).into_iter().all(|t| t % 1152 >= 16), "a sync was touched");
    }
}

/// No bit of a sync is flipped, and every other bit is in one of the 255 multiframes, the first behind a sync too.
#[test]
fn syncs_are_spared() {
    let room = Room::new("spared");
    let sent = image(6119);
    room.put("a.dsr", &sent);
    for words in ["--ber 0.4 --burst 40", "--ber 0.3"] {
        let hit = flipped(&sent, &room.dsr(&format!("damage {words} --spare-syncs a.dsr")).out);
        let mut places = [0; 1152];
        hit.iter().for_each(|t| places[t % 1152] += 1);
        assert!(places[..16].iter().all(|many| *many == 0), "a sync was touched");
        assert!(places[16..].iter().all(|many| (30..130).contains(many)), "{places:?}");
        let halves = hit.iter().filter(|t| **t >= 1152 * 128).count();
        assert!((4..6).contains(&(10 * halves / hit.len())), "one half was hit less");
    }
}

/// With probability 1 all pairs but one are hit, in all 255 multiframes.
#[test]
fn bounded_damage_goes_to_the_end() {
    let room = Room::new("bounded-far");
    let sent = image(6119);
    room.put("a.dsr", &sent);
    let damaged = room.dsr("damage --bounded 1 --seed 4 a.dsr").out;
    let heard = dsr::read(&damaged, &Tables::ZEROS, Choices::DEFAULT).unwrap();
    assert_eq!((heard.reading.bad, heard.pairs().len()), (3059, 3060));
    let mended = heard.multiframes().skip(128).filter(|multiframe| !multiframe.header().is_clean()).count();
    assert!((60..110).contains(&mended), "{mended}");
}

/// What stands before, between or behind multiframes is no image of dsr write.
#[test]
fn an_image_is_multiframes_and_nothing_else() {
    let room = Room::new("nothing-else");
    let (sent, inverse) = (image(60), [0x78, 0x4D]);
    for input in [[&sent[..], &inverse].concat(), [&inverse, &sent[..]].concat(), [&sent[..144], &inverse, &sent[144..]].concat()]
    {
        room.put("b.dsr", input);
        for words in ["--bounded 0.5", "--ber 0.1 --spare-syncs"] {
            let said = room.dsr(&format!("damage {words} b.dsr -o out"));
            assert!(
                said.status == 3 && said.trouble.contains("something stands before, between or behind these"),
                "{}",
                said.trouble
            );
        }
    }
    // an only multiframe is one too, and keeps its header
    let only = image(20);
    room.put("b.dsr", &only);
    for seed in 0..20 {
        let damaged = room.dsr(&format!("damage --bounded 0.9 --seed {seed} b.dsr"));
        assert!(damaged.status == 0 && damaged.out[..6] == only[..6] && damaged.out != only);
    }
}

#[test]
fn what_cannot_be_asked_for() {
    let room = room("asked");
    room.put("b", "no image");
    let usage = |words: &str, line: &str| {
        room.dsr(&format!("damage {words} a.dsr -o out")).fails(3, &format!("damage: {line} (dsr damage --help says more)"))
    };
    usage("", "what damage? there are --ber, --bounded, --drop, --repeat and --shift");
    usage("--ber 0.6", "--ber 0.6: it is a number from 0 to 0.5");
    usage("--ber nan", "--ber nan: it is a number from 0 to 0.5");
    usage("--ber x", "--ber x: this is no such number");
    usage("--bounded 1.5", "--bounded 1.5: it is a number from 0 to 1");
    usage("--burst 3", "--burst needs --ber");
    usage("--ber 0.1 --burst 0", "--burst 0: a burst has 1 to 1000000 bits");
    usage("--shift 3 --spare-syncs", "--spare-syncs needs --ber");
    let mut text = String::new();
    for words in ["--drop 5", "--drop x:1", "--drop 3450:7", "--repeat 0:99999", "--shift 99999999999", "--seed -1 --shift 1"] {
        text += &room.dsr(&format!("damage {words} a.dsr -o out")).whole();
    }
    for words in ["--bounded 0.5", "--ber 0.1 --spare-syncs"] {
        text += &room.dsr(&format!("damage {words} b -o out")).whole();
    }
    golden("damage-wrong.txt", &text);
    assert_eq!(room.names(), ["a.dsr", "b"]);
}
