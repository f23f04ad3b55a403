//! The rule for an only multiframe: the default, and the one that is asked for by name.
mod shared;
use dsr::{read_bits_into, read_into, write_into, Choices, Error, Tables};
use shared::{all_bad, flip, listing, multiframe, shifted, speech, SETTINGS};

const BOTH: [Choices; 2] = [Choices::DEFAULT, Choices::ONE_HEADER_SETTLES];
const UNSETTLED: Error = Error::ReadUnsettled { place: 0 };
/// Bit 0 of the first header.
const HEADER: usize = 16;

/// What a reading gives and leaves: settings, multiframes, speech, bad pairs and end as they print, or the refusal; and both buffers.
type Outcome = (Result<String, Error>, Vec<u8>, Vec<u8>);

/// What either reader says of these octets by these choices, with buffers of these lengths.
fn outcomes(octets: &[u8], choices: Choices, rooms: (usize, usize)) -> [Outcome; 2] {
    let lent = || (vec![0xEE; rooms.0], vec![0xEE; rooms.1]);
    let (mut index, mut report) = lent();
    let by_octets = read_into(octets, &Tables::ZEROS, choices, &mut index, &mut report).map(|got| format!("{:?}", got.reading));
    let (mut bits_index, mut bits_report) = lent();
    let by_bits = read_bits_into(octets, 0, 16, &Tables::ZEROS, choices, &mut bits_index, &mut bits_report)
        .map(|got| format!("{:?}, {} outside, {} tested", got.utterance.reading, got.outside, got.tested));
    [(by_octets, index, report), (by_bits, bits_index, bits_report)]
}

/// Both readers refuse with that, and touch no octet of their buffers.
fn refused(octets: &[u8], choices: Choices, rooms: (usize, usize), refusals: [Error; 2]) {
    for ((got, index, report), refusal) in outcomes(octets, choices, rooms).into_iter().zip(refusals) {
        assert_eq!((got, index, report), (Err(refusal), vec![0xEE; rooms.0], vec![0xEE; rooms.1]));
    }
}

#[test]
fn an_only_clean_multiframe_is_refused_by_default() {
    refused(&listing(), Choices::DEFAULT, (168, 13), [UNSETTLED; 2]);
    refused(&listing(), Choices::default(), (400, 40), [UNSETTLED; 2]);
    for frames in [0, 1, 23] {
        let mut image = [0; 144];
        write_into(SETTINGS, &speech(frames), &mut image).unwrap();
        refused(&image, Choices::DEFAULT, (168, 13), [UNSETTLED; 2]);
    }
}

#[test]
fn an_only_clean_multiframe_is_read_by_name() {
    for frames in [0, 1, 23] {
        let (mut image, said) = ([0; 144], speech(frames));
        write_into(SETTINGS, &said, &mut image).unwrap();
        let [by_octets, by_bits] = outcomes(&image, Choices::ONE_HEADER_SETTLES, (169, 14));
        let reading = by_octets.0.unwrap();
        assert!(reading.contains(&format!("multiframes: 1, speech: {frames}, bad: 0, end: true")), "{reading}");
        assert_eq!(by_bits.0.unwrap(), format!("{reading}, 0 outside, 1 tested"));
        let index = [&said[..], &vec![0; 168 - said.len()], &[0xEE]].concat();
        let report = [&[0; 13][..], &[0xEE]].concat();
        assert_eq!([(by_octets.1, by_octets.2), (by_bits.1, by_bits.2)], [(index.clone(), report.clone()), (index, report)]);
    }
}

/// One flip or two are mended and three are lost; a multiframe whose header is lost is not found.
#[test]
fn an_only_header_that_was_touched_is_refused_by_either_rule() {
    let nowhere = Error::HuntNowhere { place: 0 };
    for choices in BOTH {
        let mut octets = listing();
        for (flips, by_bits) in [(1, UNSETTLED), (2, UNSETTLED), (3, nowhere)] {
            flip(&mut octets, HEADER + 7 * flips);
            refused(&octets, choices, (168, 13), [UNSETTLED, by_bits]);
        }
    }
}

/// 16 comes behind 12 and 13 and before 17 to 20.
#[test]
fn the_refusal_of_an_only_multiframe_has_its_place_in_the_order() {
    let (rate_2, expansion) = (multiframe(2), multiframe(0x8000));
    let others = [
        (&rate_2, (0, 0), 17, 0),
        (&expansion, (168, 13), 17, 0),
        (&listing(), (167, 13), 18, 168),
        (&listing(), (168, 12), 19, 13),
    ];
    for (octets, rooms, number, place) in others {
        refused(octets, Choices::DEFAULT, rooms, [UNSETTLED; 2]);
        refused(octets, Choices::ONE_HEADER_SETTLES, rooms, [Error::new(number, place).unwrap(); 2]);
    }
    refused(&all_bad(), Choices::DEFAULT, (168, 13), [UNSETTLED; 2]);
    refused(&all_bad(), Choices::ONE_HEADER_SETTLES, (168, 13), [Error::ReadAllBad { place: 0 }; 2]);
    for choices in BOTH {
        let begun = [listing(), vec![0x87, 0xB2]].concat();
        assert_eq!(outcomes(&begun, choices, (168, 13))[0].0, Err(Error::ReadCut { place: 144 }));
        let strange = [listing(), vec![0x00]].concat();
        assert_eq!(outcomes(&strange, choices, (168, 13))[0].0, Err(Error::ReadUnknown { place: 144 }));
    }
}

/// Of two multiframes one has a lost header and is not found: there the other is an only one. The octet reader has two, of which one is
/// readable.
#[test]
fn a_multiframe_that_alone_was_found_is_an_only_one() {
    let mut octets = [multiframe(8), multiframe(16)].concat();
    (0..3).for_each(|bit| flip(&mut octets, HEADER + bit));
    refused(&octets, Choices::DEFAULT, (336, 26), [UNSETTLED; 2]);
    let [by_octets, by_bits] = outcomes(&octets, Choices::ONE_HEADER_SETTLES, (336, 26));
    assert_eq!(by_octets.0, Err(UNSETTLED));
    let found = by_bits.0.unwrap();
    assert!(found.contains("multiframes: 1, ") && found.ends_with("1152 outside, 1153 tested"), "{found}");
}

/// Wherever it lies, wherever the search begins and whatever of a sync it asks for; the longest is over 65,536 octets.
#[test]
fn an_only_multiframe_among_other_bits_follows_the_choice() {
    for before in [0, 5, 3_000, 600_001] {
        let octets = shifted(&listing(), before, 70);
        for (from, least) in [(0, 16), (0, 15), (0, 14), (before as u64, 16), (before as u64 / 2, 14)] {
            let [by_default, by_name] = BOTH.map(|choices| {
                let (mut index, mut report) = ([0xEE; 168], [0xEE; 13]);
                let got = read_bits_into(&octets, from, least, &Tables::ZEROS, choices, &mut index, &mut report);
                got.map(|got| got.utterance.reading.multiframes)
            });
            assert_eq!((by_default, by_name), (Err(UNSETTLED), Ok(1)), "{before} bits before, from {from}, {least}");
        }
    }
}

/// Octets of two multiframes or more, and whether they are read: clean, damaged, mended, one header lost, all lost, settings that do not
/// agree, that agree later, inverse syncs, rate 2, all pairs bad, as many as there may be, and one more.
fn longer() -> Vec<(Vec<u8>, bool)> {
    let (count_1, count_2, count_2_at_11_khz) = (multiframe(8), multiframe(16), multiframe(17));
    let two = [count_1.clone(), count_2.clone()].concat();
    let flipped = |octets: &[u8], bits: &[usize]| {
        let mut octets = octets.to_vec();
        bits.iter().for_each(|bit| flip(&mut octets, *bit));
        octets
    };
    let (lost, second) = ([HEADER, HEADER + 1, HEADER + 2], HEADER + 1152);
    let both_lost = [&lost[..], &[second, second + 1, second + 2]].concat();
    vec![
        (two.clone(), true),
        (flipped(&two, &[50]), true),
        (flipped(&two, &[HEADER]), true),
        (flipped(&two, &[HEADER, HEADER + 9, second + 3, second + 4]), true),
        (flipped(&[&two[..], &two].concat(), &lost), true),
        (flipped(&two, &both_lost), false),
        ([&count_1[..], &count_2_at_11_khz].concat(), false),
        ([&count_2_at_11_khz[..], &count_2, &count_1].concat(), true),
        ([&[0x78, 0x4D], &two[..], &[0x78, 0x4D]].concat(), true),
        (multiframe(2).repeat(2), false),
        (all_bad().repeat(2), false),
        (listing().repeat(255), true),
        (listing().repeat(256), false),
    ]
}

#[test]
fn two_multiframes_or_more_are_read_alike_by_either_rule() {
    for (octets, is_read) in longer() {
        for rooms in [(0, 0), (168, 13), (336, 26), (336, 25), (42840, 3315)] {
            assert_eq!(outcomes(&octets, BOTH[0], rooms), outcomes(&octets, BOTH[1], rooms));
        }
        let roomy = outcomes(&octets, Choices::DEFAULT, (42840, 3315));
        assert_eq!(roomy.map(|(got, _, _)| got.is_ok()), [is_read; 2]);
    }
}

#[cfg(feature = "alloc")]
#[test]
fn vectors_follow_the_choice_too() {
    let refusals = |octets: &[u8], choices| {
        let by_bits = dsr::read_bits(octets, 0, 16, &Tables::ZEROS, choices).map(|got| got.utterance);
        [dsr::read(octets, &Tables::ZEROS, choices), by_bits].map(|got| got.err())
    };
    assert_eq!(refusals(&listing(), Choices::DEFAULT), [Some(UNSETTLED); 2]);
    assert_eq!(refusals(&listing(), Choices::ONE_HEADER_SETTLES), [None; 2]);
    for choices in BOTH {
        assert_eq!(refusals(&listing().repeat(2), choices), [None; 2]);
    }
}
