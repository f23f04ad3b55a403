mod shared;
use dsr::{hunt, read_bits_into, write_into, Choices, Error, FrontEnd, HuntRefused, Hunted, Rate, Settings, Tables};
use shared::{all_bad, flip, listing, multiframe, shifted, speech, MULTIFRAME_BITS, SETTINGS};

const SYNC_BITS: usize = 16;
/// The listing of 01 and most refusals here are of an only multiframe.
const ONE_SETTLES: Choices = Choices::ONE_HEADER_SETTLES;

#[test]
fn a_hunt_says_place_and_places_tested() {
    let bits = shifted(&listing(), 19, 0);
    for least in 12..=16 {
        assert_eq!(hunt(&bits, 0, least), Ok(Hunted { place: 19, tested: 20 }));
        assert_eq!(hunt(&bits, 19, least), Ok(Hunted { place: 19, tested: 1 }));
    }
}

#[test]
fn as_many_sync_bits_have_to_match_as_the_caller_says() {
    let mut bits = shifted(&listing(), 5, 3);
    for flips in 0..=4 {
        for least in 12..=16 {
            let hunted = hunt(&bits, 0, least);
            if 16 - flips >= least {
                assert_eq!(hunted, Ok(Hunted { place: 5, tested: 6 }));
            } else {
                assert_eq!(hunted, Err(HuntRefused { refusal: Error::HuntNowhere { place: 0 }, tested: 9 }));
            }
        }
        flip(&mut bits, 5 + 3 * flips as usize);
    }
}

#[test]
fn the_header_has_to_be_readable_and_the_multiframe_whole() {
    let mut bits = shifted(&listing(), 5, 3);
    let nowhere = Err(HuntRefused { refusal: Error::HuntNowhere { place: 0 }, tested: 9 });
    for flips in [0, 1, 2] {
        assert_eq!(hunt(&bits, 0, 16), Ok(Hunted { place: 5, tested: 6 }), "{flips} flips");
        flip(&mut bits, 5 + SYNC_BITS + flips);
    }
    assert_eq!(hunt(&bits, 0, 16), nowhere);
    let cut = shifted(&listing(), 8, 0);
    assert_eq!(hunt(&cut[..144], 0, 16), Err(HuntRefused { refusal: Error::HuntNowhere { place: 0 }, tested: 1 }));
}

#[test]
fn refused_hunts_say_number_place_and_places_tested() {
    let bits = shifted(&listing(), 5, 3);
    let refused = |from: u64, least: u64| hunt(&bits, from, least).unwrap_err();
    for least in [0, 11, 17, u64::MAX] {
        assert_eq!(refused(0, least), HuntRefused { refusal: Error::HuntMatch { place: least }, tested: 0 });
        assert_eq!(refused(u64::MAX, least).refusal, Error::HuntMatch { place: least });
    }
    for (from, tested) in [(6, 3), (8, 1), (9, 0), (1160, 0), (1161, 0), (u64::MAX - 1151, 0), (u64::MAX, 0)] {
        assert_eq!(refused(from, 14), HuntRefused { refusal: Error::HuntNowhere { place: from }, tested });
    }
    assert_eq!(hunt(&[], 0, 14), Err(HuntRefused { refusal: Error::HuntNowhere { place: 0 }, tested: 0 }));
    assert_eq!(
        refused(6, 14).to_string(),
        "refused 22 6: no place found by the first hunt (place: the first bit searched), 3 places tested"
    );
    assert_eq!(refused(6, 11).to_string(), "refused 21 11: T outside 12 to 16 (place: T), 0 places tested");
    assert_eq!(Error::from(refused(6, 14)), Error::HuntNowhere { place: 6 });
}

/// The listing of 01 behind `before` bits: read as it is by octets, octets beyond stay, and the rest is counted.
#[test]
fn the_listing_of_01_at_every_bit() {
    for before in 0..=16 {
        let (mut index, mut report) = ([0xEE; 169], [0xEE; 14]);
        let bits = shifted(&listing(), before, 0);
        let got = read_bits_into(&bits, 0, 14, &Tables::ZEROS, ONE_SETTLES, &mut index, &mut report).unwrap();
        let reading = got.utterance.reading;
        assert_eq!((reading.settings, reading.multiframes, reading.speech), (SETTINGS, 1, 1));
        assert_eq!((reading.bad, reading.end, got.utterance.has_notes()), (0, true, false));
        assert_eq!((got.outside, got.tested), ((8 * bits.len() - MULTIFRAME_BITS) as u64, before as u64 + 1));
        assert_eq!((index[0], &index[1..168], index[168]), (1, &[0; 167][..], 0xEE));
        assert_eq!((&report[..13], report[13]), (&[0; 13][..], 0xEE));
    }
}

#[test]
fn a_written_image_reads_back_at_every_bit() {
    let settings = Settings::new(Rate::Khz16, FrontEnd::NoiseRobust);
    let (said, mut image) = (speech(60), [0; 432]);
    assert_eq!(write_into(settings, &said, &mut image), Ok(432));
    for before in 0..=16 {
        let mut bits = shifted(&image, before, 0);
        flip(&mut bits, before + 7);
        flip(&mut bits, before + MULTIFRAME_BITS);
        flip(&mut bits, before + MULTIFRAME_BITS + 15);
        let (mut index, mut report) = ([0xEE; 504], [0xEE; 39]);
        let got = read_bits_into(&bits, 0, 14, &Tables::ZEROS, Choices::DEFAULT, &mut index, &mut report).unwrap();
        let reading = got.utterance.reading;
        assert_eq!((reading.settings, reading.multiframes, reading.speech), (settings, 3, 60));
        assert_eq!((reading.bad, reading.end, got.utterance.spoken()), (0, true, &said[..]));
        assert_eq!((got.outside, got.tested), ((8 * bits.len() - 3 * MULTIFRAME_BITS) as u64, before as u64 + 3));
        assert_eq!((&index[420..], report), (&[0; 84][..], [0; 39]));
    }
}

/// Idle bits before, between and behind, an inverse sync among them, are outside; they are hunted through, those behind too.
#[test]
fn bits_outside_are_counted() {
    let count_2 = 0x0010;
    let mut bits = shifted(&listing(), 3, 2);
    bits.extend([0x78, 0x4D, 0x00]);
    let second = bits.len();
    bits.extend(multiframe(count_2));
    bits.extend([0; 160]);
    let (mut index, mut report) = ([0xEE; 336], [0xEE; 26]);
    let got = read_bits_into(&bits, 1, 16, &Tables::ZEROS, Choices::DEFAULT, &mut index, &mut report).unwrap();
    let reading = got.utterance.reading;
    assert_eq!((reading.multiframes, reading.speech, got.utterance.report()), (2, 25, &[0; 26][..]));
    let (before, between, behind) = (3, 8 * second - 3 - MULTIFRAME_BITS + 1, 8 * 160 - MULTIFRAME_BITS + 1);
    let tested = before + between + behind;
    assert_eq!((got.outside, got.tested), ((8 * bits.len() - 1 - 2 * MULTIFRAME_BITS) as u64, tested as u64));
}

#[test]
fn a_match_after_255_multiframes_is_refused_and_a_cut_one_is_none() {
    let octets = listing().repeat(256);
    let bits = shifted(&octets, 3, 0);
    let (mut index, mut report) = (vec![0xEE; 168 * 255], vec![0xEE; 13 * 255]);
    let refusal = read_bits_into(&bits, 0, 14, &Tables::ZEROS, Choices::DEFAULT, &mut index, &mut report).unwrap_err();
    assert_eq!(refusal, Error::ReadTooMany { place: 3 + 255 * 1152 });
    assert_eq!((&index, &report), (&vec![0xEE; 168 * 255], &vec![0xEE; 13 * 255]));
    let cut = &bits[..bits.len() - 1];
    let got = read_bits_into(cut, 0, 14, &Tables::ZEROS, Choices::DEFAULT, &mut index, &mut report).unwrap();
    assert_eq!((got.utterance.reading.multiframes, got.outside), (255, (8 * cut.len() - 255 * 1152) as u64));
}

/// Message bit 1 alone: rate 2.
const RATE_2: u16 = 2;
/// EXP9 alone.
const EXPANSION: u16 = 0x8000;

#[test]
fn refused_readings_say_number_and_place_and_touch_nothing() {
    let (mut index, mut report) = ([0xEE; 168], [0xEE; 13]);
    let mut refused = |octets: &[u8], least: u64, rooms: (usize, usize)| {
        let bits = shifted(octets, 3, 0);
        read_bits_into(&bits, 2, least, &Tables::ZEROS, ONE_SETTLES, &mut index[..rooms.0], &mut report[..rooms.1]).unwrap_err()
    };
    let (whole, mut one_flip) = (listing(), listing());
    flip(&mut one_flip, 47);
    assert_eq!(refused(&[], 11, (0, 0)), Error::HuntMatch { place: 11 });
    assert_eq!(refused(&[], 17, (0, 0)), Error::HuntMatch { place: 17 });
    assert_eq!(refused(&[], 14, (0, 0)), Error::HuntNowhere { place: 2 });
    assert_eq!(refused(&whole[..143], 12, (0, 0)), Error::HuntNowhere { place: 2 });
    assert_eq!(refused(&whole.repeat(256), 16, (0, 0)), Error::ReadTooMany { place: 3 + 255 * 1152 });
    assert_eq!(refused(&one_flip, 16, (0, 0)), Error::ReadUnsettled { place: 0 });
    assert_eq!(refused(&multiframe(RATE_2), 16, (0, 0)), Error::ReadSettings { place: 0 });
    assert_eq!(refused(&multiframe(EXPANSION), 16, (0, 0)), Error::ReadSettings { place: 0 });
    assert_eq!(refused(&whole, 16, (167, 12)), Error::ReadIndexShort { place: 168 });
    assert_eq!(refused(&whole.repeat(2), 16, (168, 13)), Error::ReadIndexShort { place: 336 });
    assert_eq!(refused(&whole, 16, (168, 12)), Error::ReadReportShort { place: 13 });
    assert_eq!(refused(&all_bad(), 16, (168, 13)), Error::ReadAllBad { place: 0 });
    assert_eq!((index, report), ([0xEE; 168], [0xEE; 13]));
}

#[cfg(feature = "alloc")]
#[test]
fn vectors_are_what_buffers_are() {
    for multiframes in [1, 2, 17, 255] {
        let bits = shifted(&listing().repeat(multiframes), 205, 3);
        let (mut index, mut report) = (vec![0; 168 * 255], vec![0; 13 * 255]);
        let lent = read_bits_into(&bits, 0, 14, &Tables::ZEROS, ONE_SETTLES, &mut index, &mut report).unwrap();
        let own = dsr::read_bits(&bits, 0, 14, &Tables::ZEROS, ONE_SETTLES).unwrap();
        assert_eq!((own.outside, own.tested, own.utterance.reading), (lent.outside, lent.tested, lent.utterance.reading));
        assert_eq!((own.utterance.indices(), own.utterance.report()), (lent.utterance.indices(), lent.utterance.report()));
    }
    let refused = |octets: &[u8], least: u64| dsr::read_bits(octets, 0, least, &Tables::ZEROS, ONE_SETTLES).unwrap_err();
    assert_eq!(refused(&[], 17), Error::HuntMatch { place: 17 });
    assert_eq!(refused(&[], 16), Error::HuntNowhere { place: 0 });
    assert_eq!(refused(&listing().repeat(256), 16), Error::ReadTooMany { place: 255 * 1152 });
    assert_eq!(refused(&multiframe(RATE_2), 16), Error::ReadSettings { place: 0 });
    assert_eq!(refused(&all_bad(), 16), Error::ReadAllBad { place: 0 });
}
