//! The types by themselves: what they take, give and print.
use dsr::{image_octets, most_multiframes, Choices, Error, FrontEnd, HeaderNote, PairNote, Rate, Settings, Tables};

#[test]
fn rates_and_front_ends_have_01s_codes() {
    for (code, rate) in [(0, Rate::Khz8), (1, Rate::Khz11), (3, Rate::Khz16)] {
        assert_eq!((Rate::from_code(code.into()), rate.code()), (Some(rate), code));
    }
    for (code, front_end) in [(0, FrontEnd::Standard), (1, FrontEnd::NoiseRobust)] {
        assert_eq!((FrontEnd::from_code(code.into()), front_end.code()), (Some(front_end), code));
    }
    for code in [2, 4, 5, 255, 256, 257, 1 << 32, 1 << 63, u64::MAX] {
        assert_eq!((Rate::from_code(code), FrontEnd::from_code(code)), (None, None));
    }
    assert_eq!(FrontEnd::from_code(3), None);
}

#[test]
fn settings_come_by_codes_or_are_refused() {
    for (rate, kind) in [(0, 0), (1, 1), (3, 0), (3, 1)] {
        let settings = Settings::from_codes(rate, kind).unwrap();
        assert_eq!((u64::from(settings.rate.code()), u64::from(settings.front_end.code())), (rate, kind));
    }
    for (rate, kind) in [(2, 0), (0, 2), (256, 0), (0, 256), (u64::MAX, 1), (1 << 32, 0)] {
        assert_eq!(Settings::from_codes(rate, kind), Err(Error::WriteSettings { place: 0 }));
    }
    assert_eq!(Settings::new(Rate::Khz11, FrontEnd::NoiseRobust).to_string(), "11 kHz, noise robust front end");
    assert_eq!(Settings::new(Rate::Khz8, FrontEnd::Standard).to_string(), "8 kHz, standard front end");
    assert_eq!(Rate::Khz16.to_string(), "16 kHz");
}

#[test]
fn tables_have_the_right_lengths_or_are_refused() {
    let (codebook, thresholds) = ([7; 1281], [-1; 15]); // what is negative a reading refuses
    let tables = Tables::new(&codebook[1..], &thresholds[1..]).unwrap();
    assert_eq!((tables.codebook(), tables.thresholds()), (&[7; 1280], &[-1; 14]));
    assert_eq!(tables, Tables::from_arrays(&[7; 1280], &[-1; 14]));
    for (numbers, limits) in [(1281, 14), (1279, 14), (0, 14), (1280, 15), (1280, 13), (1280, 0)] {
        assert_eq!(Tables::new(&codebook[..numbers], &thresholds[..limits]), Err(Error::ReadTables { place: 0 }));
    }
}

#[test]
fn choices_are_the_default_or_named() {
    assert_eq!(Choices::default(), Choices::DEFAULT);
    assert_ne!(Choices::DEFAULT, Choices::ONE_HEADER_SETTLES);
}

#[test]
fn header_notes_and_their_octets() {
    let octets: Vec<u8> = (0..=255).filter(|octet| HeaderNote::from_octet(*octet).is_some()).collect();
    assert_eq!(octets, [0, 1, 2, 3, 4, 5, 6, 8, 9, 10, 12, 13, 14]);
    for octet in octets {
        let note = HeaderNote::from_octet(octet).unwrap();
        assert_eq!((note.octet(), note.is_clean(), note.to_string()), (octet, octet == 0, octet.to_string()));
    }
    let note = |octet: u8| HeaderNote::from_octet(octet).unwrap();
    assert!(matches!(note(1), HeaderNote::Readable { flips: 1, out_of_step: false, differs: false, .. }));
    assert!(matches!(note(6), HeaderNote::Readable { flips: 2, out_of_step: true, differs: false, .. }));
    assert!(matches!(note(8), HeaderNote::Readable { flips: 0, out_of_step: false, differs: true, .. }));
    assert!(matches!(note(14), HeaderNote::Readable { flips: 2, out_of_step: true, differs: true, .. }));
    assert_eq!(note(3), HeaderNote::Lost);
}

#[test]
fn pair_notes_and_their_octets() {
    for (octet, note) in [(0, PairNote::Good), (1, PairNote::CrcFailed), (2, PairNote::BadOtherwise)] {
        assert_eq!((PairNote::from_octet(octet), note.octet(), note.is_bad()), (Some(note), octet, octet > 0));
        assert_eq!(note.to_string(), octet.to_string());
    }
    assert_eq!((PairNote::from_octet(3), PairNote::from_octet(255)), (None, None));
}

#[test]
fn every_refusal_has_number_place_and_words() {
    let numbers: Vec<u32> = (0..=100).filter(|number| Error::new(*number, 7).is_some()).collect();
    assert_eq!(numbers, (1..=6).chain(10..=22).collect::<Vec<u32>>());
    for number in numbers {
        let refusal = Error::new(number, 7).unwrap();
        assert_eq!((refusal.number(), refusal.place()), (number, 7));
        let words = format!("refused {number} 7: {} (place: {})", refusal.words(), refusal.meaning());
        assert_eq!(refusal.to_string(), words);
        let boxed: Box<dyn std::error::Error> = refusal.into();
        assert_eq!(boxed.to_string(), words);
    }
    let negative = Error::new(10, 13).unwrap();
    assert_eq!(negative.to_string(), "refused 10 13: a negative threshold (place: the first one's number, from 0)");
}

/// An image has room for exactly what a reading of it needs, whatever its size; beyond 255 multiframes nothing is read.
#[test]
fn sizes_agree() {
    for frames in 0..=6119 {
        let octets = image_octets(frames).unwrap();
        assert_eq!((most_multiframes(octets), most_multiframes(octets - 1)), (frames / 24 + 1, frames / 24));
    }
    for octets in [256 * 144 - 1, 256 * 144, 1 << 20, usize::MAX] {
        assert_eq!(most_multiframes(octets), 255);
    }
}
