//! The iterators over frames, pairs and multiframes, and each note.
mod shared;
use dsr::{read_bits_into, read_into, write_into, Choices, Error, HeaderNote, PairNote, Tables, Utterance};
use shared::{flip, multiframe, speech, SETTINGS};

/// The header notes of an utterance: flips, whether out of step, whether the settings differ; or nothing for a lost one.
fn header_notes(heard: Utterance<&[u8]>) -> Vec<Option<(u8, bool, bool)>> {
    let note = |note: HeaderNote| match note {
        HeaderNote::Readable { flips, out_of_step, differs, .. } => Some((flips, out_of_step, differs)),
        HeaderNote::Lost => None,
    };
    heard.multiframes().map(|multiframe| note(multiframe.header())).collect()
}

const CLEAN: Option<(u8, bool, bool)> = Some((0, false, false));

/// Sixty frames of speech in three multiframes, with pairs 1, 11, 12 and 35 damaged.
fn damaged() -> Vec<u8> {
    let mut image = vec![0; 432];
    write_into(SETTINGS, &speech(60), &mut image).unwrap();
    for pair in [1, 11, 12, 35] {
        flip(&mut image, 1152 * (pair / 12) + 48 + 92 * (pair % 12) + 3);
    }
    image
}

/// Reads the octets, which are three multiframes, and hands the utterance on.
fn with_reading(octets: &[u8], tables: &Tables, test: impl Fn(Utterance<&[u8]>)) {
    let (mut index, mut report) = ([0xEE; 504], [0xEE; 39]);
    test(read_into(octets, tables, Choices::DEFAULT, &mut index, &mut report).unwrap());
}

#[test]
fn frames_in_order() {
    with_reading(&damaged(), &Tables::ZEROS, |heard| {
        let frames: Vec<u8> = heard.frames().flatten().copied().collect();
        assert_eq!(frames, heard.indices());
        assert_eq!(heard.frames().len(), 72);
        let said = speech(60);
        assert_eq!(heard.frames().next().unwrap(), &said[..7]);
        assert_eq!(heard.frames().nth(59).unwrap(), &said[7 * 59..]);
        assert_eq!(heard.frames().next_back().unwrap(), &[0; 7]);
        assert_eq!(heard.spoken().len(), 7 * 60);
    });
}

#[test]
fn pairs_run_on_through_all_multiframes() {
    with_reading(&damaged(), &Tables::ZEROS, |heard| {
        let bad: Vec<usize> = (0..36).filter(|q| heard.pairs().nth(*q).unwrap().note.is_bad()).collect();
        assert_eq!((bad, heard.reading.bad, heard.has_notes()), (vec![1, 11, 12, 35], 4, true));
        assert_eq!(heard.pairs().len(), 36);
        let paired: Vec<_> = heard.pairs().flat_map(|pair| pair.frames).collect();
        assert_eq!(paired, heard.frames().collect::<Vec<_>>());
        let frames: Vec<_> = heard.frames().collect();
        assert_eq!((frames[2], frames[3]), (frames[1], frames[4]));
        assert_eq!(heard.pairs().next_back().unwrap().note, PairNote::CrcFailed);
    });
}

#[test]
fn multiframes_have_their_notes_frames_and_pairs() {
    let mut octets = damaged();
    flip(&mut octets, 1152 + 16);
    flip(&mut octets, 1152 + 40);
    with_reading(&octets, &Tables::ZEROS, |heard| {
        assert_eq!(heard.multiframes().len(), 3);
        assert_eq!(header_notes(heard), [CLEAN, Some((2, false, false)), CLEAN]);
        let pairs: Vec<_> = heard.multiframes().flat_map(|multiframe| multiframe.pairs()).collect();
        assert_eq!(pairs, heard.pairs().collect::<Vec<_>>());
        let frames: Vec<_> = heard.multiframes().flat_map(|multiframe| multiframe.frames()).collect();
        assert_eq!(frames, heard.frames().collect::<Vec<_>>());
        let last = heard.multiframes().next_back().unwrap();
        assert_eq!((last.indices(), last.pairs().len(), last.frames().len()), (&heard.indices()[336..], 12, 24));
    });
}

#[test]
fn header_notes_are_named() {
    let (counted_1, counted_3, counted_3_at_11_khz) = (8, 24, 25);
    let mut lost = multiframe(16);
    lost[2] ^= 0b111;
    let octets = [multiframe(counted_1), lost, multiframe(counted_3)].concat();
    with_reading(&octets, &Tables::ZEROS, |heard| {
        assert_eq!(header_notes(heard), [CLEAN, None, CLEAN]);
        assert_eq!((heard.report()[13], heard.has_notes(), heard.reading.bad), (3, true, 0));
    });
    let octets = [multiframe(counted_1), multiframe(counted_1), multiframe(counted_3_at_11_khz)].concat();
    with_reading(&octets, &Tables::ZEROS, |heard| {
        let (out_of_step, differs) = (Some((0, true, false)), Some((0, false, true)));
        assert_eq!(header_notes(heard), [CLEAN, out_of_step, differs]);
    });
}

/// Each of 29 pairs goes from its first frame to its second in every index by the same; the CRC of pair 5 fails.
fn going(from: u8, to: u8) -> Vec<u8> {
    let said = [[from; 7], [to; 7]].repeat(29);
    let mut image = vec![0; 432];
    write_into(SETTINGS, said.as_flattened(), &mut image).unwrap();
    flip(&mut image, 48 + 92 * 5);
    image
}

/// The pair notes of the same octets by either reader.
fn notes_by_both(octets: &[u8], tables: &Tables) -> [Vec<PairNote>; 2] {
    let (mut index, mut report) = ([0xEE; 504], [0xEE; 39]);
    let by_octets = read_into(octets, tables, Choices::DEFAULT, &mut index, &mut report).unwrap();
    let notes: Vec<_> = by_octets.pairs().map(|pair| pair.note).collect();
    let by_bits = read_bits_into(octets, 0, 16, tables, Choices::DEFAULT, &mut index, &mut report).unwrap();
    [notes, by_bits.utterance.pairs().map(|pair| pair.note).collect()]
}

/// The codebook's numbers rise with the index, by two an index. A rise and a fall flag an index pair alike if they are longer than the
/// threshold. The pair before the bad one is judged, and each one behind a bad one; behind the speech both frames are zero.
#[test]
fn both_readers_judge_by_the_tables() {
    let codebook: [i32; 1280] = std::array::from_fn(|i| i as i32 % 128);
    for (from, to) in [(1, 9), (9, 1)] {
        for notes in notes_by_both(&going(from, to), &Tables::from_arrays(&codebook, &[15; 14])) {
            assert_eq!(notes[..4], [PairNote::Good; 4]);
            assert_eq!((notes[4], notes[5]), (PairNote::BadOtherwise, PairNote::CrcFailed));
            assert_eq!((&notes[6..29], &notes[29..]), (&[PairNote::BadOtherwise; 23][..], &[PairNote::Good; 7][..]));
        }
        for notes in notes_by_both(&going(from, to), &Tables::from_arrays(&codebook, &[16; 14])) {
            assert_eq!(notes.iter().filter(|note| note.is_bad()).count(), 1);
            assert_eq!(notes[5], PairNote::CrcFailed);
        }
    }
}

/// From one end of 32 bits to the other, up and down: the difference is of 33 bits, and exceeds any threshold.
#[test]
fn the_exact_difference_is_meant() {
    let ends: [i32; 1280] = std::array::from_fn(|i| if i % 128 / 2 == 9 { i32::MAX } else { i32::MIN });
    for (from, to) in [(1, 9), (9, 1)] {
        for notes in notes_by_both(&going(from, to), &Tables::from_arrays(&ends, &[i32::MAX; 14])) {
            assert_eq!(notes.iter().filter(|note| **note == PairNote::BadOtherwise).count(), 24);
        }
    }
}

/// Tables take it, and both readers refuse it before they look at what is received; the first of several is the place.
#[test]
fn a_negative_threshold_is_refused_by_both_readers() {
    let (mut index, mut report) = ([0xEE; 504], [0xEE; 39]);
    for first in 0..14 {
        for value in [-1, i32::MIN] {
            let mut thresholds = [0; 14];
            thresholds[13] = i32::MIN;
            thresholds[first] = value;
            let tables = Tables::from_arrays(&[0; 1280], &thresholds);
            assert_eq!(Tables::new(&[0; 1280], &thresholds), Ok(tables));
            let refusal = Error::ReadThreshold { place: first as u64 };
            for octets in [&going(1, 9)[..], &[0], &[]] {
                let by_octets = read_into(octets, &tables, Choices::DEFAULT, &mut index, &mut report);
                assert_eq!(by_octets, Err(refusal));
                for least in [16, 11] {
                    let by_bits = read_bits_into(octets, 0, least, &tables, Choices::DEFAULT, &mut index, &mut report);
                    assert_eq!(by_bits, Err(refusal));
                }
                assert_eq!((index, report), ([0xEE; 504], [0xEE; 39]));
                by_vectors(octets, &tables, refusal);
            }
        }
    }
}

#[cfg(feature = "alloc")]
fn by_vectors(octets: &[u8], tables: &Tables, refusal: Error) {
    assert_eq!(dsr::read(octets, tables, Choices::DEFAULT), Err(refusal));
    assert_eq!(dsr::read_bits(octets, 0, 16, tables, Choices::DEFAULT), Err(refusal));
}

#[cfg(not(feature = "alloc"))]
fn by_vectors(_: &[u8], _: &Tables, _: Error) {}
