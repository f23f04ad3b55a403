use dsr::{pack, unpack, Error, PairNote};

#[test]
fn a_stream_comes_back() {
    let indices = std::array::from_fn(|i| (i * 37 % 64) as u8);
    let mut stream = pack(&indices).unwrap();
    assert_eq!(unpack(&stream), (indices, [PairNote::Good; 12]));
    stream[137] ^= 0x80;
    let (back, notes) = unpack(&stream);
    assert_eq!((back, &notes[..11], notes[11]), (indices, &[PairNote::Good; 11][..], PairNote::CrcFailed));
}

/// The stream bits that are set when the first index is the only one that is not zero.
fn ones_of(index: u8) -> Vec<usize> {
    let mut indices = [0; 168];
    indices[0] = index;
    let stream = pack(&indices).unwrap();
    (0..1104).filter(|t| stream[t / 8] >> (t % 8) & 1 == 1).collect()
}

#[test]
fn a_frame_of_one_has_the_crc_x() {
    assert_eq!(ones_of(1), [0, 90]);
}

/// The example above holds for 1 + X^3 + X^4 too, as X^91 is X for both; X^87 tells them apart.
#[test]
fn the_generator_is_not_turned_round() {
    assert_eq!(ones_of(16), [4, 88, 89, 90, 91]);
}

#[test]
fn a_wide_index_is_refused_with_its_frame() {
    for at in 0..168 {
        let mut indices = [63; 168];
        indices[at] = 64;
        let packed = pack(&indices).map(|_| ());
        let wanted = if at % 7 == 6 { Ok(()) } else { Err(Error::WriteIndexValue { place: at as u64 / 7 + 1 }) };
        assert_eq!(packed, wanted);
        indices[167 - 1] = 255;
        assert_eq!(pack(&indices), Err(Error::WriteIndexValue { place: if at % 7 == 6 { 24 } else { at as u64 / 7 + 1 } }));
    }
}
