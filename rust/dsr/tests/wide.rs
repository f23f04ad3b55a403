//! Numbers as large as they get, and a missing end.
mod shared;
use dsr::{read_bits_into, read_into, write_into, Choices, Error, Tables};
use shared::{flip, speech, SETTINGS};

#[test]
fn the_longest_utterance_with_every_second_pair_bad_and_its_end_cut_off() {
    let (mut image, mut index, mut report) = (vec![0; 36720], vec![0; 42840], vec![0; 3315]);
    write_into(SETTINGS, &speech(6119), &mut image).unwrap();
    let whole = read_into(&image, &Tables::ZEROS, Choices::DEFAULT, &mut index, &mut report).unwrap().reading;
    assert_eq!((whole.multiframes, whole.speech, whole.bad, whole.end), (255, 6119, 0, true));
    for pair in (0..3060).step_by(2) {
        flip(&mut image, 1152 * (pair / 12) + 48 + 92 * (pair % 12));
    }
    let cut = read_into(&image[..144 * 254], &Tables::ZEROS, Choices::DEFAULT, &mut index, &mut report).unwrap().reading;
    assert_eq!((cut.multiframes, cut.speech, cut.bad, cut.end), (254, 6096, 1524, false));
}

#[test]
fn a_hunting_reading_takes_and_tells_wide_numbers() {
    let (mut index, mut report) = ([0; 336], [0; 26]);
    let mut read = |octets: &[u8], from, least| {
        read_bits_into(octets, from, least, &Tables::ZEROS, Choices::DEFAULT, &mut index, &mut report).map(|got| got.outside)
    };
    let mut bits = vec![0; 288];
    write_into(SETTINGS, &speech(24), &mut bits).unwrap();
    bits.resize(288 + 9000, 0);
    assert_eq!(read(&bits, 0, 16), Ok(72000));
    assert_eq!(read(&bits, 1 << 32, 16), Err(Error::HuntNowhere { place: 1 << 32 }));
    assert_eq!(read(&bits, 0, 256 + 16), Err(Error::HuntMatch { place: 272 }));
}
