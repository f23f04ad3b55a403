mod shared;
use dsr::{image_octets, write_into, Error, FrontEnd, Rate, Settings};
use shared::{listing, SETTINGS};

fn utterance(frames: usize) -> Vec<u8> {
    vec![1; 7 * frames]
}

#[test]
fn sizes_of_01() {
    let mut out = vec![0; 36720];
    for (frames, octets) in [(0, 144), (23, 144), (24, 288), (6119, 36720)] {
        assert_eq!(write_into(SETTINGS, &utterance(frames), &mut out), Ok(octets));
        assert_eq!(image_octets(frames), Some(octets));
    }
    assert_eq!(write_into(SETTINGS, &utterance(6120), &mut out), Err(Error::WriteFrameCount { place: 6120 }));
    assert_eq!((image_octets(6120), image_octets(usize::MAX)), (None, None));
}

#[test]
fn the_listing_of_01() {
    let mut out = [0xEE; 145];
    assert_eq!(write_into(SETTINGS, &[1, 0, 0, 0, 0, 0, 0], &mut out), Ok(144));
    assert_eq!((&out[..144], out[144]), (&listing()[..], 0xEE));
}

#[test]
fn settings_stand_in_the_header() {
    for (rate, code) in [(Rate::Khz8, 0), (Rate::Khz11, 1), (Rate::Khz16, 3)] {
        for (front_end, kind) in [(FrontEnd::Standard, 0), (FrontEnd::NoiseRobust, 1)] {
            let mut out = [0; 144];
            write_into(Settings::new(rate, front_end), &[], &mut out).unwrap();
            assert_eq!(out[2], code | kind << 2 | 1 << 3);
        }
    }
}

#[test]
fn refusals_say_number_place_and_words() {
    let mut out = [0xEE; 144];
    let refusals = [
        (write_into(SETTINGS, &[1; 8], &mut out), "refused 2 8: index octets no multiple of 7 (place: their number)"),
        (write_into(SETTINGS, &utterance(6120), &mut out), "refused 3 6120: more than 6,119 frames (place: frame count)"),
        (
            write_into(SETTINGS, &[64; 7], &mut out),
            "refused 4 1: one of the first six indices of a frame above 63 (place: first such frame, from 1)",
        ),
        (
            write_into(SETTINGS, &[0; 7], &mut out),
            "refused 5 1: an all-zero frame that is the last, or whose number is a multiple of 24 (place: first such frame, from 1)",
        ),
        (write_into(SETTINGS, &utterance(24), &mut out), "refused 6 288: output shorter than 144m (place: octets needed)"),
    ];
    for (refusal, words) in refusals {
        assert_eq!(refusal.unwrap_err().to_string(), words);
    }
    let refusal = Settings::from_codes(2, 0).unwrap_err();
    assert_eq!(refusal.to_string(), "refused 1 0: rate not 0, 1 or 3, or type above 1 (place: 0)");
    assert_eq!(out, [0xEE; 144]);
}

#[cfg(feature = "alloc")]
#[test]
fn vectors_are_what_buffers_are() {
    for frames in [0, 1, 23, 24, 25, 6119] {
        let mut out = vec![0; 36720];
        let octets = write_into(SETTINGS, &utterance(frames), &mut out).unwrap();
        assert_eq!(dsr::write(SETTINGS, &utterance(frames)).unwrap(), out[..octets]);
    }
    assert_eq!(dsr::write(SETTINGS, &[1; 8]), Err(Error::WriteIndexCount { place: 8 }));
    assert_eq!(dsr::write(SETTINGS, &utterance(6120)), Err(Error::WriteFrameCount { place: 6120 }));
    assert_eq!(dsr::write(SETTINGS, &[1; 7 * 6120 + 1]), Err(Error::WriteIndexCount { place: 42841 }));
    assert_eq!(dsr::write(SETTINGS, &[64; 7]), Err(Error::WriteIndexValue { place: 1 }));
    assert_eq!(dsr::write(SETTINGS, &[0; 7]), Err(Error::WriteZeroFrame { place: 1 }));
}
