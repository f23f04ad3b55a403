//! The settings without the whole utterance: what settles them, what is not looked at, and that a full reading gives the same.
mod shared;
use dsr::{read_into, settle, write_into, Choices, Error, FrontEnd, Rate, Settings, Tables};
use shared::{all_bad, flip, listing, multiframe, speech, SETTINGS};

const BOTH: [Choices; 2] = [Choices::DEFAULT, Choices::ONE_HEADER_SETTLES];
const UNSETTLED: Error = Error::ReadUnsettled { place: 0 };
const UNFIT: Error = Error::ReadSettings { place: 0 };
const INVERSE_SYNC: [u8; 2] = [0x78, 0x4D];
/// Bit 0 of the first header.
const HEADER: usize = 16;

/// The settings and the multiframes read, or the refusal.
fn settled(octets: &[u8], choices: Choices) -> Result<(Settings, usize), Error> {
    settle(octets, choices).map(|settled| (settled.settings, settled.multiframes))
}

/// Either choice gives that.
fn gives(octets: &[u8], want: Result<(Settings, usize), Error>) {
    assert_eq!(BOTH.map(|choices| settled(octets, choices)), [want; 2]);
}

/// So many frames, written.
fn written(settings: Settings, frames: usize) -> Vec<u8> {
    let mut image = vec![0; dsr::image_octets(frames).unwrap()];
    write_into(settings, &speech(frames), &mut image).unwrap();
    image
}

fn flipped(octets: &[u8], bits: &[usize]) -> Vec<u8> {
    let mut octets = octets.to_vec();
    bits.iter().for_each(|bit| flip(&mut octets, *bit));
    octets
}

/// A multiframe whose header is lost.
fn lost() -> Vec<u8> {
    flipped(&listing(), &[HEADER, HEADER + 1, HEADER + 2])
}

/// So many multiframes, no two of which have the same settings: they differ in EXP bits.
fn all_different(multiframes: u16) -> Vec<u8> {
    (1..=multiframes).flat_map(|expansion| multiframe(expansion << 7)).collect()
}

#[test]
fn the_second_multiframe_settles() {
    for rate in [Rate::Khz8, Rate::Khz11, Rate::Khz16] {
        for front_end in [FrontEnd::Standard, FrontEnd::NoiseRobust] {
            let settings = Settings::new(rate, front_end);
            for frames in [24, 47, 48, 60, 6119] {
                let image = written(settings, frames);
                gives(&image, Ok((settings, 2)));
                gives(&[&INVERSE_SYNC.repeat(40_000)[..], &image].concat(), Ok((settings, 2)));
                let second = HEADER + 1152;
                gives(&flipped(&image, &[HEADER, HEADER + 1, second + 2, second + 31]), Ok((settings, 2)));
            }
        }
    }
}

/// A recording that is being written, asked at each of its octets.
#[test]
fn a_growing_recording_waits_and_then_stays() {
    let recorded = written(SETTINGS, 60);
    for octets in 0..=recorded.len() {
        let want = match octets {
            0 => Err(Error::ReadNoMultiframe { place: 0 }),
            1..=143 => Err(Error::ReadCut { place: 0 }),
            144 => Err(UNSETTLED),
            145..=287 => Err(Error::ReadCut { place: 144 }),
            _ => Ok((SETTINGS, 2)),
        };
        assert_eq!(settled(&recorded[..octets], Choices::DEFAULT), want, "{octets} octets");
        // where the recording ends with its first multiframe, it is taken for the only one
        let by_name = if octets == 144 { Ok((SETTINGS, 1)) } else { want };
        assert_eq!(settled(&recorded[..octets], Choices::ONE_HEADER_SETTLES), by_name, "{octets} octets");
    }
}

#[test]
fn what_stands_behind_the_settling_multiframe_is_not_looked_at() {
    let settling = written(SETTINGS, 60)[..288].to_vec();
    let tails = [&[0x00][..], &[0x87], &[0x78], &[0x87, 0xB2], &[0xFF; 1000], &multiframe(2), &lost(), &all_different(255)];
    for tail in tails {
        gives(&[&settling[..], tail].concat(), Ok((SETTINGS, 2)));
        gives(&[&multiframe(2).repeat(2)[..], tail].concat(), Err(UNFIT));
    }
    gives(&settling.repeat(128), Ok((SETTINGS, 2)));
    // nor are the pairs
    gives(&all_bad().repeat(2), Ok((SETTINGS, 2)));
}

#[test]
fn refusals_say_number_and_place() {
    let (one, begun) = (listing(), [0x87, 0xB2]);
    gives(&[], Err(Error::ReadNoMultiframe { place: 0 }));
    gives(&INVERSE_SYNC.repeat(40_000), Err(Error::ReadNoMultiframe { place: 80_000 }));
    gives(&[0x00], Err(Error::ReadUnknown { place: 0 }));
    gives(&[0x87, 0xB3], Err(Error::ReadUnknown { place: 0 }));
    gives(&[&INVERSE_SYNC[..], &[0x4D]].concat(), Err(Error::ReadUnknown { place: 2 }));
    gives(&[&INVERSE_SYNC[..], &[0x87]].concat(), Err(Error::ReadCut { place: 2 }));
    gives(&one[..143], Err(Error::ReadCut { place: 0 }));
    gives(&[&one[..], &INVERSE_SYNC, &[0x78]].concat(), Err(Error::ReadCut { place: 146 }));
    gives(&all_different(255), Err(UNSETTLED));
    gives(&lost().repeat(255), Err(UNSETTLED));
    for unsettled in [all_different(255), lost().repeat(255)] {
        gives(&[&unsettled[..], &INVERSE_SYNC, &begun].concat(), Err(Error::ReadTooMany { place: 36722 }));
        gives(&[&unsettled[..], &one].concat(), Err(Error::ReadTooMany { place: 36720 }));
        gives(&[&unsettled[..], &[0x87]].concat(), Err(Error::ReadCut { place: 36720 }));
        gives(&[&unsettled[..], &[0x00]].concat(), Err(Error::ReadUnknown { place: 36720 }));
    }
    for (rate_2, expansion) in [(2, 0x80), (6, 0x8000)] {
        gives(&multiframe(rate_2).repeat(2), Err(UNFIT));
        gives(&multiframe(expansion).repeat(3), Err(UNFIT));
    }
}

#[test]
fn an_only_multiframe_follows_the_choice() {
    let by_choice = |octets: &[u8], by_name| {
        assert_eq!(BOTH.map(|choices| settled(octets, choices)), [Err(UNSETTLED), by_name]);
        // an inverse sync is no second multiframe
        let among = [&INVERSE_SYNC[..], octets, &INVERSE_SYNC].concat();
        assert_eq!(BOTH.map(|choices| settled(&among, choices)), [Err(UNSETTLED), by_name]);
    };
    by_choice(&listing(), Ok((SETTINGS, 1)));
    by_choice(&multiframe(7), Ok((Settings::new(Rate::Khz16, FrontEnd::NoiseRobust), 1)));
    by_choice(&multiframe(2), Err(UNFIT));
    by_choice(&multiframe(0x8000), Err(UNFIT));
    by_choice(&flipped(&listing(), &[HEADER]), Err(UNSETTLED));
    by_choice(&flipped(&listing(), &[HEADER, HEADER + 31]), Err(UNSETTLED));
    by_choice(&lost(), Err(UNSETTLED));
}

/// That it is the only one is known at the end alone.
#[test]
fn garbage_behind_an_only_multiframe_is_refused_by_either_rule() {
    for (garbage, refusal) in [
        (&[0x00][..], Error::ReadUnknown { place: 144 }),
        (&[0xB2, 0x87], Error::ReadUnknown { place: 144 }),
        (&[0x78], Error::ReadCut { place: 144 }),
        (&[0x87, 0xB2, 0x08], Error::ReadCut { place: 144 }),
        (&[0x78, 0x4D, 0x01], Error::ReadUnknown { place: 146 }),
    ] {
        gives(&[&listing()[..], garbage].concat(), Err(refusal));
        gives(&[&multiframe(2)[..], garbage].concat(), Err(refusal));
    }
}

/// Two multiframes that do not agree are two all the same: a clean header among them does not settle alone.
#[test]
fn the_first_two_headers_that_agree_settle() {
    let at = |rate| Settings::new(rate, FrontEnd::Standard);
    let (khz_8, khz_11, khz_16) = (listing(), multiframe(1), multiframe(3));
    gives(&[&khz_8[..], &khz_11].concat(), Err(UNSETTLED));
    gives(&[&khz_8[..], &lost()].concat(), Err(UNSETTLED));
    gives(&[&lost()[..], &khz_8].concat(), Err(UNSETTLED));
    gives(&[&khz_8[..], &khz_11, &khz_8, &khz_11].concat(), Ok((at(Rate::Khz8), 3)));
    gives(&[&khz_8[..], &khz_11, &khz_16, &khz_11, &khz_8].concat(), Ok((at(Rate::Khz11), 4)));
    gives(&[&lost()[..], &khz_16, &lost(), &khz_16].concat(), Ok((at(Rate::Khz16), 4)));
    gives(&[&khz_8[..], &multiframe(2), &multiframe(2), &khz_8].concat(), Err(UNFIT));
    gives(&[&all_different(254)[..], &multiframe(0x80)].concat(), Err(UNFIT));
    gives(&[&lost().repeat(253)[..], &khz_11, &khz_11].concat(), Ok((at(Rate::Khz11), 255)));
}

/// Numbers that look random, the same in each run (Knuth's MMIX constants).
struct Numbers(u64);

impl Numbers {
    fn below(&mut self, limit: u64) -> u64 {
        self.0 = self.0.wrapping_mul(6364136223846793005).wrapping_add(1442695040888963407);
        (self.0 >> 33) % limit
    }

    /// Up to five multiframes of few kinds, flips in headers and pairs, inverse syncs, and sometimes something strange or a cut.
    fn octets(&mut self) -> Vec<u8> {
        let mut octets = Vec::new();
        for _ in 0..self.below(6) {
            let mut next = multiframe([0, 0, 0, 0, 0, 1, 7, 2, 0x80][self.below(9) as usize] | (self.below(16) << 3) as u16);
            (0..[0, 0, 0, 0, 1, 2, 3, 6][self.below(8) as usize]).for_each(|_| flip(&mut next, HEADER + self.below(32) as usize));
            (0..self.below(200)).for_each(|_| flip(&mut next, 48 + self.below(1104) as usize));
            octets.extend(next);
            octets.extend(INVERSE_SYNC.repeat(self.below(2) as usize));
            octets.extend([0x00].repeat(usize::from(self.below(40) == 0)));
        }
        let whole = octets.len();
        octets.truncate(whole.saturating_sub([0, 0, 0, 0, 0, 0, 1, 143][self.below(8) as usize]));
        octets
    }
}

/// If a full reading succeeds, the settings are its own; if it refuses, the refusal is the same, or something settled before it: settings,
/// or with 12 to 15 also those that are refused with 17. Then all pairs may be bad.
#[test]
fn a_full_reading_gives_the_same() {
    let (mut numbers, mut tried) = (Numbers(108), [0; 4]);
    for _ in 0..20_000 {
        let octets = numbers.octets();
        for choices in BOTH {
            let (mut index, mut report) = ([0; 840], [0; 65]);
            let read = read_into(&octets, &Tables::ZEROS, choices, &mut index, &mut report).map(|heard| heard.reading);
            let got = settled(&octets, choices);
            let case = match (read, got) {
                (Ok(reading), Ok((settings, read))) if settings == reading.settings && read <= reading.multiframes => 0,
                (Err(refusal), Err(same)) if refusal == same => 1,
                (Err(refusal), Ok(_) | Err(UNFIT)) if refusal.number() < 16 => 2,
                (Err(Error::ReadAllBad { place: 0 }), Ok(_)) => 3,
                _ => panic!("read {read:?}, settled {got:?}: {octets:02X?}"),
            };
            tried[case] += 1;
        }
    }
    assert!(tried.iter().all(|times| *times > 100), "{tried:?}");
}

/// By default: after 13, 14 and 16 more octets can settle, all else stays.
#[test]
fn what_more_octets_can_change() {
    let (mut numbers, mut stayed, mut settled_later) = (Numbers(11), 0, 0);
    for _ in 0..5_000 {
        let octets = numbers.octets();
        let before = settled(&octets, Choices::DEFAULT);
        let behind = settled(&[octets, numbers.octets()].concat(), Choices::DEFAULT);
        if before.is_err_and(|refusal| matches!(refusal.number(), 13 | 14 | 16)) {
            settled_later += usize::from(behind.is_ok());
        } else {
            assert_eq!(before, behind);
            stayed += 1;
        }
    }
    assert!(stayed > 500 && settled_later > 500, "{stayed}, {settled_later}");
}

/// Once two headers agreed, neither what follows nor what is left away behind them changes anything.
#[test]
fn the_answer_is_of_the_settling_multiframes_alone() {
    let (mut numbers, mut tried) = (Numbers(201), 0);
    for _ in 0..5_000 {
        let octets = numbers.octets();
        let Ok((settings, read)) = settled(&octets, Choices::DEFAULT) else { continue };
        let needed = (0..octets.len()).find(|end| settled(&octets[..*end], Choices::DEFAULT).is_ok()).unwrap_or(octets.len());
        gives(&octets[..needed], Ok((settings, read)));
        gives(&[&octets[..needed], &numbers.octets(), &[0x00]].concat(), Ok((settings, read)));
        tried += 1;
    }
    assert!(tried > 500, "{tried}");
}
