//! What flips make of a header.
use std::thread;

use dsr::{Choices, Error, Header, Rate, Settings, Tables, MULTIFRAME_INDICES, MULTIFRAME_OCTETS, MULTIFRAME_REPORT};

use super::{grouped, of_all, patterns, Finding, README, TRUST};
use crate::layout;
use crate::random::Random;
use crate::trial::sent::{self, Sent, SETTINGS};

const HEADER_BITS: u32 = layout::HEADER_BITS as u32;
/// A header's octets in its multiframe.
const HEADER: std::ops::Range<usize> = layout::SYNC_OCTETS..layout::SYNC_OCTETS + layout::HEADER_BITS / 8;
/// Frames that fit one multiframe, and frames that need two.
const FEW: usize = 20;
const MORE: usize = 40;

pub fn findings(random: &mut Random) -> Result<Vec<Finding>, Error> {
    let mut findings = headers_alone(&messages(random));
    findings.extend(only_multiframes(random)?);
    findings.push(second_alone(random)?);
    findings.push(few_frames(random)?);
    Ok(findings)
}

/// Any messages: what flips do is proved to be the same for all of them.
fn messages(random: &mut Random) -> Vec<u16> {
    (0..16).map(|_| random.below(1 << 16) as u16).collect()
}

/// What becomes of a message's header with that many flips: how many patterns are read as it, as another one, and not at all.
fn outcomes(message: u16, flips: u32) -> [u64; 3] {
    let sent = dsr::header_encode(message);
    let mut counts = [0; 3];
    for pattern in patterns(flips, HEADER_BITS) {
        let outcome = match dsr::header_read(sent ^ pattern as u32) {
            Header::Read { message: heard, .. } if heard == message => 0,
            Header::Read { .. } => 1,
            Header::Lost => 2,
        };
        counts[outcome] += 1;
    }
    counts
}

fn headers_alone(messages: &[u16]) -> Vec<Finding> {
    let counts = |flips: u32| -> Vec<[u64; 3]> { messages.iter().map(|message| outcomes(*message, flips)).collect() };
    let all = |flips: u32, outcome: usize| {
        let counts = counts(flips);
        (counts.iter().map(|counts| counts[outcome]).sum(), counts.iter().flatten().sum())
    };
    let fours = counts(4);
    let others: Vec<u64> = fours.iter().map(|counts| counts[1]).collect();
    let four = format!("{} of {}", of_all(&others), grouped(fours[0].iter().sum()));
    let headers = format!("in each of {} headers", messages.len());
    vec![
        Finding::all(format!("one flip {headers}: mended"), all(1, 0), README),
        Finding::all(format!("two flips {headers}: mended"), all(2, 0), README),
        Finding::all(format!("three flips {headers}: lost, never mended"), all(3, 2), README),
        Finding::exact(format!("four flips {headers}: another codeword read"), four, TRUST, "465 of 35,960"),
    ]
}

type Multiframe = [u8; MULTIFRAME_OCTETS];

/// All that six flips can make of the header of the first multiframe of an image.
fn with_six_flips(image: &[u8]) -> impl Iterator<Item = Multiframe> {
    let multiframe: Multiframe = image[..MULTIFRAME_OCTETS].try_into().expect("a multiframe is there");
    patterns(6, HEADER_BITS).map(move |pattern| {
        let mut flipped = multiframe;
        for (place, octet) in HEADER.zip((pattern as u32).to_le_bytes()) {
            flipped[place] ^= octet;
        }
        flipped
    })
}

/// What six flips make of the header of an only multiframe.
#[derive(Debug, Default, Clone, PartialEq, Eq)]
struct Only {
    all: u64,
    refused_by_default: u64,
    /// Asked for by name, as all that follow.
    refused_16: u64,
    refused_17: u64,
    other_settings: u64,
    other_settings_unnoted: u64,
}

impl Only {
    fn count(sent: &Sent) -> Only {
        let mut only = Only::default();
        with_six_flips(&sent.image).for_each(|image| only.add(sent.settings, &image));
        only
    }

    fn add(&mut self, settings: Settings, image: &[u8]) {
        let (mut index, mut report) = ([0; MULTIFRAME_INDICES], [0; MULTIFRAME_REPORT]);
        let by_default = dsr::read_into(image, &Tables::ZEROS, Choices::DEFAULT, &mut index, &mut report);
        self.all += 1;
        self.refused_by_default += u64::from(matches!(by_default, Err(Error::ReadUnsettled { .. })));
        match dsr::read_into(image, &Tables::ZEROS, Choices::ONE_HEADER_SETTLES, &mut index, &mut report) {
            Err(Error::ReadUnsettled { .. }) => self.refused_16 += 1,
            Err(Error::ReadSettings { .. }) => self.refused_17 += 1,
            Ok(heard) if heard.reading.settings != settings => {
                self.other_settings += 1;
                self.other_settings_unnoted += u64::from(!heard.has_notes());
            }
            _ => {}
        }
    }
}

/// For all six settings, each in a thread of its own.
fn only_multiframes(random: &mut Random) -> Result<Vec<Finding>, Error> {
    let sent = SETTINGS.map(|settings| Sent::of(settings, sent::frames(FEW, random)));
    let sent: Vec<Sent> = sent.into_iter().collect::<Result<_, _>>()?;
    let counted: Vec<Only> = thread::scope(|scope| {
        let at_work: Vec<_> = sent.iter().map(|sent| scope.spawn(|| Only::count(sent))).collect();
        at_work.into_iter().map(|one| one.join().expect("a thread of this program does not panic")).collect()
    });
    let of = |rate: Option<Rate>, number: fn(&Only) -> u64| -> Vec<u64> {
        let those = sent.iter().zip(&counted).filter(|(sent, _)| rate.is_none_or(|rate| sent.settings.rate == rate));
        those.map(|(_, only)| number(only)).collect()
    };
    let all = of(None, |only| only.all);
    let by_default = (of(None, |only| only.refused_by_default).iter().sum(), all.iter().sum());
    let codewords = format!("{} of {}", of_all(&of(None, |only| only.all - only.refused_16)), of_all(&all));
    let what = |words: &str| format!("six flips of an only header: {words}");
    Ok(vec![
        Finding::all(what("by default refused with 16"), by_default, TRUST),
        Finding::exact(what("by name, another codeword"), codewords, TRUST, "31 of 906,192"),
        Finding::exact(what("by name, refused with 17"), either(of(None, |only| only.refused_17)), TRUST, "25 or 26"),
        Finding::exact(what("8 kHz read as others"), either(of(Some(Rate::Khz8), |only| only.other_settings)), TRUST, "4"),
        Finding::exact(
            what("8 kHz, these unnoted"),
            either(of(Some(Rate::Khz8), |only| only.other_settings_unnoted)),
            TRUST,
            "2",
        ),
        Finding::exact(what("11 kHz read as others"), either(of(Some(Rate::Khz11), |only| only.other_settings)), TRUST, "5"),
    ])
}

/// The different numbers among these.
fn either(mut numbers: Vec<u64>) -> String {
    numbers.sort_unstable();
    numbers.dedup();
    numbers.into_iter().map(grouped).collect::<Vec<_>>().join(" or ")
}

/// Of two multiframes the hunt finds the second alone, whose counter is 2. Six flips of its header can make that 1, and change the rate.
fn second_alone(random: &mut Random) -> Result<Finding, Error> {
    let mut misled = |settings: Settings| -> Result<usize, Error> {
        let image = Sent::of(settings, sent::frames(MORE, random))?.image;
        let read = |octets: Multiframe| dsr::read_bits(&octets, 0, 16, &Tables::ZEROS, Choices::ONE_HEADER_SETTLES);
        let heard = with_six_flips(&image[MULTIFRAME_OCTETS..]).filter_map(|octets| Some(read(octets).ok()?.utterance));
        Ok(heard.filter(|heard| !heard.has_notes() && heard.reading.settings.rate != settings.rate).count())
    };
    let (at_8, at_11) = (misled(SETTINGS[0])?, misled(SETTINGS[1])?);
    Ok(Finding {
        what: "six flips, an only header found in bits: wrong rate, unnoted".to_string(),
        counted: format!("{at_8} at 8 kHz, {at_11} at 11 kHz"),
        said: "enough at 11 kHz".to_string(),
        place: TRUST,
        agrees: at_8 == 0 && at_11 > 0,
    })
}

/// Words of up to 23 frames, as they were written.
fn few_frames(random: &mut Random) -> Result<Finding, Error> {
    let mut refused = Vec::new();
    for speech in 0..30 {
        let sent = Sent::draw(speech, random)?;
        let heard = dsr::read(&sent.image, &Tables::ZEROS, Choices::DEFAULT);
        if matches!(heard, Err(Error::ReadUnsettled { .. })) {
            refused.push(speech);
        }
    }
    let agrees = refused == (0..24).collect::<Vec<_>>();
    let counted = match agrees {
        true => "0 to 23 frames".to_string(),
        false => format!("{refused:?}"),
    };
    let what = "0 to 29 frames, as written: by default refused with 16".to_string();
    Ok(Finding { what, counted, said: "fewer than 24".to_string(), place: TRUST, agrees })
}
