//! The hunt for a sync at any bit and the reading that hunts, 02 C-13 and, for its tables, C-12. The octets are laid out as single bits in
//! sending order, and every rule is then about places in that row.
use crate::header::Code;
use crate::reading::{fit_tables, read, Reading, Rule, MOST};
use crate::writing::{Refusal, MULTIFRAME, SYNC};

pub const MULTIFRAME_BITS: usize = 8 * MULTIFRAME;
pub const SYNC_BITS: usize = 8 * SYNC.len();
pub const HEADER_BITS: usize = 32;

/// The bits of octets in sending order.
pub fn bits_of(octets: &[u8]) -> Vec<bool> {
    octets.iter().flat_map(|octet| (0..8).map(move |i| octet >> i & 1 == 1)).collect()
}

/// The octets of bits in sending order; a last octet that is not full is filled up with zeros.
pub fn octets_of(bits: &[bool]) -> Vec<u8> {
    bits.chunks(8).map(|eight| eight.iter().enumerate().map(|(i, &bit)| (bit as u8) << i).sum()).collect()
}

fn refusal(number: u32, place: u64) -> Refusal {
    Refusal { number, place }
}

/// How many of the sync's bits stand at the start of `bits`.
fn matching(bits: &[bool]) -> u64 {
    let sync_bit = |i: usize| SYNC[i / 8] >> (i % 8) & 1 == 1;
    (0..SYNC_BITS).filter(|&i| bits[i] == sync_bit(i)).count() as u64
}

/// Whether a multiframe at the start of `bits` passes the test.
fn passes(code: &Code, bits: &[bool], least: u64) -> bool {
    let header = || octets_of(&bits[SYNC_BITS..][..HEADER_BITS]).try_into().unwrap();
    matching(bits) >= least && code.read(u32::from_le_bytes(header())).is_some()
}

/// The smallest place from `from` on that passes, if any does, and the number of places tested. A place counts if a whole multiframe
/// is left from it.
fn search(code: &Code, bits: &[bool], from: u64, least: u64) -> (Option<u64>, u64) {
    let mut tested = 0;
    let places = (bits.len() + 1).saturating_sub(MULTIFRAME_BITS) as u64;
    for place in from..places {
        tested += 1;
        if passes(code, &bits[place as usize..], least) {
            return (Some(place), tested);
        }
    }
    (None, tested)
}

fn allowed(least: u64) -> Result<(), Refusal> {
    match least {
        12..=16 => Ok(()),
        _ => Err(refusal(21, least)),
    }
}

/// The bit found, or the refusal; and the number of places tested.
pub fn hunt(code: &Code, octets: &[u8], from: u64, least: u64) -> (Result<u64, Refusal>, u64) {
    if let Err(refused) = allowed(least) {
        return (Err(refused), 0);
    }
    let (found, tested) = search(code, &bits_of(octets), from, least);
    (found.ok_or(refusal(22, from)), tested)
}

/// What a hunting reading met: the multiframes' first bits, and the number of places tested by all its hunts.
struct Met {
    found: Vec<u64>,
    tested: u64,
}

/// From multiframe to multiframe, until a hunt finds nothing. The hunt after the last that an utterance can have is made too: what it
/// finds is refused.
fn meet(code: &Code, bits: &[bool], from: u64, least: u64) -> Result<Met, Refusal> {
    let mut met = Met { found: vec![], tested: 0 };
    let mut next = from;
    loop {
        let (found, tested) = search(code, bits, next, least);
        met.tested += tested;
        match found {
            None if met.found.is_empty() => return Err(refusal(22, from)),
            None => return Ok(met),
            Some(place) if met.found.len() == MOST => return Err(refusal(15, place)),
            Some(place) => met.found.push(place),
        }
        next = met.found[met.found.len() - 1] + MULTIFRAME_BITS as u64;
    }
}

/// The multiframe at a place, brought to octets, its sync made whole: so the octet reader takes it for what it was found to be.
fn lifted(bits: &[bool], place: u64) -> Vec<u8> {
    let multiframe = &bits[place as usize..][..MULTIFRAME_BITS];
    [&SYNC[..], &octets_of(&multiframe[SYNC_BITS..])].concat()
}

/// The number of bits from `from` on that are in none of the multiframes found.
fn outside(bits: usize, from: u64, found: &[u64]) -> u64 {
    let mut inside = vec![false; bits];
    for &place in found {
        inside[place as usize..][..MULTIFRAME_BITS].fill(true);
    }
    inside.iter().skip(from as usize).filter(|&&inside| !inside).count() as u64
}

/// A hunting reading: that of the multiframes found, the number of bits outside them, and the number of places tested.
pub struct HuntingReading {
    pub reading: Reading,
    pub outside: u64,
    pub tested: u64,
}

/// The hunting reading, or the refusal; `tables` are codebook and thresholds, `rooms` those of the index and the report buffer.
pub fn read_bits(
    code: &Code,
    octets: &[u8],
    from: u64,
    least: u64,
    rule: Rule,
    tables: (&[i32], &[i32]),
    rooms: (usize, usize),
) -> Result<HuntingReading, Refusal> {
    // The octet reader says this too, but after the hunt it would come too late.
    fit_tables(tables)?;
    allowed(least)?;
    let bits = bits_of(octets);
    let met = meet(code, &bits, from, least)?;
    let image: Vec<u8> = met.found.iter().flat_map(|&place| lifted(&bits, place)).collect();
    let reading = read(code, &image, rule, tables, rooms)?;
    Ok(HuntingReading { reading, outside: outside(bits.len(), from, &met.found), tested: met.tested })
}

#[cfg(test)]
mod tests {
    use super::*;
    use crate::header::encode;
    use crate::reading::{CODEBOOK, THRESHOLDS};
    use crate::writing::{multiframe, write, INVERSE};

    const TABLES: (&[i32], &[i32]) = (&[0; CODEBOOK], &[0; THRESHOLDS]);
    const ROOMS: (usize, usize) = (1 << 16, 1 << 16);

    /// An image of m multiframes, 8 kHz, standard front end; every frame but the last is 1, 2, 3, 4, 5, 6, 7.
    fn image(m: usize) -> Vec<u8> {
        write(0, 0, &[1, 2, 3, 4, 5, 6, 7].repeat(24 * m - 1), 144 * m).ok().expect("it is written")
    }

    fn shifted(gap: &[bool], image: &[u8]) -> Vec<u8> {
        octets_of(&[gap, &bits_of(image)].concat())
    }

    fn hunted(octets: &[u8], from: u64, least: u64) -> (Result<u64, (u32, u64)>, u64) {
        let (found, tested) = hunt(&Code::new(), octets, from, least);
        (found.map_err(|refused| (refused.number, refused.place)), tested)
    }

    /// By the old rule, so that an only multiframe is read too.
    fn read_found(octets: &[u8], from: u64, least: u64) -> HuntingReading {
        read_bits(&Code::new(), octets, from, least, Rule::OneHeaderSettles, TABLES, ROOMS).ok().expect("it is read")
    }

    /// The eight numbers of the answer.
    fn answered_by(rule: Rule, octets: &[u8], from: u64, least: u64) -> Result<Vec<u64>, (u32, u64)> {
        match read_bits(&Code::new(), octets, from, least, rule, TABLES, ROOMS) {
            Ok(hunting) => Ok([&hunting.reading.answer[..], &[hunting.outside, hunting.tested]].concat()),
            Err(refused) => Err((refused.number, refused.place)),
        }
    }

    fn answered(octets: &[u8], from: u64, least: u64) -> Result<Vec<u64>, (u32, u64)> {
        answered_by(Rule::OneHeaderSettles, octets, from, least)
    }

    #[test]
    fn bits_there_and_back() {
        assert_eq!(bits_of(&[0x87]), [true, true, true, false, false, false, false, true]);
        assert_eq!(octets_of(&bits_of(&[0x87, 0xB2, 0x01])), [0x87, 0xB2, 0x01]);
        assert_eq!(octets_of(&[true]), [1]);
    }

    #[test]
    fn found_at_every_shift() {
        for gap in 0..20 {
            let octets = shifted(&vec![false; gap], &image(1));
            assert_eq!(hunted(&octets, 0, 16), (Ok(gap as u64), gap as u64 + 1));
            assert_eq!(hunted(&octets, gap as u64, 16), (Ok(gap as u64), 1));
        }
    }

    #[test]
    fn places_end_where_a_multiframe_would_not_fit() {
        assert_eq!(hunted(&[], 0, 12), (Err((22, 0)), 0));
        assert_eq!(hunted(&[0; 143], 0, 12), (Err((22, 0)), 0));
        assert_eq!(hunted(&[0; 144], 0, 12), (Err((22, 0)), 1));
        assert_eq!(hunted(&[0; 145], 3, 12), (Err((22, 3)), 6));
        assert_eq!(hunted(&[0; 145], 8, 12), (Err((22, 8)), 1));
        assert_eq!(hunted(&[0; 145], 9, 12), (Err((22, 9)), 0));
        assert_eq!(hunted(&image(1), 1 << 32, 12), (Err((22, 1 << 32)), 0));
        assert_eq!(hunted(&image(1), u64::MAX, 12), (Err((22, u64::MAX)), 0));
        assert_eq!(hunted(&image(1)[..143], 0, 12), (Err((22, 0)), 0));
    }

    #[test]
    fn flips_of_the_sync_up_to_the_callers_number() {
        for flips in 0..=5 {
            let mut octets = image(1);
            octets[1] ^= (1 << flips) - 1;
            for least in 12..=16 {
                let fits = 16 - flips >= least;
                assert_eq!(hunted(&octets, 0, least), (if fits { Ok(0) } else { Err((22, 0)) }, 1));
            }
        }
    }

    #[test]
    fn a_lost_header_is_no_match() {
        let mut octets = image(2);
        octets[2..6].copy_from_slice(&[0x01, 0x00, 0x01, 0x01]);
        assert_eq!(hunted(&octets, 0, 16), (Ok(1152), 1153));
        octets[2..6].copy_from_slice(&[0x01, 0x00, 0x01, 0x11]);
        assert_eq!(hunted(&octets, 0, 16), (Ok(0), 1));
    }

    #[test]
    fn refusals_in_order() {
        for least in [0, 11, 17, (1 << 32) + 12, u64::MAX] {
            assert_eq!(hunted(&image(1), 0, least), (Err((21, least)), 0));
            assert_eq!(answered(&[], 5, least), Err((21, least)));
        }
        assert_eq!(answered(&[], 5, 12), Err((22, 5)));
        let short: (&[i32], &[i32]) = (&[0; CODEBOOK], &[0; 13]);
        for rule in [Rule::TwoHeaders, Rule::OneHeaderSettles] {
            let refused = read_bits(&Code::new(), &[], 5, 17, rule, short, ROOMS).err().expect("tables come first");
            assert_eq!((refused.number, refused.place), (11, 0));
            let refused = read_bits(&Code::new(), &image(2), 0, 16, rule, TABLES, (335, 25)).err().expect("rooms are short");
            assert_eq!((refused.number, refused.place), (18, 336));
        }
    }

    /// 11, 10, 21, 22, and then as it was: 15 for a match after 255, 16, 18.
    #[test]
    fn a_negative_threshold_comes_after_lengths_and_before_the_hunt() {
        let code = Code::new();
        fn with(code: &Code, octets: &[u8], (from, least): (u64, u64), tables: (&[i32], &[i32]), rooms: (usize, usize)) -> (u32, u64) {
            let refused = read_bits(code, octets, from, least, Rule::TwoHeaders, tables, rooms).err().expect("it is refused");
            (refused.number, refused.place)
        }
        let too_many: Vec<u8> = (1..=256).flat_map(|position| multiframe(0, 0, position, &[1; 168])).collect();
        let calls: [(&[u8], (u64, u64), (usize, usize), u32); 6] = [
            (&image(2), (0, 11), ROOMS, 21),
            (&[], (5, 12), ROOMS, 22),
            (&image(2), (u64::MAX, 16), ROOMS, 22),
            (&too_many, (0, 16), ROOMS, 15),
            (&image(1), (0, 16), ROOMS, 16),
            (&image(2), (0, 16), (335, 25), 18),
        ];
        for (octets, search, rooms, number) in calls {
            assert_eq!(with(&code, octets, search, TABLES, rooms).0, number);
            for first in 0..THRESHOLDS {
                let mut thresholds = [0; THRESHOLDS];
                thresholds[first..].fill(i32::MIN);
                assert_eq!(with(&code, octets, search, (&[0; CODEBOOK], &thresholds), rooms), (10, first as u64));
                assert_eq!(with(&code, octets, search, (&[0; CODEBOOK - 1], &thresholds), rooms), (11, 0));
                assert_eq!(with(&code, octets, search, (&[0; CODEBOOK], &thresholds[1..]), rooms), (11, 0));
            }
        }
    }

    /// Every pair of speech falls, or rises, by 11 in every index, and the second one's CRC fails: all are bad, and zeros replace them.
    #[test]
    fn a_fall_flags_like_a_rise() {
        let codebook: Vec<i32> = (0..CODEBOOK as i32).map(|i| 11 * (i / 2 % 64)).collect();
        for (first, second) in [(1, 2), (2, 1)] {
            let frames = [[first; 7], [second; 7]].concat().repeat(23);
            let mut octets = write(0, 0, &frames, 288).ok().expect("it is written");
            octets[20] ^= 1;
            for (threshold, speech, bad) in [(10, 24, 23), (11, 46, 1)] {
                let tables = (&codebook[..], &[threshold; THRESHOLDS][..]);
                let octets = shifted(&[false; 3], &octets);
                let hunting = read_bits(&Code::new(), &octets, 0, 16, Rule::TwoHeaders, tables, ROOMS).ok().expect("it is read");
                assert_eq!(hunting.reading.answer, [0, 0, 2, speech, bad, 1]);
            }
        }
    }

    #[test]
    fn a_shifted_image_reads_as_the_octets_do() {
        let image = image(3);
        let octets = read(&Code::new(), &image, Rule::TwoHeaders, TABLES, ROOMS).ok().expect("it is read");
        for gap in [0, 1, 13] {
            let hunting = read_found(&shifted(&vec![true; gap], &image), 0, 16);
            assert_eq!(hunting.reading.answer, octets.answer);
            assert_eq!((hunting.reading.index, hunting.reading.report), (octets.index.clone(), octets.report.clone()));
            assert_eq!((hunting.outside, hunting.tested), (8 * gap.div_ceil(8) as u64, gap as u64 + 3));
        }
    }

    #[test]
    fn bits_outside_and_places_tested_are_counted() {
        let image = image(2);
        let (first, second) = image.split_at(144);
        let octets = [&INVERSE[..], first, &[0; 3], second, &[0; 20]].concat();
        assert_eq!(answered(&octets, 0, 16), Ok(vec![0, 0, 2, 47, 0, 1, 16 + 24 + 160, 17 + 25]));
        assert_eq!(answered(&octets, 10, 16), Ok(vec![0, 0, 2, 47, 0, 1, 6 + 24 + 160, 7 + 25]));
        let long = [&octets[..], &[0; 124]].concat();
        assert_eq!(answered(&long, 16, 16), Ok(vec![0, 0, 2, 47, 0, 1, 24 + 1152, 1 + 25 + 1]));
    }

    #[test]
    fn an_earlier_match_takes_the_bits_of_a_later_one() {
        let planted = [&SYNC[..], &encode(8).to_le_bytes(), &[0; 20]].concat();
        let octets = [&planted[..], &image(1), &[0; 4]].concat();
        assert_eq!(hunted(&octets, 0, 16), (Ok(0), 1));
        assert_eq!(hunted(&octets, 1, 16), (Ok(208), 208));
        let taken = read_found(&octets, 0, 16);
        assert_eq!((taken.reading.answer[2], taken.outside, taken.tested), (1, 30 * 8, 1));
        assert_eq!(answered(&octets, 1, 16), Ok(vec![0, 0, 1, 23, 0, 1, 207 + 32, 208]));
    }

    #[test]
    fn flips_in_the_sync_leave_no_note() {
        let mut octets = image(2);
        octets[0] ^= 0x0F;
        let hunting = read_found(&octets, 0, 12);
        assert_eq!((hunting.reading.answer, hunting.reading.report), ([0, 0, 2, 47, 0, 1], vec![0; 26]));
        assert_eq!(answered(&octets, 0, 13), Ok(vec![0, 0, 1, 23, 0, 1, 1152, 1153]));
    }

    /// What counts is what was found, not what was sent.
    #[test]
    fn an_only_multiframe_found_is_unsettled_by_default() {
        let mut octets = shifted(&[false; 5], &image(2));
        let both = Ok(vec![0, 0, 2, 47, 0, 1, 8, 7]);
        assert_eq!(answered_by(Rule::TwoHeaders, &octets, 0, 16), both);
        assert_eq!(answered(&octets, 0, 16), both);
        assert_eq!(answered_by(Rule::TwoHeaders, &octets, 6, 16), Err((16, 0)));
        assert_eq!(answered(&octets, 6, 16), Ok(vec![0, 0, 1, 23, 0, 1, 1154, 1152]));
        octets[1] ^= 1;
        assert_eq!(answered_by(Rule::TwoHeaders, &octets, 0, 16), Err((16, 0)));
        assert_eq!(answered_by(Rule::TwoHeaders, &octets, 0, 15), both);
    }

    #[test]
    fn a_match_after_255_multiframes() {
        let indices = [1; 168];
        let parts: Vec<u8> = (1..=256).flat_map(|position| multiframe(0, 0, position, &indices)).collect();
        let whole = &parts[..255 * 144];
        let cut = [&[0; 5], &parts[..256 * 144 - 1]].concat();
        assert_eq!(answered(whole, 0, 16), Ok(vec![0, 0, 255, 6120, 0, 0, 0, 255]));
        assert_eq!(answered(&cut, 0, 16), Ok(vec![0, 0, 255, 6120, 0, 0, 40 + 1144, 41 + 254]));
        assert_eq!(answered(&parts, 0, 16), Err((15, 255 * 1152)));
        let late = shifted(&[false; 7], &[whole, &[0; 9], &parts[255 * 144..]].concat());
        assert_eq!(answered(&late, 3, 16), Err((15, 7 + 255 * 1152 + 72)));
    }
}
