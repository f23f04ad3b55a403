//! The reader, 01 "Reading" and 02 C-12 and C-20.
use crate::header::{Code, Read};
use crate::stream::{frames_of, packets_of, right, FRAME, FRAMES, INDICES, PAIRS};
use crate::writing::{Refusal, INVERSE, MULTIFRAME, SYNC};

pub const MOST: usize = 255;
pub const REPORT: usize = 13;
pub const CODEBOOK: usize = 1280;
pub const THRESHOLDS: usize = 14;

/// By which rule settings are settled, 02 C-20.
#[derive(Clone, Copy, PartialEq, Debug)]
pub enum Rule {
    /// The default: an only multiframe is refused as unsettled.
    TwoHeaders,
    /// The old rule, which a caller may ask for.
    OneHeaderSettles,
}

/// What a successful reading gives: the six numbers of the answer, and the octets of both parts.
pub struct Reading {
    pub answer: [u64; 6],
    pub index: Vec<u8>,
    pub report: Vec<u8>,
}

pub(crate) fn refusal<T>(number: u32, place: usize) -> Result<T, Refusal> {
    Err(Refusal { number, place: place as u64 })
}

/// The multiframes of the octets as far as cutting goes, and what stops it before their end.
pub(crate) fn cut_as_far_as_it_goes(octets: &[u8]) -> (Vec<&[u8]>, Result<(), Refusal>) {
    let mut parts = vec![];
    let mut rest = octets;
    while !rest.is_empty() {
        let place = octets.len() - rest.len();
        if rest.starts_with(&SYNC) {
            if parts.len() == MOST {
                return (parts, refusal(15, place));
            }
            if rest.len() < MULTIFRAME {
                return (parts, refusal(13, place));
            }
            let (part, more) = rest.split_at(MULTIFRAME);
            parts.push(part);
            rest = more;
        } else if let Some(more) = rest.strip_prefix(&INVERSE) {
            rest = more;
        } else if rest.len() == 1 && (rest[0] == SYNC[0] || rest[0] == INVERSE[0]) {
            return (parts, refusal(13, place));
        } else {
            return (parts, refusal(12, place));
        }
    }
    (parts, Ok(()))
}

/// The multiframes of the octets.
fn cut(octets: &[u8]) -> Result<Vec<&[u8]>, Refusal> {
    let (parts, stopped) = cut_as_far_as_it_goes(octets);
    stopped.map(|()| parts)
}

pub(crate) fn header_of(code: &Code, multiframe: &[u8]) -> Read {
    code.read(u32::from_le_bytes(multiframe[2..6].try_into().unwrap()))
}

/// A message's common bits: everything but the counter.
#[derive(Clone, Copy, PartialEq)]
pub(crate) struct Common {
    pub(crate) rate: u16,
    pub(crate) kind: u16,
    pub(crate) exp: u16,
}

pub(crate) fn common(message: u16) -> Common {
    Common { rate: message % 4, kind: message / 4 % 2, exp: message / 128 }
}

fn counter(message: u16) -> usize {
    (message / 8 % 16) as usize
}

fn settled(headers: &[Read], rule: Rule) -> Option<Common> {
    let mut seen: Vec<Common> = vec![];
    for message in headers.iter().flatten().map(|&(message, _)| message) {
        if seen.contains(&common(message)) {
            return Some(common(message));
        }
        seen.push(common(message));
    }
    match (rule, headers) {
        (Rule::OneHeaderSettles, [Some((message, 0))]) => Some(common(*message)),
        _ => None,
    }
}

/// The refusals of codebook and thresholds: 11, and then 10.
pub(crate) fn fit_tables((codebook, thresholds): (&[i32], &[i32])) -> Result<(), Refusal> {
    if codebook.len() != CODEBOOK || thresholds.len() != THRESHOLDS {
        return refusal(11, 0);
    }
    match (0..THRESHOLDS).find(|&number| thresholds[number] < 0) {
        Some(number) => refusal(10, number),
        None => Ok(()),
    }
}

type Frame = [u8; FRAME];

/// Whether at least two of the seven index pairs are flagged: by 02 C-12 a fall counts as much as a rise.
pub(crate) fn inconsistent(pair: &(Frame, Frame), codebook: &[i32], thresholds: &[i32]) -> bool {
    let value = |c: usize, index: u8, element: usize| {
        let start = if c == 6 { 768 } else { 128 * c };
        codebook[start + 2 * index as usize + element] as i64
    };
    let apart = |c: usize, e: usize| (value(c, pair.1[c], e) - value(c, pair.0[c], e)).abs();
    let exceeds = |c: usize, e: usize| apart(c, e) > thresholds[2 * c + e] as i64;
    (0..FRAME).filter(|&c| exceeds(c, 0) || exceeds(c, 1)).count() >= 2
}

/// The note of each pair: 0 good, 1 CRC failed, 2 bad otherwise.
fn judge(packets: &[u128], codebook: &[i32], thresholds: &[i32]) -> Vec<u8> {
    let failed: Vec<bool> = packets.iter().map(|&p| !right(p)).collect();
    let mut before_bad = false;
    let mut notes = vec![];
    for (p, &packet) in packets.iter().enumerate() {
        let next_failed = failed.get(p + 1) == Some(&true);
        let note = if failed[p] {
            1
        } else if inconsistent(&frames_of(packet), codebook, thresholds) && (next_failed || before_bad) {
            2
        } else {
            0
        };
        before_bad = note != 0;
        notes.push(note);
    }
    notes
}

/// Each frame of a bad pair by its distance from the good frames on both sides: the nearer one is taken, and the one that exists.
fn replaced(frames: &[Frame], notes: &[u8]) -> Vec<Frame> {
    let good = |f: &usize| notes[f / 2] == 0;
    (0..frames.len())
        .map(|f| {
            let before = (0..f).rev().find(good);
            let after = (f + 1..frames.len()).find(good);
            let from = match (good(&f), before, after) {
                (true, _, _) => f,
                (_, Some(b), Some(a)) => if f - b < a - f { b } else { a },
                (_, Some(b), None) => b,
                (_, None, Some(a)) => a,
                (_, None, None) => unreachable!("every pair bad is refused before"),
            };
            frames[from]
        })
        .collect()
}

fn header_note(header: &Read, position: usize, settled: Common) -> u8 {
    let Some((message, flips)) = *header else { return 3 };
    let mut note = flips as u8;
    if counter(message) != position % 16 {
        note += 4;
    }
    if common(message) != settled {
        note += 8;
    }
    note
}

/// The reading, or the refusal; `tables` are codebook and thresholds, `rooms` those of the index and the report buffer.
pub fn read(code: &Code, octets: &[u8], rule: Rule, tables: (&[i32], &[i32]), rooms: (usize, usize)) -> Result<Reading, Refusal> {
    let ((codebook, thresholds), (index, report)) = (tables, rooms);
    fit_tables(tables)?;
    let parts = cut(octets)?;
    let m = parts.len();
    if m == 0 {
        return refusal(14, octets.len());
    }
    let headers: Vec<Read> = parts.iter().map(|part| header_of(code, part)).collect();
    let Some(settings) = settled(&headers, rule) else { return refusal(16, 0) };
    if settings.rate == 2 || settings.exp != 0 {
        return refusal(17, 0);
    }
    if index < INDICES * m {
        return refusal(18, INDICES * m);
    }
    if report < REPORT * m {
        return refusal(19, REPORT * m);
    }
    let packets: Vec<u128> = parts.iter().flat_map(|part| packets_of(&part[6..])).collect();
    let notes = judge(&packets, codebook, thresholds);
    let bad = notes.iter().filter(|&&note| note != 0).count();
    if bad == notes.len() {
        return refusal(20, 0);
    }
    let received: Vec<Frame> = packets.iter().flat_map(|&p| [frames_of(p).0, frames_of(p).1]).collect();
    let frames = replaced(&received, &notes);
    let speech = (0..FRAMES).rev().find(|i| frames[FRAMES * (m - 1) + i] != [0; FRAME]).map_or(0, |i| i + 1);
    let end = frames[FRAMES * m - 1] == [0; FRAME];
    let octets_of = |k: usize| [&[header_note(&headers[k], k + 1, settings)], &notes[PAIRS * k..][..PAIRS]].concat();
    Ok(Reading {
        answer: [settings.rate as u64, settings.kind as u64, m as u64, (FRAMES * (m - 1) + speech) as u64, bad as u64, end as u64],
        index: frames.concat(),
        report: (0..m).flat_map(octets_of).collect(),
    })
}

#[cfg(test)]
mod tests {
    use super::*;
    use crate::header::encode;
    use crate::writing::{multiframe, write};
    use std::sync::LazyLock;

    static CODE: LazyLock<Code> = LazyLock::new(Code::new);

    const TABLES: (&[i32], &[i32]) = (&[0; CODEBOOK], &[0; THRESHOLDS]);
    const ROOMS: (usize, usize) = (1 << 16, 1 << 16);
    const RULES: [Rule; 2] = [Rule::TwoHeaders, Rule::OneHeaderSettles];

    fn answered(octets: &[u8], rule: Rule, rooms: (usize, usize)) -> Result<[u64; 6], (u32, u64)> {
        match read(&CODE, octets, rule, TABLES, rooms) {
            Ok(reading) => Ok(reading.answer),
            Err(refused) => Err((refused.number, refused.place)),
        }
    }

    /// An image of m multiframes, 8 kHz, standard front end; every frame but the last is 1, 2, 3, 4, 5, 6, 7.
    fn image(m: usize) -> Vec<u8> {
        write(0, 0, &[1, 2, 3, 4, 5, 6, 7].repeat(24 * m - 1), 144 * m).ok().expect("it is written")
    }

    fn with_header(mut image: Vec<u8>, k: usize, header: u32) -> Vec<u8> {
        image[MULTIFRAME * k + SYNC.len()..][..4].copy_from_slice(&header.to_le_bytes());
        image
    }

    #[test]
    fn an_only_multiframe_settles_if_asked_for() {
        let among = [&INVERSE.repeat(2)[..], &image(1), &INVERSE.repeat(80)].concat();
        for octets in [image(1), among] {
            assert_eq!(answered(&octets, Rule::TwoHeaders, ROOMS), Err((16, 0)));
            assert_eq!(answered(&octets, Rule::OneHeaderSettles, ROOMS), Ok([0, 0, 1, 23, 0, 1]));
        }
    }

    #[test]
    fn an_only_header_that_is_no_codeword_never_settles() {
        for flips in [1, 3, 7] {
            for rule in RULES {
                assert_eq!(answered(&with_header(image(1), 0, encode(8) ^ flips), rule, ROOMS), Err((16, 0)));
            }
        }
    }

    #[test]
    fn the_rule_says_nothing_of_two_multiframes() {
        let lost = encode(16) ^ 7;
        for rule in RULES {
            assert_eq!(answered(&image(2), rule, ROOMS), Ok([0, 0, 2, 47, 0, 1]));
            assert_eq!(answered(&with_header(image(2), 1, encode(16) ^ 3), rule, ROOMS), Ok([0, 0, 2, 47, 0, 1]));
            assert_eq!(answered(&with_header(image(2), 1, encode(17)), rule, ROOMS), Err((16, 0)));
            assert_eq!(answered(&with_header(image(2), 1, lost), rule, ROOMS), Err((16, 0)));
            assert_eq!(answered(&with_header(image(2), 0, lost), rule, ROOMS), Err((16, 0)));
        }
    }

    #[test]
    fn unsettled_comes_before_settings_and_rooms() {
        let forbidden = with_header(image(1), 0, encode(8 | 2));
        assert_eq!(answered(&forbidden, Rule::TwoHeaders, (0, 0)), Err((16, 0)));
        assert_eq!(answered(&forbidden, Rule::OneHeaderSettles, (0, 0)), Err((17, 0)));
        assert_eq!(answered(&image(1), Rule::TwoHeaders, (167, 12)), Err((16, 0)));
        assert_eq!(answered(&image(1), Rule::OneHeaderSettles, (167, 12)), Err((18, 168)));
        assert_eq!(answered(&image(1), Rule::OneHeaderSettles, (168, 12)), Err((19, 13)));
    }

    /// Codebooks in which index 1 stands for `low` and index 2 for `high` in the elements named, and all else for 0.
    fn codebook(elements: &[(usize, usize)], low: i32, high: i32) -> Vec<i32> {
        let mut numbers = vec![0; CODEBOOK];
        for &(c, e) in elements {
            let start = if c == 6 { 768 } else { 128 * c };
            (numbers[start + 2 + e], numbers[start + 4 + e]) = (low, high);
        }
        numbers
    }

    /// The first notes of two multiframes whose first pair goes from index `first` to index `second` throughout; the second pair's CRC fails.
    fn first_notes(first: u8, second: u8, codebook: &[i32], thresholds: &[i32]) -> Vec<u8> {
        let frames: Vec<u8> = [[first; FRAME], [second; FRAME]].concat().into_iter().chain([1; 46 * FRAME - 7]).collect();
        let mut octets = write(0, 0, &frames, 288).ok().expect("it is written");
        octets[18] ^= 1;
        let notes = read(&CODE, &octets, Rule::TwoHeaders, (codebook, thresholds), ROOMS).ok().expect("it is read").report;
        notes[1..4].to_vec()
    }

    const BAD: [u8; 3] = [2, 1, 0];
    const GOOD: [u8; 3] = [0, 1, 0];

    /// By either way of two elements of two index pairs.
    fn both_ways(low: i32, high: i32, threshold: i32, want: [u8; 3]) {
        for elements in [[(0, 0), (6, 1)], [(6, 0), (5, 1)], [(1, 1), (2, 1)]] {
            let numbers = codebook(&elements, low, high);
            let mut thresholds = [0; THRESHOLDS];
            elements.iter().for_each(|(c, e)| thresholds[2 * c + e] = threshold);
            for (first, second) in [(1, 2), (2, 1)] {
                assert_eq!(first_notes(first, second, &numbers, &thresholds), want, "{low} {high} {threshold} from {first}");
            }
        }
    }

    #[test]
    fn a_fall_flags_like_a_rise() {
        both_ways(0, 11, 10, BAD);
        both_ways(-5, 6, 10, BAD);
        both_ways(-11, 0, 10, BAD);
        both_ways(0, 1, 0, BAD);
    }

    #[test]
    fn what_equals_the_threshold_passes() {
        both_ways(0, 10, 10, GOOD);
        both_ways(-5, 5, 10, GOOD);
        both_ways(7, 7, 0, GOOD);
        both_ways(0, i32::MAX, i32::MAX, GOOD);
        both_ways(-i32::MAX, 0, i32::MAX, GOOD);
        both_ways(i32::MIN, -1, i32::MAX, GOOD);
    }

    #[test]
    fn the_exact_difference_has_33_bits() {
        for threshold in [0, 1, i32::MAX - 1, i32::MAX] {
            both_ways(i32::MIN, i32::MAX, threshold, BAD);
            both_ways(i32::MIN, i32::MAX - 1, threshold, BAD);
            both_ways(i32::MIN, 0, threshold, BAD);
            both_ways(-1, i32::MAX, threshold, BAD);
        }
        both_ways(i32::MIN + 1, 0, i32::MAX - 1, BAD);
        both_ways(0, i32::MAX, i32::MAX - 1, BAD);
    }

    /// A fall of one index pair and a rise of another are two that are flagged; either alone is not enough, be it of both elements.
    #[test]
    fn a_fall_and_a_rise_are_two() {
        let mut numbers = codebook(&[(3, 0)], 0, 11);
        assert_eq!(first_notes(1, 2, &numbers, &[10; THRESHOLDS]), GOOD);
        assert_eq!(first_notes(2, 1, &numbers, &[10; THRESHOLDS]), GOOD);
        numbers[768 + 2 + 1] = 11;
        assert_eq!(first_notes(1, 2, &numbers, &[10; THRESHOLDS]), BAD);
        assert_eq!(first_notes(2, 1, &numbers, &[10; THRESHOLDS]), BAD);
        let mut one = codebook(&[(3, 0)], 0, 11);
        one[3 * 128 + 2 + 1] = 11;
        assert_eq!(first_notes(1, 2, &one, &[10; THRESHOLDS]), GOOD);
        assert_eq!(first_notes(2, 1, &one, &[10; THRESHOLDS]), GOOD);
    }

    fn refused_with(octets: &[u8], tables: (&[i32], &[i32]), rooms: (usize, usize)) -> (u32, u64) {
        let by = |rule| read(&CODE, octets, rule, tables, rooms).err().map(|refused| (refused.number, refused.place));
        let [two, one] = RULES.map(by);
        assert_eq!(two, one);
        two.expect("it is refused")
    }

    #[test]
    fn the_first_negative_threshold_is_the_place() {
        for value in [-1, -2, i32::MIN + 1, i32::MIN] {
            for first in 0..THRESHOLDS {
                let mut thresholds = [0; THRESHOLDS];
                thresholds[first] = value;
                assert_eq!(refused_with(&image(2), (&[0; CODEBOOK], &thresholds), ROOMS), (10, first as u64));
                for second in first + 1..THRESHOLDS {
                    for other in [-1, i32::MIN] {
                        thresholds = [i32::MAX; THRESHOLDS];
                        (thresholds[first], thresholds[second]) = (value, other);
                        assert_eq!(refused_with(&image(2), (&[7; CODEBOOK], &thresholds), ROOMS), (10, first as u64));
                    }
                }
            }
        }
        assert_eq!(answered(&image(2), Rule::TwoHeaders, ROOMS), Ok([0, 0, 2, 47, 0, 1]));
    }

    /// Wrong lengths come before it, and all else behind it: what begins nothing known, what is cut, nothing, too much, what is not settled
    /// or refused settings, short rooms, all pairs bad.
    #[test]
    fn a_negative_threshold_comes_after_lengths_and_before_cutting() {
        let negative: (&[i32], &[i32]) = (&[0; CODEBOOK], &[-1; THRESHOLDS]);
        for (short, right) in [(CODEBOOK - 1, THRESHOLDS), (CODEBOOK + 1, THRESHOLDS), (CODEBOOK, THRESHOLDS - 1), (CODEBOOK, THRESHOLDS + 1)] {
            assert_eq!(refused_with(&[], (&vec![0; short], &vec![-1; right]), (0, 0)), (11, 0));
        }
        let too_many: Vec<u8> = (1..=256).flat_map(|position| multiframe(0, 0, position, &[1; INDICES])).collect();
        let unsettled = with_header(image(2), 1, encode(17));
        let unfit = with_header(with_header(image(2), 0, encode(8 | 2)), 1, encode(16 | 2));
        let mut all_bad = image(2);
        (0..2 * PAIRS).for_each(|q| all_bad[MULTIFRAME * (q / PAIRS) + 6 + 23 * (q % PAIRS) / 2 + 1] ^= 1);
        let refused = [(&[0][..], 12), (&[0x87], 13), (&[], 14), (&too_many, 15), (&unsettled, 16), (&unfit, 17), (&all_bad, 20)];
        for (octets, number) in refused {
            assert_eq!(refused_with(octets, TABLES, ROOMS).0, number);
            assert_eq!(refused_with(octets, negative, ROOMS), (10, 0));
        }
        for (rooms, number) in [((335, 26), 18), ((336, 25), 19)] {
            assert_eq!(refused_with(&image(2), TABLES, rooms).0, number);
            assert_eq!(refused_with(&image(2), negative, rooms), (10, 0));
        }
    }
}
