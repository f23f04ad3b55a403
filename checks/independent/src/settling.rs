//! Settings without the whole utterance, 02 C-11 and C-20. All multiframes are cut and all headers read first, and then it is asked how few
//! of them would have been enough: a version that stops where it has to gives the same.
use crate::header::{Code, Read};
use crate::reading::{common, cut_as_far_as_it_goes, header_of, refusal, Common, Rule};
use crate::writing::{Refusal, MULTIFRAME};

/// The answer's three numbers: rate, type, and the multiframes read.
pub type Settled = [u64; 3];

/// The place, from 0, of the first readable header that agrees in its common bits with an earlier readable one.
fn agreeing(headers: &[Read]) -> Option<(usize, Common)> {
    let commons: Vec<Option<Common>> = headers.iter().map(|header| header.map(|(message, _)| common(message))).collect();
    let agrees = |&k: &usize| commons[k].is_some() && commons[..k].contains(&commons[k]);
    (0..commons.len()).find(agrees).map(|k| (k, commons[k].expect("it is readable")))
}

/// The settings, or the refusal.
pub fn settle(code: &Code, octets: &[u8], rule: Rule) -> Result<Settled, Refusal> {
    let (parts, stopped) = cut_as_far_as_it_goes(octets);
    let headers: Vec<Read> = parts.iter().map(|part| header_of(code, part)).collect();
    if let Some((k, settings)) = agreeing(&headers) {
        return fit(settings, k + 1);
    }
    stopped?;
    match (rule, &headers[..]) {
        (_, []) => refusal(14, octets.len()),
        (Rule::OneHeaderSettles, [Some((message, 0))]) => fit(common(*message), 1),
        _ => refusal(16, 0),
    }
}

fn fit(settings: Common, multiframes: usize) -> Result<Settled, Refusal> {
    if settings.rate == 2 || settings.exp != 0 {
        return refusal(17, 0);
    }
    Ok([settings.rate as u64, settings.kind as u64, multiframes as u64])
}

/// How many octets there are up to the end of the multiframe whose header agrees with an earlier one, if one does: the others are not
/// looked at.
pub fn octets_looked_at(code: &Code, octets: &[u8]) -> Option<usize> {
    let (parts, _) = cut_as_far_as_it_goes(octets);
    let headers: Vec<Read> = parts.iter().map(|part| header_of(code, part)).collect();
    let (k, _) = agreeing(&headers)?;
    Some(parts[k].as_ptr() as usize - octets.as_ptr() as usize + MULTIFRAME)
}

#[cfg(test)]
mod tests {
    use super::*;
    use crate::header::encode;
    use crate::reading::{read, CODEBOOK, THRESHOLDS};
    use crate::writing::{multiframe, INVERSE, SYNC};

    const RULES: [Rule; 2] = [Rule::TwoHeaders, Rule::OneHeaderSettles];
    const LOST: u32 = 0x0101_0001; // 01 00 01 01: three from two codewords

    fn settled(octets: &[u8], rule: Rule) -> Result<Settled, (u32, u64)> {
        settle(&Code::new(), octets, rule).map_err(|refused| (refused.number, refused.place))
    }

    fn by_both(octets: &[u8], want: Result<Settled, (u32, u64)>) {
        for rule in RULES {
            assert_eq!(settled(octets, rule), want);
        }
    }

    /// One multiframe a header, whatever word it is.
    fn sent(headers: &[u32]) -> Vec<u8> {
        headers.iter().flat_map(|header| [&SYNC[..], &header.to_le_bytes(), &[0; 138]].concat()).collect()
    }

    /// Rate, type and expansion bits with a counter of 1, 2 and so on.
    fn messages(common: &[u16]) -> Vec<u8> {
        let headers: Vec<u32> = (1..).zip(common).map(|(counter, common): (u16, _)| encode(common | counter % 16 << 3)).collect();
        sent(&headers)
    }

    #[test]
    fn two_headers_settle() {
        for (common, settings) in [(0, [0, 0, 2]), (1, [1, 0, 2]), (3, [3, 0, 2]), (4, [0, 1, 2]), (5, [1, 1, 2]), (7, [3, 1, 2])] {
            by_both(&messages(&[common; 2]), Ok(settings));
            by_both(&messages(&[common; 9]), Ok(settings));
        }
        let written: Vec<u8> = (1..=255).flat_map(|position| multiframe(3, 1, position, &[1; 168])).collect();
        by_both(&written, Ok([3, 1, 2]));
        by_both(&written[..288], Ok([3, 1, 2]));
        by_both(&written[..287], Err((13, 144)));
    }

    #[test]
    fn the_first_that_agrees_with_any_earlier_one() {
        by_both(&messages(&[0, 1, 0, 1]), Ok([0, 0, 3]));
        by_both(&messages(&[0, 1, 1, 0]), Ok([1, 0, 3]));
        by_both(&messages(&[0, 1, 3, 1, 3]), Ok([1, 0, 4]));
        by_both(&messages(&[0, 1, 3, 4, 5, 0]), Ok([0, 0, 6]));
        by_both(&messages(&[0, 1, 3, 4, 5, 7]), Err((16, 0)));
    }

    #[test]
    fn mended_headers_count_and_lost_ones_do_not() {
        by_both(&sent(&[encode(8) ^ 1, encode(16) ^ 6]), Ok([0, 0, 2]));
        by_both(&sent(&[LOST, LOST]), Err((16, 0)));
        by_both(&sent(&[LOST, encode(8), LOST, encode(8)]), Ok([0, 0, 4]));
        by_both(&sent(&[encode(8), encode(16) ^ 7, encode(24)]), Ok([0, 0, 3]));
        by_both(&sent(&[encode(8), LOST]), Err((16, 0)));
    }

    #[test]
    fn refused_settings_at_once() {
        for common in [2, 6].into_iter().chain((7..16).map(|bit| 1 << bit)) {
            by_both(&messages(&[common; 2]), Err((17, 0)));
            by_both(&messages(&[common, common, 0, 0]), Err((17, 0)));
            by_both(&messages(&[0, common, 0]), Ok([0, 0, 3]));
            by_both(&[&messages(&[common; 2])[..], &[0]].concat(), Err((17, 0)));
        }
    }

    #[test]
    fn nothing_behind_the_settling_multiframe_matters() {
        let two = messages(&[1, 1]);
        for behind in [&[0][..], &[0x87], &[0x78], &[0x87, 0xB2], &[0x78, 0x4D, 0xFF], &messages(&[3, 3])[..200]] {
            by_both(&[&two[..], behind].concat(), Ok([1, 0, 2]));
        }
        by_both(&messages(&[1; 256]), Ok([1, 0, 2]));
        assert_eq!(octets_looked_at(&Code::new(), &messages(&[1; 256])), Some(288));
        assert_eq!(octets_looked_at(&Code::new(), &[&INVERSE[..], &messages(&[0, 1, 1, 1])].concat()), Some(434));
        assert_eq!(octets_looked_at(&Code::new(), &messages(&[1])), None);
    }

    #[test]
    fn what_comes_before_the_settling_multiframe_is_refused_as_by_the_reading() {
        let (one, two) = (messages(&[1]), messages(&[1, 1]));
        by_both(&[], Err((14, 0)));
        by_both(&INVERSE.repeat(3), Err((14, 6)));
        by_both(&[0x87], Err((13, 0)));
        by_both(&[0x78], Err((13, 0)));
        by_both(&[0x4D], Err((12, 0)));
        by_both(&[0x87, 0x4D], Err((12, 0)));
        by_both(&[&[0][..], &two].concat(), Err((12, 0)));
        by_both(&[&one[..], &[0], &one].concat(), Err((12, 144)));
        by_both(&[&one[..], &INVERSE, &one].concat(), Ok([1, 0, 2]));
        by_both(&[&one[..], &INVERSE, &one[..143]].concat(), Err((13, 146)));
    }

    #[test]
    fn an_only_multiframe() {
        let one = messages(&[1]);
        for (behind, asked) in [(&[][..], Ok([1, 0, 1])), (&INVERSE, Ok([1, 0, 1])), (&[0], Err((12, 144))), (&[0x78], Err((13, 144)))] {
            let octets = [&one[..], behind].concat();
            assert_eq!(settled(&octets, Rule::OneHeaderSettles), asked);
            assert_eq!(settled(&octets, Rule::TwoHeaders), asked.map_or_else(Err, |_| Err((16, 0))));
        }
        for flips in [1, 3, 7] {
            by_both(&sent(&[encode(8) ^ flips]), Err((16, 0)));
        }
        assert_eq!(settled(&messages(&[2]), Rule::TwoHeaders), Err((16, 0)));
        assert_eq!(settled(&messages(&[2]), Rule::OneHeaderSettles), Err((17, 0)));
        assert_eq!(settled(&messages(&[128]), Rule::OneHeaderSettles), Err((17, 0)));
    }

    #[test]
    fn after_255_multiframes() {
        let strangers: Vec<u16> = (1..=255).map(|exp| exp << 7).collect();
        let most = messages(&strangers);
        by_both(&most, Err((16, 0)));
        by_both(&[&most[..], &[0x87, 0xB2]].concat(), Err((15, 36720)));
        by_both(&[&most[..], &messages(&[1])].concat(), Err((15, 36720)));
        by_both(&[&most[..], &[0x87]].concat(), Err((13, 36720)));
        by_both(&messages(&[&[1], &strangers[..253], &[1, 1]].concat()), Ok([1, 0, 255]));
        by_both(&messages(&[&[1], &strangers[..254], &[1]].concat()), Err((15, 36720)));
    }

    /// As the text has it: whenever the full reading succeeds, the settings are its own.
    #[test]
    fn the_full_readings_settings() {
        for common in [[0, 0, 1, 1], [1, 0, 1, 0], [3, 4, 4, 3]] {
            let octets = messages(&common);
            for rule in RULES {
                let tables = (&[0; CODEBOOK][..], &[0; THRESHOLDS][..]);
                let full = read(&Code::new(), &octets, rule, tables, (4096, 4096)).ok().expect("it is read");
                assert_eq!(settled(&octets, rule).expect("it is settled")[..2], full.answer[..2]);
            }
        }
    }
}
