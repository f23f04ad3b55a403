//! What docs/TRUST.md and README.md say in numbers, counted by calls of the library and set beside the numbers there.
mod gaps;
mod headers;
mod hunting;
mod packets;

use dsr::Error;

use super::table::aligned;
use crate::arguments::Arguments;
use crate::damage::{self, Chance};
use crate::failure::{Failure, Outcome, CLEAN, WARNED};
use crate::output;

/// A sample may lie so many standard deviations off what is expected: by chance one in millions does.
const DEVIATIONS: f64 = 5.0;

const TRUST: &str = "TRUST";
const README: &str = "README";
/// A number that no document has, but that one there was reckoned with.
const RECKONED: &str = "reckoned";

const LEGEND: &str = "\
by default, by name: whether the reader was asked to take the settings of an only header
sampled: drawn by chance, and as near to what is said as five standard deviations; all else was counted one by one, but that
1 in N is reckoned from the 65,536 syncs, counted, and the 529 words around each of 65,536 codewords that are read as it
";

/// Something that was counted, beside what a document says of it.
pub struct Finding {
    what: String,
    counted: String,
    said: String,
    place: &'static str,
    agrees: bool,
}

impl Finding {
    /// What was counted one by one has to be what is said, digit for digit.
    fn exact(what: impl Into<String>, counted: impl Into<String>, place: &'static str, said: &str) -> Finding {
        let counted = counted.into();
        let agrees = counted == said;
        Finding { what: what.into(), counted, said: said.to_string(), place, agrees }
    }

    /// What is said of all of a kind has to hold for each of those that were tried.
    fn all(what: impl Into<String>, (those, all): (u64, u64), place: &'static str) -> Finding {
        let counted = format!("{} of {}", grouped(those), grouped(all));
        Finding { what: what.into(), counted, said: "all".to_string(), place, agrees: those == all && all > 0 }
    }

    /// What was sampled has to lie near what is expected: `found` of `all`, where one in `one_in` is expected.
    fn sampled(what: impl Into<String>, (found, all): (u64, u64), one_in: f64, place: &'static str, said: &str) -> Finding {
        let (drawn, share) = (all as f64, 1.0 / one_in);
        let off = (found as f64 - drawn * share).abs();
        let agrees = off <= DEVIATIONS * (drawn * share * (1.0 - share)).sqrt();
        let counted = format!("{} of {}, sampled", grouped(found), grouped(all));
        Finding { what: what.into(), counted, said: said.to_string(), place, agrees }
    }

    fn cells(&self) -> Vec<String> {
        let verdict = if self.agrees { "agrees" } else { "DIFFERS" };
        [&self.what, &self.counted, &self.said, self.place, verdict].map(str::to_string).to_vec()
    }
}

/// dsr trial --trust.
pub fn run(arguments: &Arguments) -> Outcome<u8> {
    for other in ["utterances", "frames", "ber", "burst", "bounded", "spare-syncs", "shift", "match", "output"] {
        arguments.not_both("trust", other)?;
    }
    let seed = arguments.number("seed", damage::USUAL_SEED)?;
    let findings = all(seed).map_err(|refusal| Failure::refused("an utterance by chance", refusal))?;
    let head = ["what", "counted", "said", "where", ""].map(str::to_string).to_vec();
    let lines: Vec<Vec<String>> = [head].into_iter().chain(findings.iter().map(Finding::cells)).collect();
    let (end, status) = verdict(&findings);
    output::put_standard(format!("{}\n{LEGEND}seed {seed}: {end}\n", aligned(&lines, &[0, 1, 2, 3, 4])).as_bytes())?;
    Ok(status)
}

/// How many agree, and the exit status.
fn verdict(findings: &[Finding]) -> (String, u8) {
    let different = findings.iter().filter(|finding| !finding.agrees).count();
    let words = format!("{} agree, {different} differ", findings.len() - different);
    (words, if different == 0 { CLEAN } else { WARNED })
}

fn all(seed: u64) -> Result<Vec<Finding>, Error> {
    let mut random = damage::stream(seed, Chance::Trust);
    let mut findings = packets::findings(&mut random)?;
    findings.extend(headers::findings(&mut random)?);
    findings.extend(gaps::findings(&mut random)?);
    findings.extend(hunting::findings(&mut random));
    Ok(findings)
}

/// A number with commas between its thousands.
fn grouped(number: u64) -> String {
    let digits = number.to_string();
    let first = digits.len() % 3;
    let (head, rest) = digits.split_at(first);
    let threes = rest.as_bytes().chunks(3).map(|three| String::from_utf8_lossy(three).into_owned());
    [head.to_string()].into_iter().filter(|head| !head.is_empty()).chain(threes).collect::<Vec<_>>().join(",")
}

/// The same count of all, or the smallest and the largest if they differ.
fn of_all(counts: &[u64]) -> String {
    match (counts.iter().min(), counts.iter().max()) {
        (Some(least), Some(most)) if least == most => grouped(*most),
        (Some(least), Some(most)) => format!("{} to {}", grouped(*least), grouped(*most)),
        _ => "nothing".to_string(),
    }
}

/// All patterns of so many flips, 1 or more, in so many bits, below 64.
fn patterns(flips: u32, bits: u32) -> impl Iterator<Item = u64> {
    let first = (1u64 << flips) - 1;
    // the next larger number with as many ones
    let next = |pattern: &u64| {
        let lowest = pattern & pattern.wrapping_neg();
        let carried = pattern + lowest;
        Some(carried | (((carried ^ pattern) >> 2) / lowest))
    };
    std::iter::successors(Some(first), next).take_while(move |pattern| pattern >> bits == 0)
}

#[cfg(test)]
mod tests {
    use super::{grouped, of_all, patterns, verdict, Finding, TRUST};

    /// What differs is told, and changes the status.
    #[test]
    fn what_differs_is_told() {
        let right = Finding::exact("a", "237 of 4,186", TRUST, "237 of 4,186");
        let wrong = Finding::exact("a", "236 of 4,186", TRUST, "237 of 4,186");
        assert_eq!((right.cells()[4].as_str(), wrong.cells()[4].as_str()), ("agrees", "DIFFERS"));
        assert!(!Finding::all("a", (11, 12), TRUST).agrees && !Finding::all("a", (0, 0), TRUST).agrees);
        assert!(!Finding::sampled("a", (80_000, 1_200_000), 16.0, TRUST, "about 1 of 16").agrees);
        assert_eq!(verdict(&[right]), ("1 agree, 0 differ".to_string(), 0));
        assert_eq!(verdict(&[wrong]), ("0 agree, 1 differ".to_string(), 1));
    }

    #[test]
    fn numbers_are_grouped_by_thousands() {
        assert_eq!([0, 31, 465, 4186, 906_192, 8_119_031].map(grouped), ["0", "31", "465", "4,186", "906,192", "8,119,031"]);
        assert_eq!((of_all(&[237, 237]), of_all(&[25, 1026, 26])), ("237".to_string(), "25 to 1,026".to_string()));
    }

    #[test]
    fn patterns_are_all_and_each_once() {
        let counts: Vec<usize> = (1..=6).map(|flips| patterns(flips, 32).count()).collect();
        assert_eq!(counts, [32, 496, 4960, 35_960, 201_376, 906_192]);
        assert!(patterns(3, 10).all(|pattern| pattern.count_ones() == 3));
        assert_eq!(patterns(2, 3).collect::<Vec<_>>(), [0b011, 0b101, 0b110]);
    }

    #[test]
    fn a_difference_is_told() {
        assert!(!Finding::exact("it", "236 of 4,186", TRUST, "237 of 4,186").agrees);
        assert!(Finding::sampled("it", (62_900, 1_000_000), 16.0, TRUST, "1 of 16").agrees);
        assert!(!Finding::sampled("it", (64_000, 1_000_000), 16.0, TRUST, "1 of 16").agrees);
    }
}
