//! The scales of the chart: where a number stands, as a part of the way, and the numbers that are written there.
//!
//! The same chart has to come out on every machine. So logarithms are made of sums, products and quotients alone, which are exact to the
//! last bit by their standard; those of a system's library need not be.
use std::f64::consts::LN_10;

/// The scale across.
pub enum Across {
    /// Powers of ten, of these exponents.
    Powers { from: i32, to: i32 },
    /// Even, from 0 to this.
    Even { to: f64 },
}

impl Across {
    /// A scale of powers of ten for these rates, without those that are 0.
    pub fn powers(rates: impl Iterator<Item = f64>) -> Across {
        let rates: Vec<f64> = rates.filter(|rate| *rate > 0.0).collect();
        let from = rates.iter().map(|rate| exponent(*rate)).min().unwrap_or(-1);
        let to = rates.iter().map(|rate| next_exponent(*rate)).max().unwrap_or(0);
        Across::Powers { from, to: to.max(from + 1) }
    }

    /// An even scale for these shares, which ends at one of 1, 0.5, 0.2, 0.1, 0.05 and so on.
    pub fn even(shares: impl Iterator<Item = f64>) -> Across {
        let most = shares.fold(0.0, f64::max);
        let ends = (-4..=0).rev().flat_map(|exponent| [power(exponent), power(exponent) / 2.0, power(exponent) / 5.0]);
        Across::Even { to: ends.take_while(|end| *end >= most).last().unwrap_or(1.0) }
    }

    /// Where a rate stands, 0 to 1. On a scale of powers of ten there is no place for 0.
    pub fn part(&self, rate: f64) -> Option<f64> {
        match *self {
            Across::Even { to } => Some(rate / to),
            Across::Powers { from, to } => (rate > 0.0).then(|| part_of(rate, from, to)),
        }
    }

    /// The numbers that are written, and where.
    pub fn ticks(&self) -> Vec<(f64, String)> {
        match *self {
            Across::Even { to } => (0..=5).map(|fifth| f64::from(fifth) / 5.0).map(|part| (part, shown(part * to))).collect(),
            Across::Powers { from, to } => {
                (from..=to).map(|e| (step(e, from, to), format!("1e{e}").replace("1e0", "1"))).collect()
            }
        }
    }

    pub fn words(&self) -> &'static str {
        match self {
            Across::Even { .. } => "probability with which a pair is damaged",
            Across::Powers { .. } => "bit error rate (powers of ten)",
        }
    }
}

/// The scale of shares: powers of ten up to 100 percent.
pub struct Percent {
    from: i32,
}

/// The exponent of 100 percent as a share.
const WHOLE: i32 = 0;
/// The scale goes at least as far down as 0.1 percent.
const SHORTEST: i32 = -3;

impl Percent {
    /// A scale on which the smallest of these shares that is not 0 has its place.
    pub fn down_to(shares: impl Iterator<Item = f64>) -> Percent {
        let from = shares.filter(|share| *share > 0.0).map(exponent).min().unwrap_or(SHORTEST);
        Percent { from: from.min(SHORTEST) }
    }

    /// Where a share stands, 0 to 1; nowhere if it is 0.
    pub fn part(&self, share: f64) -> Option<f64> {
        (share > 0.0).then(|| part_of(share, self.from, WHOLE))
    }

    pub fn ticks(&self) -> Vec<(f64, String)> {
        let percent = |exponent: i32| format!("{} %", power(exponent + 2));
        (self.from..=WHOLE).map(|exponent| (step(exponent, self.from, WHOLE), percent(exponent))).collect()
    }
}

/// Four digits are enough for a tick, and hide that 0.6 has no exact place among such numbers.
fn shown(number: f64) -> String {
    let digits = format!("{number:.6}");
    digits.trim_end_matches('0').trim_end_matches('.').to_string()
}

fn step(exponent: i32, from: i32, to: i32) -> f64 {
    f64::from(exponent - from) / f64::from(to - from)
}

fn part_of(number: f64, from: i32, to: i32) -> f64 {
    (logarithm(number) - f64::from(from)) / f64::from(to - from)
}

/// A power of ten, as exact as it can be: reading a number is rounded rightly on every machine.
fn power(exponent: i32) -> f64 {
    format!("1e{exponent}").parse().expect("this is a number")
}

/// The exponent of the largest power of ten that is not above the number.
fn exponent(number: f64) -> i32 {
    (-324..=308).rev().find(|exponent| power(*exponent) <= number).unwrap_or(-324)
}

/// The exponent of the smallest power of ten that is not below the number.
fn next_exponent(number: f64) -> i32 {
    let below = exponent(number);
    if power(below) == number {
        below
    } else {
        below + 1
    }
}

/// The decimal logarithm of a number above 0: by the series of the inverse hyperbolic tangent, around the middle of a power of ten.
fn logarithm(number: f64) -> f64 {
    const MIDDLE: f64 = 3.162_277_660_168_379_5;
    const TERMS: u32 = 30;
    let exponent = exponent(number);
    let mantissa = number / power(exponent);
    let argument = (mantissa - MIDDLE) / (mantissa + MIDDLE);
    let (mut sum, mut odd_power) = (0.0, argument);
    for term in 0..TERMS {
        sum += odd_power / f64::from(2 * term + 1);
        odd_power *= argument * argument;
    }
    f64::from(exponent) + 0.5 + 2.0 * sum / LN_10
}

#[cfg(test)]
mod tests {
    use super::{exponent, logarithm, next_exponent, Across, Percent};

    #[test]
    fn logarithms_are_those_of_the_system() {
        for number in [1e-300, 1e-9, 3e-5, 1e-3, 0.002, 0.0999, 0.5, 1.0, 9.999, 10.0, 123_456.0] {
            assert!((logarithm(number) - f64::log10(number)).abs() < 1e-12, "{number}");
        }
        assert_eq!((exponent(1e-3), exponent(9.99e-4), next_exponent(1e-3), next_exponent(1.01e-3)), (-3, -4, -3, -2));
    }

    #[test]
    fn a_scale_holds_what_it_was_made_for() {
        let across = Across::powers([0.0, 1e-5, 3e-2].into_iter());
        assert_eq!(
            across.ticks().into_iter().map(|(_, words)| words).collect::<Vec<_>>(),
            ["1e-5", "1e-4", "1e-3", "1e-2", "1e-1"]
        );
        assert_eq!((across.part(0.0), across.part(1e-5).map(|part| (part * 1e6).round())), (None, Some(0.0)));
        let even = Across::even([0.0, 0.15].into_iter());
        assert_eq!(
            even.ticks().into_iter().map(|(_, words)| words).collect::<Vec<_>>(),
            ["0", "0.04", "0.08", "0.12", "0.16", "0.2"]
        );
        let percent = Percent::down_to([0.0, 2e-5, 1.0].into_iter());
        let ticks: Vec<_> = percent.ticks().into_iter().map(|(_, words)| words).collect();
        assert_eq!(ticks, ["0.001 %", "0.01 %", "0.1 %", "1 %", "10 %", "100 %"]);
    }
}
