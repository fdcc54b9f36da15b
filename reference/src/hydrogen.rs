//! "Hydrogen": the unit u, the true hydrogen H and its floor h.

use crate::big::Big;
use crate::numbers::{LEAST_PH, MOST_PH};
use crate::refusals::{require, Refusal, PH};
use std::sync::OnceLock;

/// "pH in hundredths, called p, 200 to 1,000."
#[derive(Clone, Copy, Debug, PartialEq, Eq)]
pub struct Ph(u32);

/// How many p there are.
const EVERY_PH: usize = (MOST_PH - LEAST_PH + 1) as usize;

/// What `floor` found before, one place for each p: computed when first
/// needed and never written down.
static FOUND: [OnceLock<u64>; EVERY_PH] = [const { OnceLock::new() }; EVERY_PH];

impl Ph {
    pub fn new(hundredths: u32) -> Result<Ph, Refusal> {
        require((LEAST_PH..=MOST_PH).contains(&hundredths), PH)?;
        Ok(Ph(hundredths))
    }

    pub fn hundredths(self) -> u32 {
        self.0
    }

    /// "Where p is a multiple of 100, H is h exactly."
    pub fn has_whole_hydrogen(self) -> bool {
        self.0 % 100 == 0
    }

    /// The floor h of hydrogen, in u.
    pub fn floor(self) -> u64 {
        *FOUND[(self.0 - LEAST_PH) as usize].get_or_init(|| search_floor(self))
    }

    /// 10^(1500 − p), the hundredth power of H.
    fn hundredth_power(self) -> Big {
        Big::new(10).power(1_500 - self.0)
    }

    /// "H is at most the fraction A/B exactly when A isn't negative and
    /// 10^(1500−p) × B^100 is at most A^100."
    pub fn hydrogen_is_at_most(self, numerator: i128, denominator: u128) -> bool {
        numerator >= 0
            && self.hundredth_power().times(&hundredth(denominator))
                <= hundredth(numerator.unsigned_abs())
    }

    /// "H is at least A/B exactly when A is negative or 10^(1500−p) × B^100
    /// is at least A^100."
    pub fn hydrogen_is_at_least(self, numerator: i128, denominator: u128) -> bool {
        numerator < 0
            || self.hundredth_power().times(&hundredth(denominator))
                >= hundredth(numerator.unsigned_abs())
    }
}

fn hundredth(base: u128) -> Big {
    Big::new(base).power(100)
}

/// "Its floor h is the greatest whole number whose hundredth power is at most
/// 10^(1500−p)." As p is at least 200, that is at most 10^13: (10^13)^100 is
/// 10^1300.
fn search_floor(ph: Ph) -> u64 {
    ph.hundredth_power().root(100, 10_000_000_000_001)
}

#[cfg(test)]
mod tests {
    use super::*;

    fn floor(p: u32) -> Result<u64, Refusal> {
        Ph::new(p).map(Ph::floor)
    }

    #[test]
    fn proved_cases_1_to_3() {
        assert_eq!(floor(600), Ok(1_000_000_000));
        assert_eq!(floor(530), Ok(5_011_872_336));
        assert_eq!(floor(999), Ok(102_329));
    }

    #[test]
    fn floors_at_multiples_of_100_are_powers_of_ten() {
        for hundreds in 2..=10u32 {
            assert_eq!(floor(100 * hundreds), Ok(10u64.pow(15 - hundreds)));
        }
    }

    /// Document 02 (iv): "each hundred further divides by ten once more,
    /// rounded down". Each floor here is found by itself.
    #[test]
    fn each_hundred_further_divides_by_ten() {
        for first in LEAST_PH..LEAST_PH + 100 {
            let Ok(mut divided) = floor(first) else {
                panic!("p {first}")
            };
            for p in (first + 100..=MOST_PH).step_by(100) {
                divided /= 10;
                assert_eq!(floor(p), Ok(divided), "p {p}");
            }
        }
    }

    #[test]
    fn hydrogen_lies_from_its_floor_to_below_the_next() {
        for p in LEAST_PH..=MOST_PH {
            let Ok(ph) = Ph::new(p) else { panic!("p {p}") };
            let h = i128::from(ph.floor());
            assert!(ph.hydrogen_is_at_least(h, 1));
            assert!(!ph.hydrogen_is_at_least(h + 1, 1));
            assert_eq!(ph.hydrogen_is_at_most(h, 1), p % 100 == 0);
        }
    }

    #[test]
    fn ph_has_its_range() {
        for p in [0, LEAST_PH - 1, MOST_PH + 1, u32::MAX] {
            assert_eq!(floor(p), Err(PH));
        }
    }
}
