//! "A reading": missing, measured with its float, or below with its
//! quantification limit.

use crate::numbers::{MOST_MILLIGRAMS, PER_MILLIGRAM};
use crate::ranges::Range;
use crate::refusals::{require, Refusal, READING};
use std::cmp::Ordering;

/// The exact value of a float that is finite and has no sign bit:
/// mantissa × 2^exponent, the mantissa below 2^24.
#[derive(Clone, Copy, Debug, PartialEq, Eq)]
struct Exact {
    mantissa: u128,
    exponent: i32,
}

/// "from 2^−10 (0x3A800000)"
const LEAST_LIMIT: Exact = Exact {
    mantissa: 1,
    exponent: -10,
};

/// "to 200"
const GREATEST: Exact = Exact {
    mantissa: MOST_MILLIGRAMS as u128,
    exponent: 0,
};

impl Exact {
    /// "A set sign bit (minus zero too), an infinity or a NaN is refused."
    fn from_bits(bits: u32) -> Result<Exact, Refusal> {
        let sign = bits >> 31;
        let field = (bits >> 23) & 0xFF;
        let fraction = u128::from(bits & 0x7F_FFFF);
        require(sign == 0 && field != 0xFF, READING)?;
        Ok(match field {
            0 => Exact {
                mantissa: fraction,
                exponent: -149,
            },
            _ => Exact {
                mantissa: (1 << 23) + fraction,
                exponent: field as i32 - 150,
            },
        })
    }

    /// Compares two exact values by writing both over the smaller power of 2.
    fn compare(self, other: Exact) -> Ordering {
        if self.exponent < other.exponent {
            return other.compare(self).reverse();
        }
        // A mantissa is below 2^24: moved by 100 places it still fits into 128
        // bits, and unless it is 0 it is then above every mantissa already.
        let places = (self.exponent - other.exponent).min(100);
        (self.mantissa << places).cmp(&other.mantissa)
    }

    /// "A below reading counts as half its limit."
    fn half(self) -> Exact {
        Exact {
            mantissa: self.mantissa,
            exponent: self.exponent - 1,
        }
    }

    /// "Amounts become tenths of a µg/L, still nearest with a tie up" (document
    /// 02 (i)), from "the exact value of the float": the whole part of 10,000
    /// times the value plus a half.
    fn amount(self) -> u32 {
        // Up to 200 a float's exponent is −16 or less. 20,000 times a mantissa
        // is below 2^39, so from 2^39 on the denominator makes the amount 0,
        // and one of 2^100 stands for all the greater ones.
        let places = (-self.exponent).clamp(0, 100);
        let denominator = 1u128 << places;
        let twice = 2 * u128::from(PER_MILLIGRAM) * self.mantissa + denominator;
        (twice / (2 * denominator)) as u32
    }
}

/// A float together with its bits.
#[derive(Clone, Copy, Debug, PartialEq, Eq)]
pub struct Float {
    bits: u32,
    value: Exact,
}

impl Float {
    fn new(bits: u32) -> Result<Float, Refusal> {
        Exact::from_bits(bits).map(|value| Float { bits, value })
    }

    pub fn bits(self) -> u32 {
        self.bits
    }

    /// By the exact values.
    pub fn is_less_than(self, other: Float) -> bool {
        self.value.compare(other.value) == Ordering::Less
    }
}

/// "It is one of three."
#[derive(Clone, Copy, Debug, PartialEq, Eq)]
pub enum Reading {
    Missing,
    Measured(Float),
    Below(Float),
}

impl Reading {
    /// "Mark 1 is measured, from 0 to 200."
    pub fn measured(bits: u32) -> Result<Reading, Refusal> {
        let float = Float::new(bits)?;
        require(float.value.compare(GREATEST).is_le(), READING)?;
        Ok(Reading::Measured(float))
    }

    /// "Mark 2 is below, and the limit is from 2^−10 (0x3A800000) to 200."
    pub fn below(bits: u32) -> Result<Reading, Refusal> {
        let float = Float::new(bits)?;
        require(float.value.compare(LEAST_LIMIT).is_ge(), READING)?;
        require(float.value.compare(GREATEST).is_le(), READING)?;
        Ok(Reading::Below(float))
    }

    /// The reading that a mark and the bits of a float are. "Mark 0 is
    /// missing, and its second word is 0."
    pub fn from_words(mark: u32, bits: u32) -> Result<Reading, Refusal> {
        match (mark, bits) {
            (0, 0) => Ok(Reading::Missing),
            (1, _) => Reading::measured(bits),
            (2, _) => Reading::below(bits),
            _ => Err(READING),
        }
    }

    /// "The analyser itself holds a float value and a float limit for each
    /// reading: a value under its limit becomes below with that limit, any
    /// other becomes measured; a value or limit outside its range above gives
    /// 7." Both are tested always.
    pub fn from_analyser(value_bits: u32, limit_bits: u32) -> Result<Reading, Refusal> {
        let measured = Reading::measured(value_bits)?;
        let below = Reading::below(limit_bits)?;
        if Float::new(value_bits)?.is_less_than(Float::new(limit_bits)?) {
            Ok(below)
        } else {
            Ok(measured)
        }
    }

    pub fn is_missing(self) -> bool {
        self == Reading::Missing
    }

    /// The amount in whole tenths of a µg/L, or nothing where the reading is
    /// missing. Half a limit is rounded once, after halving: "The DOC line of
    /// runoff and docket agreement still use the half" (document 02 (vi)).
    pub fn amount(self) -> Option<u32> {
        match self {
            Reading::Missing => None,
            Reading::Measured(float) => Some(float.value.amount()),
            Reading::Below(limit) => Some(limit.value.half().amount()),
        }
    }

    /// All the amounts that the four checks take it for, or nothing where the
    /// reading is missing. The limit is rounded as a measured value is; twice
    /// the half's amount may be another.
    pub fn range(self) -> Option<Range> {
        match self {
            Reading::Missing => None,
            Reading::Measured(float) => Some(Range::of_measured(float.value.amount())),
            Reading::Below(limit) => Some(Range::up_to(limit.value.amount())),
        }
    }

    /// The mark and the bits that a record has for this reading.
    pub fn words(self) -> (u32, u32) {
        match self {
            Reading::Missing => (0, 0),
            Reading::Measured(float) => (1, float.bits),
            Reading::Below(limit) => (2, limit.bits),
        }
    }
}

#[cfg(test)]
mod tests {
    use super::*;
    use crate::numbers::{
        LEAST_BELOW, LEAST_LIMIT_BITS, MOST_AMOUNT, MOST_BELOW, MOST_BITS, MOST_MILLIGRAMS,
    };

    fn measured_amount(bits: u32) -> Result<Option<u32>, Refusal> {
        Reading::measured(bits).map(Reading::amount)
    }

    fn below_amount(bits: u32) -> Result<Option<u32>, Refusal> {
        Reading::below(bits).map(Reading::amount)
    }

    #[test]
    fn proved_case_4_is_whole_and_a_tie_goes_up() {
        // 1/16 mg/L is 625 tenths of a µg/L, 1/32 is 312 and a half.
        for bits in [0x3D7F_FFFF, 0x3D80_0000, 0x3D80_0001] {
            assert_eq!(measured_amount(bits), Ok(Some(625)));
        }
        assert_eq!(measured_amount(0x3D00_0000), Ok(Some(313)));
        assert_eq!(measured_amount(0x3CFF_FFFF), Ok(Some(312)));
        assert_eq!(measured_amount(0x3D00_0001), Ok(Some(313)));
    }

    /// j / parts mg/L for every odd j up to 200 mg/L: floats whose amount is a
    /// tie between whole numbers, 625 × j / 2.
    fn ties_go_up(amount: fn(u32) -> Result<Option<u32>, Refusal>, parts: u32) {
        for j in (1..MOST_MILLIGRAMS * parts).step_by(2) {
            let tie = (j as f32 / parts as f32).to_bits();
            let up = (625 * j).div_ceil(2);
            assert_eq!(amount(tie), Ok(Some(up)));
            assert_eq!(amount(tie - 1), Ok(Some(up - 1)));
            assert_eq!(amount(tie + 1), Ok(Some(up)));
        }
    }

    #[test]
    fn every_tie_goes_up() {
        // 10,000 / 32 is 625 / 2.
        ties_go_up(measured_amount, 32);
    }

    #[test]
    fn half_a_limit_is_rounded_once() {
        // Half of j/16 is j/32.
        ties_go_up(below_amount, 16);
        // Half of 312.6 tenths is 156.3; rounded to 313 first, it would be a tie.
        let limit = 0.031_26f32.to_bits();
        assert_eq!(measured_amount(limit), Ok(Some(313)));
        assert_eq!(below_amount(limit), Ok(Some(156)));
    }

    fn below_range(bits: u32) -> Result<Option<Range>, Refusal> {
        Reading::below(bits).map(Reading::range)
    }

    #[test]
    fn a_range_reaches_from_0_to_the_limit_s_own_amount() {
        for bits in [LEAST_LIMIT_BITS, 0x3D00_0000, 0.25f32.to_bits(), MOST_BITS] {
            let limit = measured_amount(bits).map(|amount| amount.map(Range::up_to));
            assert_eq!(below_range(bits), limit);
        }
        // 2^−10 mg/L is 9.765625 tenths of a µg/L, and twice its half's amount 10.
        assert_eq!(below_range(LEAST_LIMIT_BITS), Ok(Some(Range::up_to(10))));
        assert_eq!(below_range(MOST_BITS), Ok(Some(Range::up_to(MOST_AMOUNT))));
    }

    /// (limit in tenths of a µg/L, its amount, its half's amount): the half of an
    /// odd amount goes up or down, so twice the half is one more or one less.
    #[test]
    fn a_limit_s_amount_is_not_twice_its_half_s() {
        for (tenths, whole, half) in [(10.7, 11, 5), (11.2, 11, 6), (24.8, 25, 12), (25.2, 25, 13)]
        {
            let bits = (tenths / 10_000f32).to_bits();
            assert_eq!(below_range(bits), Ok(Some(Range::up_to(whole))));
            assert_eq!(below_amount(bits), Ok(Some(half)));
        }
    }

    #[test]
    fn a_measured_reading_stands_for_its_amount_alone() {
        for bits in [0, 0x3D00_0000, MOST_BITS] {
            let range = Reading::measured(bits).map(Reading::range);
            let alone = measured_amount(bits).map(|amount| amount.map(Range::of_measured));
            assert_eq!(range, alone);
        }
        assert_eq!(Reading::Missing.range(), None);
    }

    #[test]
    fn amounts_at_the_ends_of_the_range() {
        assert_eq!(measured_amount(0), Ok(Some(0)));
        assert_eq!(measured_amount(1), Ok(Some(0)));
        assert_eq!(measured_amount(0x0080_0000), Ok(Some(0)));
        assert_eq!(measured_amount(MOST_BITS), Ok(Some(MOST_AMOUNT)));
        assert_eq!(measured_amount(MOST_BITS + 1), Err(READING));
        assert_eq!(below_amount(MOST_BITS), Ok(Some(MOST_BELOW)));
        assert_eq!(below_amount(LEAST_LIMIT_BITS), Ok(Some(LEAST_BELOW)));
        assert_eq!(below_amount(LEAST_LIMIT_BITS - 1), Err(READING));
        assert_eq!(below_amount(0), Err(READING));
    }

    #[test]
    fn signs_infinities_and_nans_are_refused() {
        for bits in [
            0x8000_0000,
            0xBF80_0000,
            0x7F80_0000,
            0x7FC0_0000,
            0xFFFF_FFFF,
        ] {
            for mark in 0..=3 {
                assert_eq!(Reading::from_words(mark, bits), Err(READING));
            }
        }
        assert_eq!(Reading::from_words(0, 1), Err(READING));
        assert_eq!(Reading::from_words(3, 0), Err(READING));
        assert_eq!(Reading::from_words(0, 0), Ok(Reading::Missing));
    }

    #[test]
    fn a_value_equal_to_its_limit_is_measured() {
        let limit = 0.1f32.to_bits();
        assert_eq!(
            Reading::from_analyser(limit, limit),
            Reading::measured(limit)
        );
        assert_eq!(
            Reading::from_analyser(limit - 1, limit),
            Reading::below(limit)
        );
        assert_eq!(
            Reading::from_analyser(limit + 1, limit),
            Reading::measured(limit + 1)
        );
        assert_eq!(Reading::from_analyser(limit, 0), Err(READING));
        assert_eq!(Reading::from_analyser(0x8000_0000, limit), Err(READING));
    }

    #[test]
    fn words_come_back() {
        for (mark, bits) in [(0, 0), (1, 0), (1, 0x3F80_0000), (2, LEAST_LIMIT_BITS)] {
            let words = Reading::from_words(mark, bits).map(Reading::words);
            assert_eq!(words, Ok((mark, bits)));
        }
    }
}
