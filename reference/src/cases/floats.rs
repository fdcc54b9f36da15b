//! Floats found by search: by their bits, without floating-point arithmetic.

use crate::numbers::{LEAST_LIMIT_BITS, MOST_AMOUNT, MOST_BITS, PER_MILLIGRAM};
use crate::readings::Reading;

/// A float's double has the next greater exponent: what is added to its bits.
pub const DOUBLE: u32 = 0x0080_0000;

fn measured_amount(bits: u32) -> u32 {
    let amount = Reading::measured(bits).ok().and_then(Reading::amount);
    // Beyond 200.0 there is no reading; for the search it is too great.
    amount.unwrap_or(u32::MAX)
}

/// The least float whose amount is at least this one. Floats without a sign
/// are in the order of their bits, and a greater float has no smaller amount.
pub fn least_float_of(amount: u32) -> u32 {
    let (mut from, mut to) = (0, MOST_BITS + 1);
    while from < to {
        let middle = from + (to - from) / 2;
        if measured_amount(middle) >= amount {
            to = middle;
        } else {
            from = middle + 1;
        }
    }
    from
}

/// A float in the midst of those with this amount; 0.0 for none. Every amount
/// has some: up to 200 mg/L floats are at most 2^−16 apart, and six such steps
/// are less than a tenth of a µg/L.
pub fn float_of(amount: u32) -> u32 {
    if amount == 0 {
        return 0;
    }
    let (first, next) = (least_float_of(amount), least_float_of(amount + 1));
    first + (next - first) / 2
}

/// A quantification limit whose half has this amount, from `LEAST_BELOW` to
/// `MOST_BELOW`. The double of a float with one of these two may lie beyond the
/// ends of the limits, which are then the nearest limits with that amount.
pub fn limit_of(amount: u32) -> u32 {
    (float_of(amount) + DOUBLE).clamp(LEAST_LIMIT_BITS, MOST_BITS)
}

/// A quantification limit that has this amount itself, from `LEAST_LIMIT` to
/// `MOST_AMOUNT`: the end of its range.
pub fn limit_with(amount: u32) -> u32 {
    float_of(amount).clamp(LEAST_LIMIT_BITS, MOST_BITS)
}

/// The bits of numerator / 2^places, for a numerator of 1 to 2^24 − 1.
pub fn dyadic(numerator: u32, places: u32) -> u32 {
    let high_bit = 31 - numerator.leading_zeros();
    let fraction = (numerator << (23 - high_bit)) & 0x7F_FFFF;
    ((127 + high_bit - places) << 23) + fraction
}

/// All floats up to 200.0 whose amount before rounding is a whole number and a
/// half, found among the whole numbers k: (2k + 1) / 20,000 is a float's value
/// where 2k + 1 is a multiple of 625, as 20,000 is 32 × 625.
pub fn ties() -> Vec<u32> {
    let places = (2 * PER_MILLIGRAM).trailing_zeros();
    let odd = (2 * PER_MILLIGRAM) >> places;
    (0..MOST_AMOUNT)
        .filter(|k| (2 * k + 1) % odd == 0)
        .map(|k| dyadic((2 * k + 1) / odd, places))
        .collect()
}

#[cfg(test)]
mod tests {
    use super::*;
    use crate::numbers::{CARBON_LINE, LEAST_BELOW, LEAST_LIMIT, MOST_BELOW, MOST_MILLIGRAMS};
    use crate::ranges::Range;

    #[test]
    fn limits_have_their_own_amounts() {
        let ends = |amount: u32| Reading::below(limit_with(amount)).map(Reading::range);
        let near_the_most = MOST_AMOUNT - 20..=MOST_AMOUNT;
        for amount in (LEAST_LIMIT..=1_000).chain(near_the_most) {
            assert_eq!(ends(amount), Ok(Some(Range::up_to(amount))));
        }
    }

    fn below_amount(bits: u32) -> Option<u32> {
        Reading::below(bits).ok().and_then(Reading::amount)
    }

    #[test]
    fn searched_floats_have_their_amounts() {
        for amount in [
            0,
            1,
            2,
            312,
            313,
            9_999,
            CARBON_LINE,
            1_234_567,
            MOST_AMOUNT - 1,
            MOST_AMOUNT,
        ] {
            assert_eq!(measured_amount(float_of(amount)), amount);
            assert_eq!(measured_amount(least_float_of(amount)), amount);
        }
        for amount in [LEAST_BELOW, 313, CARBON_LINE, MOST_BELOW - 1, MOST_BELOW] {
            assert_eq!(below_amount(limit_of(amount)), Some(amount));
        }
    }

    #[test]
    fn amounts_at_the_ends_have_a_float_and_a_limit() {
        // Floats are the furthest apart at the top, limits end at the bottom.
        for amount in MOST_AMOUNT - 1_000..=MOST_AMOUNT {
            assert_eq!(measured_amount(float_of(amount)), amount);
        }
        for amount in LEAST_BELOW..1_000 {
            assert_eq!(below_amount(limit_of(amount)), Some(amount));
        }
    }

    #[test]
    fn dyadic_floats_are_the_machine_s() {
        assert_eq!(dyadic(1, 5), (1f32 / 32.0).to_bits());
        assert_eq!(dyadic(6_399, 5), (6_399f32 / 32.0).to_bits());
        assert_eq!(dyadic(MOST_MILLIGRAMS, 0), MOST_BITS);
        assert_eq!(ties().len(), 3_200);
    }
}
