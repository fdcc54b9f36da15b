//! The correction y² of conductivity, by ionic strength.
//!
//! A strength is given as the sum of charge in u times the ion's charge, so that
//! 2 × 10^15 of them are a mol/L.

use crate::numbers::POWERS;

/// The strength whose root is a millionth.
const SQUARE: u64 = 2_000;

/// The exponent s/(1 + s) − 0.3 s² in thousandths, as numerator and denominator,
/// for s of so many millionths.
fn exponent(root: u64) -> (u64, u64) {
    let sum = 1_000_000 + root;
    let numerator = 10_000_000_000_000 * root - 3 * root * root * sum;
    (numerator, 10_000_000_000 * sum)
}

/// The greatest root of so many millionths that is not above the strength's.
fn root(strength: u64) -> u64 {
    (strength / SQUARE).isqrt()
}

/// The least and the greatest 10^9 y² at a strength from `least` to `greatest`.
pub fn bracket(least: u64, greatest: u64, powers: &[u64; POWERS]) -> (u64, u64) {
    let lower = root(least);
    let below = root(greatest);
    let upper = below + u64::from(SQUARE * below * below < greatest);
    let (small, small_whole) = exponent(lower);
    let (great, great_whole) = exponent(upper);
    (
        powers[great.div_ceil(great_whole) as usize],
        powers[(small / small_whole) as usize] + 1,
    )
}
