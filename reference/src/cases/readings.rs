//! Calls 2 to 5: readings, analyses and amounts.

use super::floats::{least_float_of, ties, DOUBLE};
use super::generator::Generator;
use super::Cases;
use crate::numbers::{LEAST_LIMIT_BITS, MOST_AMOUNT, MOST_BELOW, MOST_BITS};

const SIGN: u32 = 0x8000_0000;

/// Bit patterns at which something ends.
pub const EDGES: [u32; 38] = [
    0,
    1,
    2,
    0x007F_FFFF, // the greatest subnormal
    0x0080_0000, // the smallest normal
    0x0080_0001,
    0x3A00_0000, // 2^−11
    LEAST_LIMIT_BITS - 1,
    LEAST_LIMIT_BITS,
    LEAST_LIMIT_BITS + 1,
    0x3CFF_FFFF,
    0x3D00_0000, // 1/32, the least float whose amount is a tie
    0x3D00_0001,
    0x3D7F_FFFF,
    0x3D80_0000, // 1/16
    0x3D80_0001,
    0x3E00_0000, // 1/8, twice 1/16
    0x3F80_0000, // 1
    0x4120_0000, // 10
    MOST_BITS - 1,
    MOST_BITS,
    MOST_BITS + 1,
    0x4380_0000, // 256
    0x7F7F_FFFF, // the greatest finite
    0x7F80_0000, // infinity
    0x7F80_0001, // a signalling NaN
    0x7FC0_0000, // a quiet NaN
    0x7FFF_FFFF,
    SIGN, // minus zero
    SIGN | 1,
    SIGN | 0x0080_0000,
    SIGN | LEAST_LIMIT_BITS,
    SIGN | 0x3F80_0000,
    SIGN | MOST_BITS,
    SIGN | 0x7F80_0000,
    SIGN | 0x7F80_0001,
    SIGN | 0x7FC0_0000,
    u32::MAX,
];

pub fn all(cases: &mut Cases) {
    marks(cases);
    analyses(cases);
    analyses_about_their_limits(cases);
    amounts_at_ties(cases);
    amounts_at_steps(cases);
    scattered(cases);
}

fn marks(cases: &mut Cases) {
    for call in [2, 4, 5] {
        for mark in [0, 1, 2, 3, 4, 256, u32::MAX] {
            for bits in EDGES {
                cases.add(call, &[mark, bits]);
            }
        }
    }
}

fn analyses(cases: &mut Cases) {
    for value in EDGES {
        for limit in EDGES {
            cases.add(3, &[value, limit]);
        }
    }
}

/// Values at their limit and beside it.
fn analyses_about_their_limits(cases: &mut Cases) {
    let mut generator = Generator::new(101);
    for _ in 0..200 {
        let limit = generator.between(LEAST_LIMIT_BITS, MOST_BITS);
        for value in [limit - 1, limit, limit + 1, generator.between(0, MOST_BITS)] {
            cases.add(3, &[value, limit]);
        }
    }
}

/// Floats whose amount before rounding is a whole number and a half, and their
/// neighbours; limits whose half is such a float. One of every three ties is
/// taken, so that even and odd whole numbers are among them.
fn amounts_at_ties(cases: &mut Cases) {
    for tie in ties().into_iter().step_by(3) {
        for bits in [tie - 1, tie, tie + 1] {
            cases.add(4, &[1, bits]);
        }
        let limit = tie + DOUBLE;
        if limit < MOST_BITS {
            for bits in [limit - 1, limit, limit + 1] {
                cases.add(4, &[2, bits]);
            }
        }
    }
}

/// The steps of all traces up to 5 µg/L, of the greatest amounts, measured and
/// below, and of amounts between these.
fn amounts_at_steps(cases: &mut Cases) {
    let traces = 1..=50;
    let greatest = [MOST_BELOW - 1, MOST_BELOW, MOST_AMOUNT - 1, MOST_AMOUNT];
    for amount in traces.chain(greatest) {
        step(cases, amount);
    }
    let mut generator = Generator::new(102);
    for _ in 0..600 {
        let most = generator.pick(&[10, 1_000, 10_000, MOST_AMOUNT]);
        step(cases, generator.between(1, most));
    }
}

/// The last float of the amount before this one and the first of this one; the
/// same with limits and their halves.
fn step(cases: &mut Cases, amount: u32) {
    let first = least_float_of(amount);
    for bits in [first - 1, first] {
        cases.add(4, &[1, bits]);
    }
    if first < MOST_BITS - DOUBLE {
        for limit in [first + DOUBLE - 1, first + DOUBLE] {
            cases.add(4, &[2, limit]);
        }
    }
}

fn scattered(cases: &mut Cases) {
    let mut generator = Generator::new(103);
    for _ in 0..800 {
        cases.add(4, &[1, generator.between(0, MOST_BITS)]);
        cases.add(4, &[1, generator.between(LEAST_LIMIT_BITS, MOST_BITS)]);
        cases.add(4, &[2, generator.between(LEAST_LIMIT_BITS, MOST_BITS)]);
    }
}
