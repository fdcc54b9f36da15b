//! Floats by their amounts. Where an amount begins is worked out here: the
//! other implementation's search for it is too slow for a million records, and
//! for a table of all two million amounts.

use crate::numbers::{LEAST_BELOW, LEAST_LIMIT_BITS, MOST_BELOW, MOST_BITS, PER_MILLIGRAM};
use crate::random::Draw;
use reference::cases::floats::DOUBLE;
use reference::cases::generator::Generator;

/// The least float of at least (2 × amount − 1) / 20,000 mg/L, as a half goes
/// up: amount − 1/2 tenths of a µg/L.
fn first_float(amount: u32) -> u32 {
    if amount == 0 {
        return 0;
    }
    let numerator = 2 * u64::from(amount) - 1;
    let denominator = 2 * u64::from(PER_MILLIGRAM);
    // A mantissa has 24 bits: as many places behind the point as make the
    // quotient at least 2^23. Up to 200 mg/L and a little more they are at
    // least 16; down to 1/20,000 they are at most 38.
    let mut places = 16;
    while numerator << places < denominator << 23 {
        places += 1;
    }
    let mantissa = (numerator << places).div_ceil(denominator) as u32;
    // The mantissa's first bit is worth 2^(23 − places). That exponent is kept
    // with an excess of 127; the bit itself isn't kept. A mantissa that was
    // rounded up to 2^24 carries into the exponent, as it should.
    ((127 + 23 - places) << 23) + (mantissa - (1 << 23))
}

/// The least and the greatest float of an amount. There are always some: even
/// next to 200 mg/L, where floats are 2^−16 apart, an amount before the last has
/// six or seven.
pub fn ends(amount: u32) -> (u32, u32) {
    let last = first_float(amount + 1) - 1;
    (first_float(amount), last.min(MOST_BITS))
}

/// A float of this amount: an end of its range or any within.
pub fn any_float(generator: &mut Generator, amount: u32) -> u32 {
    let (first, last) = ends(amount);
    match generator.below(4) {
        0 => first,
        1 => last,
        _ => generator.between(first, last),
    }
}

/// A limit whose half has this amount, where there is one.
pub fn any_limit(generator: &mut Generator, amount: u32) -> Option<u32> {
    if !(LEAST_BELOW..=MOST_BELOW).contains(&amount) {
        return None;
    }
    let (first, last) = ends(amount);
    let first = (first + DOUBLE).max(LEAST_LIMIT_BITS);
    let last = (last + DOUBLE).min(MOST_BITS);
    Some(match generator.below(4) {
        0 => first,
        1 => last,
        _ => generator.between(first, last),
    })
}

/// A limit that has this amount itself, from `LEAST_LIMIT` to `MOST_AMOUNT`: an
/// end of its floats or any within. Half of it may round to either side.
pub fn any_limit_with(generator: &mut Generator, amount: u32) -> u32 {
    any_float(generator, amount).clamp(LEAST_LIMIT_BITS, MOST_BITS)
}

/// The mark and the bits of a reading with this amount, mostly measured.
pub fn any_reading(generator: &mut Generator, amount: u32) -> (u32, u32) {
    let below = generator.once_in(5);
    match any_limit(generator, amount) {
        Some(limit) if below => (2, limit),
        _ => (1, any_float(generator, amount)),
    }
}

/// The mark and the bits of any reading that isn't missing, by its float in
/// place of its amount.
pub fn scattered_reading(generator: &mut Generator) -> (u32, u32) {
    match generator.below(8) {
        0 => (1, generator.of_any_size(MOST_BITS)),
        1 | 2 => (2, generator.between(LEAST_LIMIT_BITS, MOST_BITS)),
        _ => (1, generator.between(LEAST_LIMIT_BITS, MOST_BITS)),
    }
}

#[cfg(test)]
mod tests {
    use super::*;
    use crate::numbers::{CARBON_LINE, LEAST_LIMIT, MOST_AMOUNT, MOST_TRACE};
    use reference::cases::floats::least_float_of;
    use reference::readings::Reading;

    /// Amounts at which something begins or ends: all traces, ties (1/32 mg/L
    /// is 312.5), the line of carbon, the greatest limit's half.
    fn edges() -> impl Iterator<Item = u32> {
        let others = [312, 313, 624, 625, CARBON_LINE - 1, CARBON_LINE];
        let halves = [MOST_BELOW - 1, MOST_BELOW, MOST_BELOW + 1];
        let most = [MOST_AMOUNT - 1, MOST_AMOUNT];
        (0..=MOST_TRACE).chain(others).chain(halves).chain(most)
    }

    #[test]
    fn amounts_begin_where_the_search_finds_them() {
        let mut generator = Generator::new(3);
        // The powers of 2 from 1 to 128 mg/L, at which floats get coarser.
        let powers = (0..=7).map(|power| PER_MILLIGRAM << power);
        let beside = powers.flat_map(|power| power - 1..=power + 1);
        let any: Vec<u32> = (0..5_000)
            .map(|_| generator.of_any_size(MOST_AMOUNT))
            .collect();
        for amount in edges().chain(beside).chain(any) {
            let last = least_float_of(amount + 1) - 1;
            assert_eq!(ends(amount), (least_float_of(amount), last), "{amount}");
        }
    }

    #[test]
    fn drawn_readings_have_their_amounts() {
        let mut generator = Generator::new(1);
        for amount in edges() {
            let mut below = false;
            for _ in 0..200 {
                let (mark, bits) = any_reading(&mut generator, amount);
                let reading = Reading::from_words(mark, bits);
                assert_eq!(reading.map(Reading::amount), Ok(Some(amount)));
                below |= mark == 2;
            }
            assert_eq!(below, (LEAST_BELOW..=MOST_BELOW).contains(&amount));
        }
    }

    /// Of odd amounts half the limit rounds up for some floats and down for others.
    #[test]
    fn drawn_limits_have_their_own_amounts() {
        let mut generator = Generator::new(4);
        for amount in [
            LEAST_LIMIT,
            11,
            25,
            313,
            99_999,
            MOST_AMOUNT - 1,
            MOST_AMOUNT,
        ] {
            let mut halves = Vec::new();
            for _ in 0..100 {
                let below = Reading::below(any_limit_with(&mut generator, amount));
                let range = below.map(|below| below.range().map(|range| range.greatest));
                assert_eq!(range, Ok(Some(amount)));
                halves.extend(below.map(Reading::amount));
            }
            halves.sort_unstable();
            halves.dedup();
            assert_eq!(halves.len() as u32, 1 + amount % 2, "{amount}");
        }
    }

    #[test]
    fn scattered_readings_are_readings() {
        let mut generator = Generator::new(2);
        for _ in 0..2_000 {
            let (mark, bits) = scattered_reading(&mut generator);
            assert!(Reading::from_words(mark, bits).is_ok());
        }
    }
}
