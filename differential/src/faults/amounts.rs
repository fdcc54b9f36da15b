//! Faults in the amounts: a record's words with other floats, so that whoever
//! reads them rightly has the wrong amounts.

use super::Fault::{self, HalfOfTheRounded, TieGoesDown, WholeMicrograms};
use crate::floats::ends;
use crate::numbers::{
    bits_of, mark_of, BITS, FIRST_READING, LEAST_LIMIT_BITS, ORGANIC_CARBON, READINGS_END,
    READING_WORDS,
};
use reference::cases::floats::ties;
use reference::readings::Reading;
use reference::record::Record;
use std::collections::HashSet;
use std::sync::OnceLock;

/// A record's words as a judge with this fault reads them: other floats, where
/// the fault is in the amounts.
pub fn misread(fault: Fault, words: &[u32]) -> Vec<u32> {
    match fault {
        TieGoesDown => ties_lowered(words),
        WholeMicrograms => with_readings(words, |_, reading| rounded(reading, in_micrograms)),
        HalfOfTheRounded => with_readings(words, |place, reading| {
            let half = half_of_the_rounded(reading);
            half.filter(|_| place == ORGANIC_CARBON)
                .map(|half| (1, half))
        }),
        _ => words.to_vec(),
    }
}

/// A mark and an amount: a limit's own where the mark is that of below.
type Told = (u32, u32);

/// The record with each reading as it is told for it. Readings without that
/// stay, and so do words that are no record.
pub fn with_readings(words: &[u32], told: impl Fn(usize, Reading) -> Option<Told>) -> Vec<u32> {
    let mut changed = words.to_vec();
    let readings = Record::read(words).map(|record| record.readings);
    for (place, reading) in readings.into_iter().flatten().enumerate() {
        if let Some((mark, amount)) = told(place, reading) {
            let (least, _) = ends(amount);
            changed[mark_of(place)] = mark;
            changed[bits_of(place)] = match mark {
                2 => least.max(LEAST_LIMIT_BITS),
                _ => least,
            };
        }
    }
    changed
}

/// The record with each reading measured, in the amount that is told for it.
pub fn with_amounts(words: &[u32], amount: impl Fn(Reading) -> Option<u32>) -> Vec<u32> {
    with_readings(words, |_, reading| {
        amount(reading).map(|amount| (1, amount))
    })
}

/// Every below reading measured as half its limit.
pub fn with_halves(words: &[u32]) -> Vec<u32> {
    with_readings(words, |_, reading| match reading {
        Reading::Below(_) => reading.amount().map(|half| (1, half)),
        _ => None,
    })
}

/// The reading with its own value or its limit rounded otherwise.
pub fn rounded(reading: Reading, amount: impl Fn(f32) -> u32) -> Option<Told> {
    match reading {
        Reading::Missing => None,
        Reading::Measured(value) => Some((1, amount(f32::from_bits(value.bits())))),
        Reading::Below(limit) => Some((2, amount(f32::from_bits(limit.bits())))),
    }
}

/// The scale of 1,000 kept: whole µg/L, which are ten tenths each.
fn in_micrograms(milligrams: f32) -> u32 {
    // A product of 24 bits and 10 is exact in an f64.
    10 * (1_000.0 * f64::from(milligrams) + 0.5) as u32
}

/// The same with half a limit.
pub fn halves_in_micrograms(reading: Reading) -> Option<u32> {
    match reading {
        Reading::Missing => None,
        Reading::Measured(value) => Some(in_micrograms(f32::from_bits(value.bits()))),
        Reading::Below(limit) => Some(in_micrograms(f32::from_bits(limit.bits()) / 2.0)),
    }
}

/// Half the limit's amount in place of the amount of half the limit: rounded
/// twice.
fn half_of_the_rounded(reading: Reading) -> Option<u32> {
    match reading {
        Reading::Below(_) => Some(reading.range()?.greatest.div_ceil(2)),
        other => other.amount(),
    }
}

/// Every float on a tie replaced by the one before it, whose amount is the
/// lower one.
fn ties_lowered(words: &[u32]) -> Vec<u32> {
    static TIES: OnceLock<HashSet<u32>> = OnceLock::new();
    let ties = TIES.get_or_init(|| ties().into_iter().collect());
    let lowered = |(place, &word): (usize, &u32)| {
        let in_readings = (FIRST_READING..READINGS_END).contains(&place);
        let is_float = in_readings && (place - FIRST_READING) % READING_WORDS == BITS;
        word - u32::from(is_float && ties.contains(&word))
    };
    words.iter().enumerate().map(lowered).collect()
}
