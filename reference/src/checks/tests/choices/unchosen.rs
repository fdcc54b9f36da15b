//! What is told of a record before anything is chosen.

use super::super::super::*;
use super::mark;
use super::sides::PARTS;
use super::tried::amount_of_its_float;
use crate::numbers::{
    bits_of, AMMONIUM, CHLORIDE, IONS, NITRATE, ORGANIC_CARBON, SODIUM, TOTAL_NITROGEN,
};

/// What is told before anything is chosen: 0 where a check doesn't apply, 4 where
/// a reading that it needs is missing.
pub fn without_choices(record: &Record) -> [Option<Verdict>; CHECKS] {
    let told = |applies: bool, needed: &[usize]| match applies {
        false => Some(Verdict::NotApplicable),
        true => {
            let missing = needed.iter().any(|&place| mark(record, place) == 0);
            missing.then_some(Verdict::ReadingMissing)
        }
    };
    let carbon = amount_of_its_float(record, ORGANIC_CARBON);
    // Half a limit on the line is 10 mg/L less half a tenth of a µg/L or more.
    let limit = f32::from_bits(record.words[bits_of(ORGANIC_CARBON)]);
    let little_carbon = match mark(record, ORGANIC_CARBON) {
        0 => false,
        1 => carbon < 50_000 * PARTS,
        _ => f64::from(limit) < 2.0 * 4.99995,
    };
    let balance = matches!(record.kind, 1 | 2) || record.kind == 5 && little_carbon;
    let chloride = match mark(record, CHLORIDE) {
        0 => true,
        1 => amount_of_its_float(record, CHLORIDE) > 0,
        _ => false,
    };
    let ions: Vec<usize> = (0..IONS).collect();
    [
        told(balance, &ions),
        told(true, &ions),
        told(record.kind <= 4 && chloride, &[CHLORIDE, SODIUM]),
        told(mark(record, TOTAL_NITROGEN) != 0, &[NITRATE, AMMONIUM]),
    ]
}
