//! One choice of everything, and on which side of each inequality it is.

use super::super::super::*;
use crate::ions::{ALKALINITY_CONDUCTANCE, ANIONS, CATIONS, HYDROGEN_CONDUCTANCE, TABLE};
use crate::numbers::{
    ALKALINITY_CHARGE, AMMONIUM, CHLORIDE, CONDUCTIVITY_TENTH, IONS, NITRATE, READINGS, SODIUM,
    SQUARE_UNIT, TOTAL_NITROGEN,
};
use std::cmp::Ordering;

/// Thousandths of an amount.
pub const PARTS: i128 = 1_000;
/// Millionths of a u of hydrogen.
pub const FINE: i128 = 1_000_000;

/// One choice of everything. Missing readings are 0 and never asked for.
#[derive(Clone, Copy, Debug)]
pub struct Choice {
    pub amounts: [i128; READINGS],
    pub hydrogen: i128,
    /// 10^9 y².
    pub square: i128,
}

/// Equal where the inequality holds; else which side is too small. `difference`
/// is what the inequality drops the sign of.
fn side(holds: bool, difference: i128) -> Ordering {
    match holds {
        true => Ordering::Equal,
        false => difference.cmp(&0),
    }
}

/// Document 01's inequality of the ion balance, in millionths of a u.
pub fn balanced(record: &Record, choice: &Choice) -> Ordering {
    let charges = |ions: std::ops::Range<usize>| -> i128 {
        ions.map(|ion| choice.amounts[ion] * TABLE[ion].factor * FINE)
            .sum()
    };
    let cations = choice.hydrogen + charges(CATIONS);
    let alkalinity = i128::from(record.alkalinity) * ALKALINITY_CHARGE * FINE;
    let anions = alkalinity + charges(ANIONS);
    let limit = if record.conductivity <= 200 { 20 } else { 10 };
    let holds = 200 * (cations - anions).abs() <= limit * (cations + anions);
    side(holds, cations - anions)
}

/// Every row's part of a sum, each charge times a factor of its own.
pub fn summed(record: &Record, choice: &Choice, factors: [i128; IONS + 2]) -> i128 {
    let [hydrogen, alkalinity, ions @ ..] = factors;
    let ions: i128 = (0..IONS)
        .map(|ion| ions[ion] * choice.amounts[ion] * TABLE[ion].factor * FINE)
        .sum();
    let alkaline = i128::from(record.alkalinity) * ALKALINITY_CHARGE * FINE;
    hydrogen * choice.hydrogen + alkalinity * alkaline + ions
}

/// "100 times the difference of CE and CM, its sign dropped, is at most M × CM",
/// where CE is y² × the plain sum.
pub fn conducting(record: &Record, choice: &Choice) -> Ordering {
    let mut factors = [0; IONS + 2];
    factors[0] = HYDROGEN_CONDUCTANCE;
    factors[1] = ALKALINITY_CONDUCTANCE;
    for ion in 0..IONS {
        factors[ion + 2] = TABLE[ion].conductance;
    }
    let calculated = choice.square * summed(record, choice, factors);
    let tenths = i128::from(record.conductivity);
    let measured = tenths * CONDUCTIVITY_TENTH * SQUARE_UNIT * FINE;
    let limit = match record.conductivity {
        1..=100 => 30,
        101..=200 => 20,
        _ => 10,
    };
    let holds = 100 * (calculated - measured).abs() <= limit * measured;
    side(holds, calculated - measured)
}

/// "The ratio of charges is from 0.5 to 1.5, ends included."
pub fn ratio_of(_: &Record, choice: &Choice) -> Ordering {
    let [sodium, chloride] = [SODIUM, CHLORIDE].map(|ion| choice.amounts[ion] * TABLE[ion].factor);
    let holds = chloride <= 2 * sodium && 2 * sodium <= 3 * chloride;
    side(holds, sodium - chloride)
}

/// "TN is at least NO3-N plus NH4-N, in amounts."
pub fn nitrogens(_: &Record, choice: &Choice) -> Ordering {
    let amount = |place: usize| choice.amounts[place];
    let over = amount(TOTAL_NITROGEN) - amount(NITRATE) - amount(AMMONIUM);
    side(over >= 0, over)
}
