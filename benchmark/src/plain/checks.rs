//! The four checks.

use super::record::Record;
use super::{activity, Floors, Refusal};
use crate::numbers::{
    ALKALINITY_CHARGE, AMOUNT_CHARGE, CARBON_LINE, CHECKS, CL, DOC, IONS, LEAST_PH, NA, NH4, NO3,
    POWERS, READINGS, TN,
};

const NOT_APPLICABLE: u32 = 0;
const WITHIN: u32 = 1;
const OUTSIDE: u32 = 2;
const UNDECIDED: u32 = 3;
const MISSING: u32 = 4;

const CATIONS: usize = 5;
const FACTORS: [u64; IONS] = [7139, 4990, 8229, 4350, 2558, 6237, 7139, 2821];
const CONDUCTANCES: [u64; IONS] = [735, 595, 531, 501, 735, 800, 714, 764];
const ION_CHARGES: [u64; IONS] = [1, 2, 2, 1, 1, 2, 1, 1];
const HYDROGEN_CONDUCTANCE: u64 = 3500;
const ALKALINITY_CONDUCTANCE: u64 = 445;
/// A percent of a tenth of a µS/cm, in 10^-22 µS/cm: y² is in 10^-9, the plain
/// sum in 10^-13 µS/cm.
const PERCENT_OF_TENTH: u64 = 10_000_000_000_000_000_000;

/// Charge in u, conductivity in 10^-13 µS/cm, and ionic strength.
struct Sums {
    cations: u64,
    anions: u64,
    conductivity: u64,
    strength: u64,
}

fn sums(hydrogen: u64, alkalinity: u64, amounts: &[u32; READINGS]) -> Sums {
    let alkalinity = alkalinity * ALKALINITY_CHARGE;
    let mut charges = [0; IONS];
    let mut conductivity = hydrogen * HYDROGEN_CONDUCTANCE + alkalinity * ALKALINITY_CONDUCTANCE;
    let mut strength = hydrogen + alkalinity;
    for (i, charge) in charges.iter_mut().enumerate() {
        *charge = u64::from(amounts[i]) * FACTORS[i] * AMOUNT_CHARGE;
        conductivity += *charge * CONDUCTANCES[i];
        strength += *charge * ION_CHARGES[i];
    }
    Sums {
        cations: hydrogen + charges[..CATIONS].iter().sum::<u64>(),
        anions: alkalinity + charges[CATIONS..].iter().sum::<u64>(),
        conductivity,
        strength,
    }
}

/// The sums with every reading and hydrogen at their least, and at their greatest.
/// Where the ends are `open` hydrogen is strictly between two whole numbers, and
/// neither its least nor its greatest is reached.
struct Ends {
    least: Sums,
    greatest: Sums,
    open: bool,
}

impl Ends {
    /// Nothing where an ion is missing.
    fn of(record: &Record, floors: &Floors) -> Option<Ends> {
        if !record.has_all_ions() {
            return None;
        }
        let floor = floors.hydrogen[(record.p - LEAST_PH) as usize];
        let open = record.p % 100 != 0;
        let hydrogen = floor + u64::from(open);
        Some(Ends {
            least: sums(floor, record.alkalinity, &record.least),
            greatest: sums(hydrogen, record.alkalinity, &record.greatest),
            open,
        })
    }
}

/// `low ≤ x ≤ high` for x from `least` to `greatest`, both ends left out where
/// `open`; `low` and `high` are compared by these two functions, in whole numbers.
fn decide<T: Copy>(
    least: T,
    greatest: T,
    open: bool,
    above: impl Fn(T) -> i64,
    below: impl Fn(T) -> i64,
) -> u32 {
    let inside = i64::from(open);
    if above(greatest) < inside || below(least) < inside {
        OUTSIDE
    } else if above(least) >= 0 && below(greatest) >= 0 {
        WITHIN
    } else {
        UNDECIDED
    }
}

fn ion_balance(record: &Record, known: Option<&Ends>) -> u32 {
    let applies = match record.kind {
        1 | 2 => true,
        5 => matches!(record.amounts[DOC], Some(carbon) if carbon < CARBON_LINE),
        _ => false,
    };
    if !applies {
        return NOT_APPLICABLE;
    }
    let Some(ends) = known else { return MISSING };
    let limit: u64 = if record.conductivity <= 200 { 20 } else { 10 };
    // No ion is on both sides, so their ratio is least where cations are least and
    // anions greatest.
    decide(
        (ends.least.cations, ends.greatest.anions),
        (ends.greatest.cations, ends.least.anions),
        ends.open,
        |(cations, anions)| ((200 + limit) * cations) as i64 - ((200 - limit) * anions) as i64,
        |(cations, anions)| ((200 + limit) * anions) as i64 - ((200 - limit) * cations) as i64,
    )
}

fn sign(greater: u128, lesser: u128) -> i64 {
    greater.cmp(&lesser) as i64
}

fn product(a: u64, b: u64) -> u128 {
    u128::from(a) * u128::from(b)
}

fn conductivity(record: &Record, known: Option<&Ends>, powers: &[u64; POWERS]) -> u32 {
    let Some(ends) = known else { return MISSING };
    let percent: u64 = match record.conductivity {
        0..=100 => 30,
        101..=200 => 20,
        _ => 10,
    };
    let (low, high) = activity::bracket(ends.least.strength, ends.greatest.strength, powers);
    let allowed = |part: u64| product(part * record.conductivity, PERCENT_OF_TENTH);
    // y² is chosen apart from the readings, so its least comes with their least.
    decide(
        product(low, ends.least.conductivity),
        product(high, ends.greatest.conductivity),
        ends.open,
        |calculated| sign(calculated, allowed(100 - percent)),
        |calculated| sign(allowed(100 + percent), calculated),
    )
}

fn sodium_chloride(record: &Record) -> u32 {
    if record.kind > 4 {
        return NOT_APPLICABLE;
    }
    if record.amounts[CL].is_none() {
        return MISSING;
    }
    // A chloride below its limit may be none at all, so what has a ratio is
    // measured and has one amount.
    if record.least[CL] == 0 {
        return NOT_APPLICABLE;
    }
    if record.amounts[NA].is_none() {
        return MISSING;
    }
    let chloride = (u64::from(record.least[CL]) * FACTORS[CL]) as i64;
    let sodium = |amount: u32| (2 * u64::from(amount) * FACTORS[NA]) as i64;
    decide(
        sodium(record.least[NA]),
        sodium(record.greatest[NA]),
        false,
        |sodium| sodium - chloride,
        |sodium| 3 * chloride - sodium,
    )
}

fn nitrogen(record: &Record) -> u32 {
    if record.amounts[TN].is_none() {
        return NOT_APPLICABLE;
    }
    if record.amounts[NO3].is_none() || record.amounts[NH4].is_none() {
        return MISSING;
    }
    let left = |total: &[u32; READINGS], parts: &[u32; READINGS]| {
        i64::from(total[TN]) - i64::from(parts[NO3] + parts[NH4])
    };
    // Nothing bounds total nitrogen above.
    decide(
        left(&record.least, &record.greatest),
        left(&record.greatest, &record.least),
        false,
        |left| left,
        |_| 0,
    )
}

pub fn verdicts(record: &Record, floors: &Floors) -> [u32; CHECKS] {
    let known = Ends::of(record, floors);
    [
        ion_balance(record, known.as_ref()),
        conductivity(record, known.as_ref(), &floors.powers),
        sodium_chloride(record),
        nitrogen(record),
    ]
}

pub fn judge(words: &[u32], floors: &Floors) -> Result<[u32; CHECKS], Refusal> {
    Ok(verdicts(&Record::read(words)?, floors))
}
