//! "Conductivity at higher strength" (document 02 (v)): the ionic strength of a
//! record, and the bracket of y², by which its conductivity falls below the
//! plain sum.
//!
//! No product here leaves an i128. A charge is at most 2 × 10^13 u, so the sum
//! of ten of them times 1 or 2 is at most 4 × 10^14; 10^12 times that is below
//! 10^27.
//! s is below 1, so its steps are below 10^6; the numerator and the denominator
//! of e are below 10^20, and 10^3 times those below 10^23.

use crate::big::Big;
use crate::ions::{alkalinity_charge, charge, ALKALINITY_VALENCE, HYDROGEN_VALENCE, TABLE};
use crate::numbers::{EQUIVALENT, IONS, ROOT_STEPS, SQUARE_EXPONENT, SQUARE_UNIT, THOUSANDTHS};
use std::sync::OnceLock;

/// "Half the sum, over all ten rows, of equivalents per litre times the ion's
/// charge": the part of that sum which isn't hydrogen's, in u.
pub fn weighed_without_hydrogen(amounts: &[u32; IONS], alkalinity: u32) -> i128 {
    let weighed = |ion: usize| TABLE[ion].valence * charge(ion, amounts[ion]);
    let ions: i128 = (0..IONS).map(weighed).sum();
    ions + ALKALINITY_VALENCE * alkalinity_charge(alkalinity)
}

/// The whole sum with so many u of hydrogen.
pub fn weighed_with(hydrogen: i128, others: i128) -> i128 {
    HYDROGEN_VALENCE * hydrogen + others
}

/// Whole numbers between which 10^9 y² lies, "both included".
#[derive(Clone, Copy, Debug, PartialEq, Eq)]
pub struct Bracket {
    pub least: i128,
    pub greatest: i128,
}

impl Bracket {
    /// From the sums of which the least I and the greatest I are half: "between
    /// the whole-number floor of 10^(9 − upper e) and the floor of
    /// 10^(9 − lower e) plus 1". The 1 is added also where the power is whole.
    pub fn of(least_sum: i128, greatest_sum: i128) -> Bracket {
        let lower_e = thousandths_up_to(lower_root(least_sum));
        let upper_e = thousandths_from(upper_root(greatest_sum));
        Bracket {
            least: floor_of_power(upper_e),
            greatest: floor_of_power(lower_e) + 1,
        }
    }
}

/// How the square of so many steps of 10^−6 compares with the I that is half
/// this sum: (k / 10^6)² with sum / (2 × 10^15), both times 2 × 10^15 × 10^12.
fn square_to_strength(steps: i128, sum: i128) -> std::cmp::Ordering {
    (2 * EQUIVALENT * steps * steps).cmp(&(ROOT_STEPS * ROOT_STEPS * sum))
}

/// "The lower s is the greatest multiple of 10^−6 whose square is at most the
/// least I."
pub fn lower_root(sum: i128) -> i128 {
    first_where(|steps| square_to_strength(steps, sum).is_gt()) - 1
}

/// "The upper s is the least multiple whose square is at least the greatest I."
pub fn upper_root(sum: i128) -> i128 {
    first_where(|steps| square_to_strength(steps, sum).is_ge())
}

/// The first number of steps that is so, where all beyond it are: halving what
/// is left before 1, which is the root of far more strength than a record has.
fn first_where(is_so: impl Fn(i128) -> bool) -> i128 {
    let (mut from, mut to) = (0, ROOT_STEPS);
    while from < to {
        let middle = from + (to - from) / 2;
        if is_so(middle) {
            to = middle;
        } else {
            from = middle + 1;
        }
    }
    from
}

/// "e for s/(1+s) − 0.3 s²" at so many steps k of 10^−6, as a numerator and a
/// denominator: k / (10^6 + k) − 3 × k² / (10 × 10^12).
fn exponent_at(steps: i128) -> (i128, i128) {
    let (beyond_one, tenfold_square) = (ROOT_STEPS + steps, 10 * ROOT_STEPS * ROOT_STEPS);
    let numerator = steps * tenfold_square - 3 * steps * steps * beyond_one;
    (numerator, beyond_one * tenfold_square)
}

/// "The lower e is the greatest thousandth not above its value at the lower s."
pub fn thousandths_up_to(steps: i128) -> u32 {
    let (numerator, denominator) = exponent_at(steps);
    (i128::from(THOUSANDTHS) * numerator).div_euclid(denominator) as u32
}

/// "The upper e the least thousandth not below its value at the upper s."
pub fn thousandths_from(steps: i128) -> u32 {
    let (numerator, denominator) = exponent_at(steps);
    let short = (-i128::from(THOUSANDTHS) * numerator).div_euclid(denominator);
    -short as u32
}

/// As s/(1+s) is below 1, so is e: no more thousandths than these.
const EVERY_EXPONENT: usize = THOUSANDTHS as usize + 1;

/// What `floor_of_power` found before, one place for each thousandth: computed
/// when first needed and never written down.
static FOUND: [OnceLock<u64>; EVERY_EXPONENT] = [const { OnceLock::new() }; EVERY_EXPONENT];

/// "The whole-number floor of 10^(9 − e)" at so many thousandths.
pub fn floor_of_power(thousandths: u32) -> i128 {
    let floor = FOUND[thousandths as usize].get_or_init(|| search_floor(thousandths));
    i128::from(*floor)
}

/// The greatest whole number whose thousandth power is at most
/// 10^(9000 − thousandths). e isn't negative, so it is at most 10^9.
fn search_floor(thousandths: u32) -> u64 {
    let power = Big::new(10).power(SQUARE_EXPONENT * THOUSANDTHS - thousandths);
    power.root(THOUSANDTHS, SQUARE_UNIT as u64 + 1)
}

#[cfg(test)]
mod tests;
