//! The two checks that go by amounts without hydrogen. They "follow the same
//! rule and may now say undecided" (document 02 (vi)): within where the
//! inequality holds for every choice of the amounts, outside where for none.

use super::Verdict;
use crate::ions::charge;
use crate::numbers::{AMMONIUM, CHLORIDE, NITRATE, SODIUM, STEMFLOW, TOTAL_NITROGEN, WET_ONLY};
use crate::ranges::Range;
use crate::record::Record;

/// Na/Cl. "Kinds 1 to 4, unless Cl is present with amount 0; Cl missing gives
/// 4." "A chlorine range that contains 0 makes Na/Cl not applicable" (document
/// 02 (vi)), also where sodium is missing.
pub fn sodium_chloride(record: &Record) -> Verdict {
    if !(WET_ONLY..=STEMFLOW).contains(&record.kind) {
        return Verdict::NotApplicable;
    }
    match (record.range(SODIUM), record.range(CHLORIDE)) {
        (_, None) => Verdict::ReadingMissing,
        (_, Some(chloride)) if chloride.contains_none() => Verdict::NotApplicable,
        (None, Some(_)) => Verdict::ReadingMissing,
        (Some(sodium), Some(chloride)) => ratio(sodium, chloride),
    }
}

/// "Within: the ratio of charges is from 0.5 to 1.5, ends included", where
/// chloride's range leaves out 0. The least ratio is that of the least sodium
/// and the greatest chloride, the greatest that of the others, and every ratio
/// between them is one of some choice.
pub fn ratio(sodium: Range, chloride: Range) -> Verdict {
    let twice_sodium = sodium.both(|amount| 2 * charge(SODIUM, amount));
    let chloride = chloride.both(|amount| charge(CHLORIDE, amount));
    let every =
        chloride.greatest <= twice_sodium.least && twice_sodium.greatest <= 3 * chloride.least;
    let none = twice_sodium.greatest < chloride.least || 3 * chloride.greatest < twice_sodium.least;
    Verdict::of_choices(every, none)
}

/// Nitrogen. "All kinds with TN present. Needs both."
pub fn nitrogen(record: &Record) -> Verdict {
    let Some(total) = record.range(TOTAL_NITROGEN) else {
        return Verdict::NotApplicable;
    };
    match (record.range(NITRATE), record.range(AMMONIUM)) {
        (Some(nitrate), Some(ammonium)) => sum(total, nitrate, ammonium),
        _ => Verdict::ReadingMissing,
    }
}

/// "Within: TN is at least NO3-N plus NH4-N, in amounts." Every choice is within
/// where the least TN is at least the greatest sum, none where the greatest is
/// less than the least.
pub fn sum(total: Range, nitrate: Range, ammonium: Range) -> Verdict {
    Verdict::of_choices(
        total.least >= nitrate.greatest + ammonium.greatest,
        total.greatest < nitrate.least + ammonium.least,
    )
}
