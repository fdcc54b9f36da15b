//! "Better readings don't overturn a verdict" (document 02 (vii)): when a second
//! record is a finer one of a first, and what its verdicts may then be.

use crate::checks::Verdict;
use crate::numbers::{
    bits_of, mark_of, BALANCE_CHECK, CHECKS, CHLORIDE, CONDUCTIVITY_CHECK, NITROGEN_CHECK,
    ORGANIC_CARBON, RATIO_CHECK, READINGS,
};
use crate::ranges::Range;
use crate::readings::Reading;
use crate::record::Record;

/// "Every second record that differs only in that below readings have lower
/// limits or are measured inside the old range, with DOC unchanged." Both slices
/// have to be records. A record is a finer one of itself.
pub fn is_finer(old: &[u32], new: &[u32]) -> bool {
    match (Record::read(old), Record::read(new)) {
        (Ok(old), Ok(new)) => is_finer_record(&old, &new),
        _ => false,
    }
}

/// The old words, where every reading that may be finer has become what it is in
/// the second record, are that record's: it differs in nothing else.
fn is_finer_record(old: &Record, new: &Record) -> bool {
    let mut words = old.words;
    for place in (0..READINGS).filter(|&place| place != ORGANIC_CARBON) {
        let finer = new.readings[place];
        if is_finer_reading(old.readings[place], finer) {
            (words[mark_of(place)], words[bits_of(place)]) = finer.words();
        }
    }
    words == new.words
}

/// A lower limit is a lower float, of whatever amount. "Measured inside the old
/// range" goes by amounts: a float above the limit is inside where it rounds to
/// the limit's amount.
fn is_finer_reading(old: Reading, new: Reading) -> bool {
    match (old, new) {
        (Reading::Below(limit), Reading::Below(lower)) if lower.is_less_than(limit) => true,
        (Reading::Below(_), Reading::Measured(_)) => {
            let inside = |(range, amount): (Range, u32)| range.contains(amount);
            old.range().zip(new.amount()).is_some_and(inside)
        }
        _ => old == new,
    }
}

/// Whether a finer record of this one may have these verdicts, by their numbers,
/// where this one has those.
pub fn may_follow(old: &Record, before: &[u32; CHECKS], after: &[u32; CHECKS]) -> bool {
    (0..CHECKS).all(|check| verdict_may_follow(old, check, before[check], after[check]))
}

/// "A balance, conductivity or nitrogen verdict 1 or 2 stays what it was, and only
/// a 3 among them may change. So does Na/Cl where the old chlorine range leaves
/// out 0; where it contains 0, a 0 may become any verdict": there the old one is
/// 0 (02 (vi)). Chlorine that is missing has no range that contains 0.
pub fn verdict_may_follow(old: &Record, check: usize, before: u32, after: u32) -> bool {
    match check {
        BALANCE_CHECK | CONDUCTIVITY_CHECK | NITROGEN_CHECK => may_become(before, after),
        RATIO_CHECK => match old.range(CHLORIDE) {
            Some(chloride) if chloride.contains_none() => {
                before == Verdict::NotApplicable.number() && is_a_verdict(after)
            }
            _ => may_become(before, after),
        },
        _ => false,
    }
}

/// 0, 1, 2 and 4 stay. What applied still does and what was there still is: a 3
/// becomes 1 or 2, or stays.
fn may_become(before: u32, after: u32) -> bool {
    let judged = [Verdict::Within, Verdict::Outside, Verdict::Undecided].map(Verdict::number);
    if before == Verdict::Undecided.number() {
        judged.contains(&after)
    } else {
        is_a_verdict(before) && before == after
    }
}

fn is_a_verdict(number: u32) -> bool {
    number <= Verdict::ReadingMissing.number()
}

#[cfg(test)]
mod tests;
