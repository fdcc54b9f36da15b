//! Faults in what a docket makes of two records: whether they agree, and whether
//! the last is consistent.

use super::amounts::{halves_in_micrograms, with_amounts, with_halves};
use super::Fault::{
    self, AgreesAtZero, AgreesByRanges, AgreesByTheLimit, AgreesInMicrograms, ConsistentByHalves,
    ExactTenthDisagrees, HalfTieGoesDown, UndecidedCloses,
};
use super::HELD;
use crate::numbers::{DOCKET_COUNT, DOCKET_STATE, IONS, NITROGEN_CHECK, RATIO_CHECK};
use reference::checks::{is_consistent, verdicts};
use reference::docket::agree;
use reference::ranges::Range;
use reference::readings::Reading;
use reference::record::Record;

/// The faults that give a docket another state.
const RESTATING: [Fault; 8] = [
    ExactTenthDisagrees,
    AgreesInMicrograms,
    AgreesByTheLimit,
    AgreesByRanges,
    AgreesAtZero,
    UndecidedCloses,
    ConsistentByHalves,
    HalfTieGoesDown,
];

/// After an offer that was taken: the state that a docket with this fault has.
pub fn restate(fault: Fault, before: &[u32], docket: &mut [u32]) {
    let (true, Ok(record)) = (RESTATING.contains(&fault), Record::read(&docket[HELD])) else {
        return;
    };
    let earlier = match docket[DOCKET_COUNT] {
        2 | 3 => Record::read(&before[HELD]).ok(),
        _ => None,
    };
    let agrees = earlier.is_some_and(|earlier| agrees(fault, &earlier, &record));
    docket[DOCKET_STATE] = match (closes(fault, &record), agrees, docket[DOCKET_COUNT]) {
        (true, _, _) => 1,
        (_, true, _) => 2,
        (_, _, 3) => 3,
        _ => 0,
    };
}

/// Whether the record closes its docket as consistent.
fn closes(fault: Fault, record: &Record) -> bool {
    match fault {
        // What only the first two checks could say before is looked for there alone.
        UndecidedCloses => {
            let verdicts = verdicts(record).map(|verdict| verdict.number());
            let lets_pass = |place: usize, verdict: u32| match place {
                RATIO_CHECK | NITROGEN_CHECK => matches!(verdict, 0 | 1 | 3),
                _ => matches!(verdict, 0 | 1),
            };
            (0..verdicts.len()).all(|place| lets_pass(place, verdicts[place]))
        }
        ConsistentByHalves => {
            Record::read(&with_halves(&record.words)).is_ok_and(|record| is_consistent(&record))
        }
        _ => is_consistent(record),
    }
}

fn agrees(fault: Fault, first: &Record, second: &Record) -> bool {
    let by = |amount: fn(Reading) -> Option<u32>| {
        let records =
            [first, second].map(|record| Record::read(&with_amounts(&record.words, amount)));
        matches!(records, [Ok(first), Ok(second)] if agree(&first, &second))
    };
    match fault {
        ExactTenthDisagrees => agree(first, second) && !has_an_exact_tenth(first, second),
        AgreesInMicrograms => by(halves_in_micrograms),
        AgreesByTheLimit => by(|reading| reading.range().map(|range| range.greatest)),
        AgreesAtZero => by(|reading| reading.range().map(|range| range.least)),
        AgreesByRanges => by_ranges(first, second),
        HalfTieGoesDown => by(half_with_ties_down),
        _ => agree(first, second),
    }
}

/// Half a limit that is a whole number and a half of tenths of a µg/L, rounded
/// down.
fn half_with_ties_down(reading: Reading) -> Option<u32> {
    let amount = reading.amount()?;
    Some(match reading {
        Reading::Below(limit) => {
            let half = 5_000.0 * f64::from(f32::from_bits(limit.bits()));
            amount - u32::from(half + 0.5 == f64::from(amount))
        }
        _ => amount,
    })
}

/// Whether an amount or a word is exactly a tenth off.
fn has_an_exact_tenth(first: &Record, second: &Record) -> bool {
    let exact = |a: u32, b: u32| a != b && 10 * a.abs_diff(b) == a.max(b);
    let ions = (0..IONS).filter_map(|ion| Some((first.amount(ion)?, second.amount(ion)?)));
    let words = [
        (first.conductivity, second.conductivity),
        (first.alkalinity, second.alkalinity),
    ];
    words.into_iter().chain(ions).any(|(a, b)| exact(a, b))
}

/// Agreement where some amount of the one range agrees with some of the other:
/// they meet, or the ends between them are no more than a tenth apart.
fn by_ranges(first: &Record, second: &Record) -> bool {
    let meet = |a: Range, b: Range| {
        let (low, high) = (a.greatest.min(b.greatest), a.least.max(b.least));
        high <= low || 10 * (high - low) <= high
    };
    let ions_agree = (0..IONS).all(|ion| match (first.range(ion), second.range(ion)) {
        (Some(a), Some(b)) => meet(a, b),
        (None, None) => true,
        _ => false,
    });
    // The words alone, with all readings missing on both sides.
    let [first, second] = [first, second].map(|record| {
        let mut bare = record.clone();
        bare.readings = [Reading::Missing; crate::numbers::READINGS];
        bare
    });
    ions_agree && agree(&first, &second)
}

#[cfg(test)]
mod tests {
    use super::*;

    /// The pairs of records that the stored cases compare.
    fn stored_pairs() -> Vec<[Record; 2]> {
        let cases = crate::faults::stored_cases(8);
        let pairs = cases.iter().filter_map(|case| {
            let (&count, words) = case.split_first()?;
            let (first, second) = words.split_at_checked(count as usize)?;
            Some([Record::read(first).ok()?, Record::read(second).ok()?])
        });
        pairs.collect()
    }

    /// Each of these faults changes agreement among the stored cases, too.
    #[test]
    fn the_stored_cases_tell_every_other_agreement() {
        let pairs = stored_pairs();
        for fault in [
            ExactTenthDisagrees,
            AgreesInMicrograms,
            AgreesByTheLimit,
            AgreesByRanges,
            AgreesAtZero,
        ] {
            let changed = pairs
                .iter()
                .filter(|[first, second]| agrees(fault, first, second) != agree(first, second));
            let times = changed.count();
            assert!(times >= 10, "{fault:?} changes {times}");
        }
    }
}
