//! Faults by which a finer reading overturns a verdict (document 02 (vii)): a
//! below reading that is one amount in place of a range, a range that doesn't
//! begin at 0, and a below reading that is taken for missing.

use super::Fault::{self, *};
use crate::numbers::{
    BALANCE_CHECK, CHLORIDE, CONDUCTIVITY_CHECK, IONS, NITROGEN_CHECK, RATIO_CHECK, STEMFLOW,
    TOTAL_NITROGEN, WET_ONLY,
};
use reference::checks::Verdict;
use reference::ranges::Range;
use reference::readings::Reading;
use reference::record::Record;

/// What a below reading stands for in one check, where that isn't its own range.
pub fn range(fault: Fault, check: usize, record: &Record, place: usize) -> Option<Range> {
    let reading = record.readings[place];
    let (right, half) = (reading.range()?, reading.amount()?);
    match (fault, check) {
        (BelowIsNothing, _) => Some(Range::of_measured(right.least)),
        (BelowIsItsLimit, _) => Some(Range::of_measured(right.greatest)),
        (BalanceFromTheHalf, BALANCE_CHECK) => Some(Range {
            least: half,
            ..right
        }),
        (TotalNitrogenAtItsLimit, NITROGEN_CHECK) if place == TOTAL_NITROGEN => {
            Some(Range::of_measured(right.greatest))
        }
        _ => None,
    }
}

/// An ion below its limit taken for missing where all eight are needed, chloride
/// where the ratio needs it.
pub fn taken_for_missing(fault: Fault, record: &Record, verdicts: &mut [u32]) {
    let is_below = |place: usize| matches!(record.readings[place], Reading::Below(_));
    let has_a_ratio = (WET_ONLY..=STEMFLOW).contains(&record.kind);
    let missing = Verdict::ReadingMissing.number();
    match fault {
        BelowIonMissing if (0..IONS).any(is_below) => {
            for check in [BALANCE_CHECK, CONDUCTIVITY_CHECK] {
                if verdicts[check] != Verdict::NotApplicable.number() {
                    verdicts[check] = missing;
                }
            }
        }
        BelowChlorideMissing if has_a_ratio && is_below(CHLORIDE) => {
            verdicts[RATIO_CHECK] = missing;
        }
        _ => {}
    }
}

#[cfg(test)]
mod tests {
    use super::super::tests::smallest_input;
    use super::super::{Faulty, OVERTURNING};
    use super::*;
    use crate::finer::is_overturned;
    use crate::numbers::LEAST_LIMIT_BITS;
    use crate::parts::part;
    use crate::stand_in::StandIn;

    const CHAINS: u32 = 30_000;

    /// Faults in the ranges that the rule finds without the other implementation's
    /// verdicts, beside all those of this file.
    const BY_THE_RULE: [Fault; 14] = [
        HalfInTheBalance,
        HalfInConductivity,
        HalfInTheRatio,
        HalfInNitrogen,
        RangeWithoutItsEnd,
        RangeUpToTheHalf,
        LimitRoundedDown,
        RangeFromTheHalf,
        GreatestStrengthAtZero,
        LeastStrengthAtTheLimit,
        SquareAgainstTheSum,
        UndecidedIsWithin,
        UndecidedIsOutside,
        MissingSodiumFirst,
    ];

    /// Faults of a judge that never overturns a verdict: they need those verdicts.
    const KEEP_THE_RULE: [Fault; 5] = [
        LimitRoundedUp,
        MeasuredIsARange,
        NitrogenEndExcluded,
        MissingChlorideHasNoRatio,
        CarbonByTheLimit,
    ];

    #[test]
    fn the_rule_alone_finds_these() {
        for fault in OVERTURNING.into_iter().chain(BY_THE_RULE) {
            assert!(is_overturned(&Faulty(fault), CHAINS), "{fault:?}");
        }
        assert!(!is_overturned(&StandIn, CHAINS));
    }

    #[test]
    fn the_others_are_found_by_their_verdicts() {
        let part = part("finer").expect("a part");
        for fault in KEEP_THE_RULE {
            assert!(!is_overturned(&Faulty(fault), CHAINS), "{fault:?}");
            let mismatch = part.run(&Faulty(fault), 1).mismatch;
            assert!(mismatch.is_some(), "{fault:?}");
        }
    }

    /// What is overturned is told as a pair of records. An ion that is taken for
    /// missing: the printed sample with one below the least limit, and with none of
    /// it.
    #[test]
    fn what_overturns_shrinks_to_a_pair() {
        for fault in OVERTURNING {
            let input = smallest_input(fault);
            assert_eq!(input.matches("26 words").count(), 2, "{fault:?} {input}");
        }
        let input = smallest_input(BelowIonMissing);
        let records: Vec<&str> = input.lines().skip(1).collect();
        let below = format!("(2, 0x{LEAST_LIMIT_BITS:08X})");
        let measured = records[0].replace(&below, "(1, 0x00000000)");
        assert_eq!(records[1..], [measured], "{input}");
        assert!(records[0].contains("[0, 7, 2, 500, 150, 0]"), "{input}");
    }
}
