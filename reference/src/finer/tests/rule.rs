//! What the verdicts of a finer record may be.

use super::record;
use crate::cases::bottle::Bottle;
use crate::finer::{may_follow, verdict_may_follow};
use crate::numbers::{
    BALANCE_CHECK, CHECKS, CHLORIDE, CONDUCTIVITY_CHECK, LEAST_LIMIT_BITS, NITROGEN_CHECK,
    RATIO_CHECK,
};

/// Which verdicts may follow each of 0 to 4, where only a 3 may change.
const ONLY_UNDECIDED: [&[u32]; 5] = [&[0], &[1], &[2], &[1, 2, 3], &[4]];
/// Where chlorine's range contains 0.
const FROM_NOT_APPLICABLE: [&[u32]; 5] = [&[0, 1, 2, 3, 4], &[], &[], &[], &[]];

fn assert_follow(old: &Bottle, check: usize, follow: [&[u32]; 5]) {
    let old = record(old);
    for (before, allowed) in follow.into_iter().enumerate() {
        for after in 0..=5 {
            let found = verdict_may_follow(&old, check, before as u32, after);
            assert_eq!(found, allowed.contains(&after), "{before} to {after}");
        }
    }
}

#[test]
fn only_an_undecided_verdict_may_change() {
    let below = Bottle::printed().below(CHLORIDE, LEAST_LIMIT_BITS);
    for check in [BALANCE_CHECK, CONDUCTIVITY_CHECK, NITROGEN_CHECK] {
        assert_follow(&Bottle::printed(), check, ONLY_UNDECIDED);
        assert_follow(&below, check, ONLY_UNDECIDED);
    }
}

/// Chlorine measured above 0 leaves 0 out; missing, it has no range.
#[test]
fn the_ratio_by_the_old_chlorine_range() {
    let printed = Bottle::printed();
    for leaves_out in [
        printed.clone(),
        printed.amount(CHLORIDE, 1),
        printed.missing(CHLORIDE),
    ] {
        assert_follow(&leaves_out, RATIO_CHECK, ONLY_UNDECIDED);
    }
    for contains in [
        printed.below(CHLORIDE, LEAST_LIMIT_BITS),
        printed.amount(CHLORIDE, 0),
    ] {
        assert_follow(&contains, RATIO_CHECK, FROM_NOT_APPLICABLE);
    }
}

/// Each check is held by itself.
#[test]
fn one_overturned_verdict_is_enough() {
    let old = record(&Bottle::printed());
    let before = [1, 3, 2, 3];
    assert!(may_follow(&old, &before, &[1, 3, 2, 3]));
    assert!(may_follow(&old, &before, &[1, 1, 2, 2]));
    for (check, other) in [2, 0, 3, 4].into_iter().enumerate() {
        let mut after = before;
        after[check] = other;
        assert!(!may_follow(&old, &before, &after), "{after:?}");
    }
    assert!(!verdict_may_follow(&old, CHECKS, 1, 1));
}
