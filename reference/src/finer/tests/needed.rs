//! Why the request asks for what it does: pairs of records that aren't finer ones
//! and whose verdicts change.

use super::{finer, numbers, record};
use crate::cases::bottle::Bottle;
use crate::cases::floats::{least_float_of, limit_with};
use crate::finer::may_follow;
use crate::numbers::{
    AMMONIUM, BALANCE_CHECK, CARBON_LINE, CHLORIDE, NITRATE, NITROGEN_CHECK, ORGANIC_CARBON,
    RUNOFF, TOTAL_NITROGEN,
};

/// The verdicts of one check that the rule doesn't let pass, of a bottle and of
/// another that is no finer one.
fn overturned(check: usize, old: &Bottle, new: &Bottle) -> [u32; 2] {
    assert!(!finer(old, new));
    let (before, after) = (numbers(old), numbers(new));
    assert!(!may_follow(&record(old), &before, &after));
    [before[check], after[check]]
}

/// "With DOC unchanged": runoff's line goes by half the limit. Below 9 mg/L carbon
/// counts as 4.5, under the line of 5; measured inside that range it may be on
/// the line or over it. The other way round, too: below 11 mg/L it is over the
/// line, and a lower limit takes it under that.
#[test]
fn carbon_unchanged() {
    let runoff = |carbon: u32| {
        let bottle = Bottle::printed().kind(RUNOFF);
        bottle.below(ORGANIC_CARBON, limit_with(carbon))
    };
    let old = runoff(90_000);
    for carbon in [CARBON_LINE, CARBON_LINE + 1, 90_000] {
        let new = old.amount(ORGANIC_CARBON, carbon);
        assert_eq!(overturned(BALANCE_CHECK, &old, &new), [1, 0]);
    }
    let over = runoff(110_000);
    assert_eq!(overturned(BALANCE_CHECK, &over, &old), [0, 1]);
}

/// "Lower limits": one that rises takes in amounts that are outside, and so does
/// one that is a step of its float higher, where that is another amount.
#[test]
fn limits_that_do_not_rise() {
    let with = |limit: u32| {
        let bottle = Bottle::printed().amount(TOTAL_NITROGEN, 100);
        bottle.amount(AMMONIUM, 50).below(NITRATE, limit)
    };
    let old = with(limit_with(50));
    let higher = with(limit_with(51));
    assert_eq!(overturned(NITROGEN_CHECK, &old, &higher), [1, 3]);
    let next = least_float_of(51);
    let verdicts = overturned(NITROGEN_CHECK, &with(next - 1), &with(next));
    assert_eq!(verdicts, [1, 3]);
    let balance = |limit: u32| {
        let bottle = Bottle::without_ions().conductivity(200).alkalinity(119);
        bottle.below(CHLORIDE, limit_with(limit))
    };
    let verdicts = overturned(BALANCE_CHECK, &balance(100), &balance(200));
    assert_eq!(verdicts, [1, 3]);
}

/// "Measured inside the old range": one tenth of a µg/L above it is enough.
#[test]
fn measured_inside() {
    let old = Bottle::printed()
        .amount(TOTAL_NITROGEN, 100)
        .amount(AMMONIUM, 50)
        .below(NITRATE, limit_with(50));
    let new = old.amount(NITRATE, 51);
    assert_eq!(overturned(NITROGEN_CHECK, &old, &new), [1, 2]);
}
