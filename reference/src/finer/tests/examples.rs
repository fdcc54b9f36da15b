//! An example of every change that the request lets happen.

use super::from_to;
use crate::cases::bottle::Bottle;
use crate::cases::floats::limit_with;
use crate::numbers::{
    AMMONIUM, BALANCE_CHECK, CHLORIDE, CONDUCTIVITY_CHECK, KINDS, LEAST_LIMIT_BITS, NITRATE,
    NITROGEN_CHECK, RATIO_CHECK, RUNOFF, SODIUM, STEMFLOW, TOTAL_NITROGEN,
};

/// The printed sample with its chloride below 4 mg/L.
fn without_a_ratio() -> Bottle {
    Bottle::printed().below(CHLORIDE, limit_with(40_000))
}

/// "Where it contains 0, a 0 may become any verdict": with its sodium, 1 mg/L, the
/// printed sample is within from 10,281 to 30,840 tenths of a µg/L of chloride.
#[test]
fn the_ratio_becomes_any_verdict() {
    let old = without_a_ratio();
    let ratio = |old: &Bottle, chloride: u32| {
        let new = old.amount(CHLORIDE, chloride);
        from_to(RATIO_CHECK, old, &new)
    };
    for (chloride, verdict) in [(10_280, 2), (10_281, 1), (30_840, 1), (30_841, 2)] {
        assert_eq!(ratio(&old, chloride), [0, verdict]);
    }
    assert_eq!(ratio(&old.below(SODIUM, 1f32.to_bits()), 15_000), [0, 3]);
    assert_eq!(ratio(&old.missing(SODIUM), 15_000), [0, 4]);
}

/// A lower limit contains 0 as well, so does a measured 0; other kinds have no
/// ratio.
#[test]
fn the_ratio_stays_not_applicable() {
    let old = without_a_ratio();
    let ratio = |new: &Bottle| from_to(RATIO_CHECK, &old, new);
    assert_eq!(ratio(&old.below(CHLORIDE, LEAST_LIMIT_BITS)), [0, 0]);
    assert_eq!(ratio(&old.amount(CHLORIDE, 0)), [0, 0]);
    for kind in KINDS.filter(|kind| *kind > STEMFLOW) {
        let (old, new) = (old.kind(kind), old.kind(kind).amount(CHLORIDE, 15_000));
        assert_eq!(from_to(RATIO_CHECK, &old, &new), [0, 0]);
    }
}

/// Sodium below its limit and chloride measured: the range leaves out 0, and the
/// ratio is undecided until sodium is known better.
#[test]
fn the_ratio_is_decided_by_sodium() {
    let old = Bottle::printed().below(SODIUM, limit_with(2_821));
    let old = old.amount(CHLORIDE, 4_350);
    let ratio = |new: &Bottle| from_to(RATIO_CHECK, &old, new);
    assert_eq!(ratio(&old.amount(SODIUM, 2_000)), [3, 1]);
    assert_eq!(ratio(&old.amount(SODIUM, 0)), [3, 2]);
    assert_eq!(ratio(&old.below(SODIUM, limit_with(1_000))), [3, 2]);
    assert_eq!(ratio(&old.below(SODIUM, limit_with(2_000))), [3, 3]);
}

/// 10 µeq/L of hydrogen and 79 tenths of µeq/L of alkalinity: within from 81.8
/// tenths of anions on, and chloride up to 100 tenths of a µg/L has 2.82 of them.
#[test]
fn an_undecided_balance_becomes_either_or_stays() {
    let old = Bottle::without_ions()
        .conductivity(200)
        .alkalinity(79)
        .below(CHLORIDE, limit_with(100));
    let balance = |new: &Bottle| from_to(BALANCE_CHECK, &old, new);
    assert_eq!(balance(&old.amount(CHLORIDE, 100)), [3, 1]);
    assert_eq!(balance(&old.amount(CHLORIDE, 90)), [3, 2]);
    assert_eq!(balance(&old.below(CHLORIDE, limit_with(99))), [3, 2]);
    assert_eq!(balance(&old.below(CHLORIDE, limit_with(100) - 1)), [3, 3]);
}

/// The printed sample's calculated 15.1 µS/cm, of which chloride makes 3.2.
#[test]
fn an_undecided_conductivity_becomes_either_or_stays() {
    let old = Bottle::printed().below(CHLORIDE, 1.5f32.to_bits());
    let old = old.conductivity(125);
    let conductivity = |new: &Bottle| from_to(CONDUCTIVITY_CHECK, &old, new);
    assert_eq!(conductivity(&old.amount(CHLORIDE, 10_000)), [3, 1]);
    assert_eq!(conductivity(&old.amount(CHLORIDE, 15_000)), [3, 2]);
    let lower = old.below(CHLORIDE, 1.49f32.to_bits());
    assert_eq!(conductivity(&lower), [3, 3]);
}

/// Total nitrogen of 100 tenths of a µg/L, ammonium of 50 and nitrate below 60.
#[test]
fn an_undecided_nitrogen_becomes_either_or_stays() {
    let with = |nitrate: u32| {
        let bottle = Bottle::printed().amount(TOTAL_NITROGEN, 100);
        let bottle = bottle.amount(AMMONIUM, 50);
        bottle.below(NITRATE, limit_with(nitrate))
    };
    let old = with(60);
    let nitrogen = |new: &Bottle| from_to(NITROGEN_CHECK, &old, new);
    assert_eq!(nitrogen(&old.amount(NITRATE, 50)), [3, 1]);
    assert_eq!(nitrogen(&with(50)), [3, 1]);
    assert_eq!(nitrogen(&old.amount(NITRATE, 51)), [3, 2]);
    assert_eq!(nitrogen(&with(51)), [3, 3]);
}

/// What doesn't apply and what is missing stays, whatever becomes finer.
#[test]
fn not_applicable_and_missing_stay() {
    let below = Bottle::doubtful().below(SODIUM, limit_with(20_000));
    let measured = below.amount(SODIUM, 10_000);
    assert_eq!(from_to(BALANCE_CHECK, &below, &measured), [0, 0]);
    let [below, measured] = [below, measured].map(|bottle| bottle.missing(NITRATE).kind(1));
    for check in [BALANCE_CHECK, CONDUCTIVITY_CHECK, NITROGEN_CHECK] {
        assert_eq!(from_to(check, &below, &measured), [4, 4]);
    }
    let [below, measured] = [below, measured].map(|bottle| bottle.missing(CHLORIDE));
    assert_eq!(from_to(RATIO_CHECK, &below, &measured), [4, 4]);
    let [below, measured] = [below, measured].map(|bottle| bottle.kind(RUNOFF));
    assert_eq!(from_to(RATIO_CHECK, &below, &measured), [0, 0]);
}
