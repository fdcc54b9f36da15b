//! Verdicts 1 and 2 held to true hydrogen, and spans to their inequalities.

use super::super::*;
use super::record;
use crate::cases::bottle::plausible;
use crate::cases::generator::Generator;
use crate::hydrogen::Ph;

fn holds_at_true_hydrogen(ph: Ph, inequality: &impl Inequality) -> bool {
    let Span { least, greatest } = inequality.span();
    ph.hydrogen_is_at_least(least.numerator, least.denominator.unsigned_abs())
        && ph.hydrogen_is_at_most(greatest.numerator, greatest.denominator.unsigned_abs())
}

fn assert_true_of_hydrogen(ph: Ph, verdict: Verdict, inequality: &impl Inequality) {
    match verdict {
        Verdict::Within => assert!(holds_at_true_hydrogen(ph, inequality)),
        Verdict::Outside => assert!(!holds_at_true_hydrogen(ph, inequality)),
        _ => {}
    }
    let h = i128::from(ph.floor());
    let Span { least, greatest } = inequality.span();
    let in_span = least.is_at_most(h) && greatest.is_at_least(h);
    assert_eq!(inequality.holds_at(h), in_span);
}

/// The four corners: cations and anions each at both ends.
fn corners(balance: &IonBalance) -> [ChosenBalance; 4] {
    let (most, least) = (balance.asking_for_most(), balance.asking_for_least());
    let with = |other_cations, anions| ChosenBalance {
        other_cations,
        anions,
        ..most
    };
    [
        most,
        least,
        with(least.other_cations, most.anions),
        with(most.other_cations, least.anions),
    ]
}

/// "A verdict 1 or 2 is true for every amount in those ranges."
#[test]
fn verdicts_are_true_of_hydrogen_and_spans_of_inequalities() {
    let mut generator = Generator::new(11);
    for _ in 0..2_000 {
        let record = record(&plausible(&mut generator));
        let (Some(balance), Some(amounts)) = (IonBalance::of(&record), record.ion_amounts()) else {
            continue;
        };
        let h = i128::from(record.ph.floor());
        let verdict = balance.verdict(h, record.ph.has_whole_hydrogen());
        for corner in corners(&balance) {
            assert_true_of_hydrogen(record.ph, verdict, &corner);
        }
        let plain = PlainConductivity::with(&record, &amounts);
        assert_true_of_hydrogen(record.ph, plain_conductivity(&record), &plain);
    }
}
