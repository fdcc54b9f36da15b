mod choices;
mod ranges;
mod truth;

use super::*;
use crate::cases::bottle::Bottle;
use crate::numbers::{
    BALANCE_CHECK, CARBON_LINE, CHLORIDE, CONDUCTIVITY_CHECK, NITRATE, ORGANIC_CARBON, RATIO_CHECK,
    RUNOFF, SODIUM, TOTAL_NITROGEN,
};

fn record(bottle: &Bottle) -> Record {
    match Record::read(bottle.words()) {
        Ok(record) => record,
        Err(refusal) => panic!("refused {refusal}"),
    }
}

fn numbers(bottle: &Bottle) -> [u32; CHECKS] {
    verdicts(&record(bottle)).map(Verdict::number)
}

#[test]
fn proved_cases_5_to_8() {
    for (alkalinity, verdict) in [(81, 2), (82, 1), (122, 1), (123, 2)] {
        let bottle = Bottle::without_ions()
            .conductivity(200)
            .alkalinity(alkalinity);
        let found = numbers(&bottle)[BALANCE_CHECK];
        assert_eq!(found, verdict, "alkalinity {alkalinity}");
    }
}

#[test]
fn proved_cases_9_to_12() {
    for (alkalinity, verdict) in [(90, 2), (91, 1), (110, 1), (111, 2)] {
        let bottle = Bottle::without_ions()
            .conductivity(201)
            .alkalinity(alkalinity);
        let found = numbers(&bottle)[BALANCE_CHECK];
        assert_eq!(found, verdict, "alkalinity {alkalinity}");
    }
}

/// "01's cases 13 to 16 stay proved of the plain sum" (02 (v)).
#[test]
fn proved_cases_13_to_16() {
    for (tenths, verdict) in [(128, 2), (129, 1), (193, 1), (194, 2)] {
        let bottle = Bottle::printed().conductivity(tenths);
        let found = plain_conductivity(&record(&bottle)).number();
        assert_eq!(found, verdict, "conductivity {tenths}");
    }
}

#[test]
fn the_printed_sample_is_within_everywhere() {
    assert_eq!(numbers(&Bottle::printed()), [1, 1, 1, 1]);
}

#[test]
fn missing_readings_and_what_goes_before_them() {
    let printed = Bottle::printed();
    assert_eq!(numbers(&printed.missing(SODIUM)), [4, 4, 4, 1]);
    assert_eq!(numbers(&printed.missing(CHLORIDE)), [4, 4, 4, 1]);
    assert_eq!(numbers(&printed.missing(NITRATE)), [4, 4, 1, 4]);
    assert_eq!(numbers(&printed.missing(TOTAL_NITROGEN)), [1, 1, 1, 0]);
    let without_chloride = printed.amount(CHLORIDE, 0).missing(SODIUM);
    assert_eq!(numbers(&without_chloride)[RATIO_CHECK], 0);
    assert_eq!(
        numbers(&printed.kind(RUNOFF).missing(CHLORIDE)),
        [0, 4, 0, 1]
    );
}

#[test]
fn runoff_needs_little_organic_carbon() {
    let runoff = Bottle::printed().kind(RUNOFF);
    let balance = |bottle: &Bottle| numbers(bottle)[BALANCE_CHECK];
    assert_eq!(balance(&runoff), 0);
    let carbon = |amount: u32| runoff.amount(ORGANIC_CARBON, amount);
    assert_eq!(balance(&carbon(CARBON_LINE - 1)), 1);
    assert_eq!(balance(&carbon(CARBON_LINE)), 0);
    let ten = 10f32.to_bits();
    assert_eq!(balance(&runoff.below(ORGANIC_CARBON, ten)), 0);
    // Half of these limits is 49,999.504 and 49,999.499 tenths of a µg/L.
    assert_eq!(balance(&runoff.below(ORGANIC_CARBON, ten - 104)), 0);
    assert_eq!(balance(&runoff.below(ORGANIC_CARBON, ten - 105)), 1);
}

#[test]
fn sodium_to_chloride_at_its_ends() {
    for (sodium, chloride, verdict) in [
        (2_821, 8_700, 1),
        (2_820, 8_700, 2),
        (2_821, 8_701, 2),
        (2_821, 2_900, 1),
        (2_822, 2_900, 2),
        (2_821, 2_899, 2),
    ] {
        let bottle = Bottle::printed()
            .amount(SODIUM, sodium)
            .amount(CHLORIDE, chloride);
        let found = numbers(&bottle)[RATIO_CHECK];
        assert_eq!(found, verdict, "{sodium} to {chloride}");
    }
}

/// A span as document 01 states the undecided: by its end points.
fn span(least: (i128, i128), greatest: (i128, i128)) -> Span {
    let fraction = |(numerator, denominator)| Fraction {
        numerator,
        denominator,
    };
    Span {
        least: fraction(least),
        greatest: fraction(greatest),
    }
}

#[test]
fn end_points_of_a_span() {
    let h = 7;
    assert!(span((7, 1), (8, 1)).has_every_fraction_above(h));
    assert!(span((0, 1), (7, 1)).has_no_fraction_above(h));
    assert!(span((16, 2), (9, 1)).has_no_fraction_above(h));
    assert!(span((31, 4), (29, 4)).has_no_fraction_above(h));
    for undecided in [
        span((0, 1), (15, 2)),
        span((15, 2), (15, 2)),
        span((15, 2), (8, 1)),
        span((7, 1), (799, 100)),
    ] {
        assert!(!undecided.has_every_fraction_above(h));
        assert!(!undecided.has_no_fraction_above(h));
    }
}

/// The printed sample's calculated conductivity is about 15.1 µS/cm: 12.6 lies
/// within a fifth of some of its bracket, 18.9 too.
#[test]
fn the_printed_sample_s_conductivity_at_its_edges() {
    for (tenths, verdict) in [(125, 2), (126, 3), (127, 1), (188, 1), (189, 3), (190, 2)] {
        let found = numbers(&Bottle::printed().conductivity(tenths));
        assert_eq!(found[CONDUCTIVITY_CHECK], verdict, "conductivity {tenths}");
    }
}

/// "Both included", and hydrogen's ends are not reached where it isn't whole.
#[test]
fn calculated_conductivity_on_a_limit() {
    let printed = record(&Bottle::printed());
    let check = Conductivity::of(&printed).expect("all ions");
    let (from, to) = check.limits();
    let (from, to) = (from / 100, to / 100);
    let judge = |least, greatest, ends_are_reached| {
        let calculated = Calculated {
            least,
            greatest,
            ends_are_reached,
        };
        check.judge(calculated).number()
    };
    for reached in [true, false] {
        assert_eq!(judge(from, to, reached), 1);
        assert_eq!(judge(from - 1, to, reached), 3);
        assert_eq!(judge(from, to + 1, reached), 3);
        assert_eq!(judge(from - 1, to + 1, reached), 3);
        assert_eq!(judge(from - 9, from - 1, reached), 2);
        assert_eq!(judge(to + 1, to + 9, reached), 2);
        let on_the_limit = if reached { 3 } else { 2 };
        assert_eq!(judge(from - 9, from, reached), on_the_limit);
        assert_eq!(judge(to, to + 9, reached), on_the_limit);
    }
}

/// Row 20 of the manual's sheet: within by the plain sum, and published as
/// outside.
#[test]
fn the_manual_s_row_20_is_outside_when_corrected() {
    let amounts = [2_700, 3_400, 4_700, 28_700, 2_200, 8_300, 3_700, 61_200];
    let bottle = Bottle::without_ions().ph(466).conductivity(411);
    let ions = amounts.into_iter().enumerate();
    let bottle = ions.fold(bottle, |bottle, (ion, amount)| bottle.amount(ion, amount));
    let row = record(&bottle);
    assert_eq!(
        (plain_conductivity(&row), conductivity(&row)),
        (Verdict::Within, Verdict::Outside)
    );
}
