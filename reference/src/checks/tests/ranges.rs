//! Request (vi) sentence by sentence, and the settled readings of it.

use super::super::*;
use super::{numbers, record};
use crate::activity::{weighed_with, Bracket};
use crate::cases::bottle::Bottle;
use crate::cases::floats::{limit_of, limit_with};
use crate::docket::agree;
use crate::numbers::{
    AMMONIUM, BALANCE_CHECK, BULK, CARBON_LINE, CHLORIDE, CONDUCTIVITY_CHECK, KINDS,
    LEAST_LIMIT_BITS, MOST_BITS, NITRATE, NITROGEN_CHECK, ORGANIC_CARBON, POTASSIUM, RATIO_CHECK,
    RUNOFF, SODIUM, STEMFLOW, TOTAL_NITROGEN, WET_ONLY,
};

/// "For the first two checks a below reading now stands for every fraction from 0
/// to its limit's amount, both included." With 10 µeq/L of hydrogen from 81.8 to
/// 122.2 tenths of µeq/L of anions are within, and 100 tenths of a µg/L of
/// chloride are 2.821 of these. Hydrogen is whole: "at whole pH too".
#[test]
fn a_below_anion_in_the_balance() {
    let bottle = Bottle::without_ions().conductivity(200);
    for (alkalinity, verdict) in [
        (78, 2),
        (79, 3),
        (81, 3),
        (82, 1),
        (119, 1),
        (120, 3),
        (122, 3),
        (123, 2),
    ] {
        let below = bottle
            .alkalinity(alkalinity)
            .below(CHLORIDE, limit_with(100));
        let found = numbers(&below)[BALANCE_CHECK];
        assert_eq!(found, verdict, "alkalinity {alkalinity}");
    }
}

/// 7,200 tenths of µeq/L of alkalinity and 200,000 tenths of a µg/L of sodium:
/// Cat is 880 µeq/L, An 720 µeq/L, and 200 × 160 is 20 × 1,600 exactly.
fn exactly_met() -> Bottle {
    let bottle = Bottle::without_ions().conductivity(200).alkalinity(7_200);
    bottle.amount(SODIUM, 200_000)
}

/// "Both included": the inequality is met exactly with potassium at its limit, so
/// a limit of one more is undecided; or it is met exactly with potassium at 0 and
/// not above, so one more of sodium makes it outside for all of the range.
#[test]
fn the_ends_of_a_range_are_included() {
    let balance = |bottle: &Bottle| numbers(bottle)[BALANCE_CHECK];
    let measured = exactly_met();
    assert_eq!(balance(&measured), 1);
    assert_eq!(balance(&measured.amount(SODIUM, 200_001)), 2);
    // A little potassium in the place of some sodium: both are 2558 × 4350.
    let potassium = exactly_met()
        .amount(SODIUM, 200_000 - 2_558)
        .below(POTASSIUM, limit_with(4_350));
    assert_eq!(balance(&potassium), 1);
    assert_eq!(balance(&potassium.below(POTASSIUM, limit_with(4_351))), 3);
    let on_its_start = exactly_met().below(POTASSIUM, limit_with(4_350));
    assert_eq!(balance(&on_its_start), 3);
    assert_eq!(balance(&on_its_start.amount(SODIUM, 200_001)), 2);
}

/// At a pH that isn't whole hydrogen's ends aren't reached: an end of a span on h
/// or on h + 1 leaves no fraction on its other side.
#[test]
fn ends_that_hydrogen_does_not_reach() {
    let whole = |numerator| Fraction {
        numerator,
        denominator: 1,
    };
    let span = |least, greatest| Span {
        least: whole(least),
        greatest: whole(greatest),
    };
    let judge = |with_every, with_some, is_whole| {
        let spans = Spans {
            with_every,
            with_some,
        };
        spans.verdict(7, is_whole).number()
    };
    assert_eq!(judge(span(7, 8), span(0, 9), false), 1);
    assert_eq!(judge(span(7, 7), span(0, 9), false), 3);
    assert_eq!(judge(span(7, 7), span(0, 9), true), 1);
    assert_eq!(judge(span(8, 6), span(0, 7), false), 2);
    assert_eq!(judge(span(8, 6), span(0, 7), true), 3);
    assert_eq!(judge(span(8, 6), span(8, 9), false), 2);
    assert_eq!(judge(span(8, 6), span(8, 9), true), 2);
    // No hydrogen for every choice, and yet some for each.
    assert_eq!(judge(span(8, 6), span(0, 20), false), 3);
    assert_eq!(judge(span(8, 6), span(0, 20), true), 3);
}

/// Hydrogen is never 0: neither is Cat, and Cat + An is above 0 everywhere.
#[test]
fn nothing_at_all_is_outside_or_undecided() {
    let none = Bottle::without_ions().ph(1_000);
    assert_eq!(numbers(&none)[BALANCE_CHECK], 2);
    let below = none.below(CHLORIDE, LEAST_LIMIT_BITS);
    // 10^5 u of hydrogen, up to 28,210,000 u of chloride.
    assert_eq!(numbers(&below)[BALANCE_CHECK], 3);
}

/// "The least ionic strength takes each such reading at 0, the greatest at its
/// limit, giving one bracket for y²": the printed sample with its chloride and
/// sulphate below 1.5 and 0.5 mg/L, 42.315 and twice 31.185 µeq/L of 243.78.
#[test]
fn one_bracket_from_all_at_0_to_all_at_their_limits() {
    let bottle = Bottle::printed()
        .below(CHLORIDE, 1.5f32.to_bits())
        .below(crate::numbers::SULPHATE, 0.5f32.to_bits());
    let check = Conductivity::of(&record(&bottle)).expect("all ions");
    let h = 10_000_000_000;
    let least = 243_780_000_000 - 42_315_000_000 - 62_370_000_000;
    assert_eq!(weighed_with(h, check.weighed.least), least);
    assert_eq!(weighed_with(h, check.weighed.greatest), 243_780_000_000);
    let bracket = Bracket::of(least, 243_780_000_000);
    assert_eq!(check.bracket(h, true), bracket);
    // e from 8 thousandths to 11: more than the two of a single strength.
    assert_eq!(
        (bracket.least, bracket.greatest),
        (974_989_637, 981_747_944)
    );
}

/// Neither the least sum nor the greatest y² is left out where they go together
/// with nothing measured: CE reaches from the least of both to the greatest of
/// both.
#[test]
fn conductivity_reaches_from_all_least_to_all_greatest() {
    let bottle = Bottle::printed().below(CHLORIDE, 1.5f32.to_bits());
    let check = Conductivity::of(&record(&bottle)).expect("all ions");
    let h = 10_000_000_000;
    let Bracket { least, greatest } = check.bracket(h, true);
    let calculated = check.calculated(check.bracket(h, true), h, true);
    let chloride = 764 * 42_315_000_000;
    let most = check.sums(h, true).greatest;
    assert_eq!(calculated.greatest, greatest * most);
    assert_eq!(calculated.least, least * (most - chloride));
}

/// The printed sample's calculated 15.1 µS/cm, of which chloride makes 3.2: from
/// 11.9 on, where that is below its limit. Hydrogen is whole there.
#[test]
fn conductivity_is_undecided_at_whole_ph() {
    let bottle = Bottle::printed().below(CHLORIDE, 1.5f32.to_bits());
    for (tenths, verdict) in [
        (91, 2),
        (92, 3),
        (125, 3),
        (127, 1),
        (148, 1),
        (150, 3),
        (188, 3),
        (190, 2),
    ] {
        let found = numbers(&bottle.conductivity(tenths));
        assert_eq!(found[CONDUCTIVITY_CHECK], verdict, "conductivity {tenths}");
    }
    let trace = Bottle::printed().below(crate::numbers::MAGNESIUM, limit_with(100));
    assert_eq!(numbers(&trace)[CONDUCTIVITY_CHECK], 1);
}

/// "The DOC line of runoff .. still use[s] the half": half under 5 mg/L and the
/// limit over it, half on the line, and a limit under the line.
#[test]
fn the_carbon_line_goes_by_the_half() {
    let runoff = Bottle::printed().kind(RUNOFF);
    let balance = |limit: u32| numbers(&runoff.below(ORGANIC_CARBON, limit))[BALANCE_CHECK];
    assert_eq!(balance(9.9f32.to_bits()), 1);
    assert_eq!(balance(limit_of(CARBON_LINE - 1)), 1);
    assert_eq!(balance(limit_of(CARBON_LINE)), 0);
    assert_eq!(balance(5f32.to_bits()), 1);
    assert_eq!(balance(LEAST_LIMIT_BITS), 1);
    assert_eq!(balance(MOST_BITS), 0);
}

/// ".. and docket agreement still use the half."
#[test]
fn agreement_goes_by_the_half() {
    let bottle = Bottle::doubtful();
    let agree = |first: &Bottle, second: &Bottle| agree(&record(first), &record(second));
    let below = bottle.below(POTASSIUM, limit_with(2_000));
    for (amount, agrees) in [
        (0, false),
        (900, true),
        (1_000, true),
        (1_111, true),
        (2_000, false),
    ] {
        assert_eq!(
            agree(&below, &bottle.amount(POTASSIUM, amount)),
            agrees,
            "{amount}"
        );
    }
    assert!(agree(&below, &bottle.below(POTASSIUM, limit_with(1_800))));
    assert!(!agree(&below, &bottle.below(POTASSIUM, limit_with(1_600))));
}

/// "A chlorine range that contains 0 makes Na/Cl not applicable": wherever
/// chloride is below its limit, also where sodium is missing. Chloride missing
/// stays 4.
#[test]
fn below_chloride_has_no_ratio() {
    for kind in KINDS {
        let judged = (WET_ONLY..=STEMFLOW).contains(&kind);
        let ratio = |bottle: Bottle| numbers(&bottle.kind(kind))[RATIO_CHECK];
        for limit in [LEAST_LIMIT_BITS, 1.5f32.to_bits(), MOST_BITS] {
            let below = Bottle::printed().below(CHLORIDE, limit);
            assert_eq!(ratio(below.clone()), 0);
            assert_eq!(ratio(below.missing(SODIUM)), 0);
            assert_eq!(ratio(below.below(SODIUM, limit)), 0);
            assert_eq!(ratio(below.amount(SODIUM, 0)), 0);
        }
        let missing = Bottle::printed().missing(CHLORIDE);
        let four = if judged { 4 } else { 0 };
        assert_eq!(ratio(missing.clone()), four);
        assert_eq!(ratio(missing.below(SODIUM, LEAST_LIMIT_BITS)), four);
        assert_eq!(ratio(missing.missing(SODIUM)), four);
        assert_eq!(ratio(Bottle::printed().amount(CHLORIDE, 0)), 0);
    }
}

/// "Na/Cl .. may now say undecided": sodium below its limit is 0 at its least, and
/// so the ratio is never within for all of it. 2 × 4350 × 2,821 is 2821 × 8,700.
#[test]
fn below_sodium_is_undecided_or_outside() {
    for (limit, chloride, verdict) in [
        (2_821, 8_700, 3),
        (2_820, 8_700, 2),
        (2_821, 8_701, 2),
        (2_821, 2_900, 3),
        (200_000, 1, 3),
        (10, 30, 3),
        (10, 31, 2),
    ] {
        let bottle = Bottle::printed()
            .below(SODIUM, limit_with(limit))
            .amount(CHLORIDE, chloride);
        let found = numbers(&bottle)[RATIO_CHECK];
        assert_eq!(found, verdict, "{limit} to {chloride}");
    }
}

/// "Nitrogen follow[s] the same rule": (TN, NO3-N, NH4-N), those with a mark are
/// below a limit of that amount.
#[test]
fn nitrogen_by_ranges() {
    let at = |amount: u32| (1, crate::cases::floats::float_of(amount));
    let up_to = |amount: u32| (2, limit_with(amount));
    for (total, nitrate, ammonium, verdict) in [
        // TN is a range too: only nothing is within for all of it.
        (up_to(100), at(0), at(0), 1),
        (up_to(100), at(1), at(0), 3),
        (up_to(100), at(60), at(40), 3),
        (up_to(100), at(60), at(41), 2),
        (up_to(100), up_to(10), at(0), 3),
        (up_to(100), up_to(10), at(100), 3),
        (up_to(100), up_to(10), at(101), 2),
        // The greatest sum on TN and one over, the least sum on it and one over.
        (at(100), up_to(60), at(40), 1),
        (at(100), up_to(60), at(41), 3),
        (at(100), up_to(60), at(100), 3),
        (at(100), up_to(60), at(101), 2),
        (at(100), up_to(60), up_to(40), 1),
        (at(100), up_to(60), up_to(41), 3),
        (at(0), up_to(60), up_to(40), 3),
        (up_to(50), up_to(60), up_to(40), 3),
    ] {
        let bottle = Bottle::printed()
            .reading(TOTAL_NITROGEN, total.0, total.1)
            .reading(NITRATE, nitrate.0, nitrate.1)
            .reading(AMMONIUM, ammonium.0, ammonium.1);
        let found = numbers(&bottle)[NITROGEN_CHECK];
        assert_eq!(found, verdict, "{total:?} {nitrate:?} {ammonium:?}");
        let missing = numbers(&bottle.missing(NITRATE))[NITROGEN_CHECK];
        assert_eq!(missing, 4);
    }
}

/// The limit's own amount, not twice its half's: 25 tenths of a µg/L, of which
/// the half is 12 or 13.
#[test]
fn a_range_ends_at_the_limit_s_own_amount() {
    for tenths in [24.8, 25.2] {
        let limit = (tenths / 10_000f32).to_bits();
        let bottle = Bottle::printed().below(NITRATE, limit).amount(AMMONIUM, 0);
        let nitrogen = |total| numbers(&bottle.amount(TOTAL_NITROGEN, total))[NITROGEN_CHECK];
        assert_eq!([24, 25, 26].map(nitrogen), [3, 1, 1]);
    }
}

/// Demand 3's undecided "comes exactly when the check applies, no needed reading
/// is missing and both outcomes occur": 0 and 4 stay before it.
#[test]
fn what_does_not_apply_and_what_is_missing_goes_first() {
    let undecided = Bottle::without_ions()
        .conductivity(200)
        .alkalinity(81)
        .below(CHLORIDE, limit_with(100));
    let balance = |bottle: &Bottle| numbers(bottle)[BALANCE_CHECK];
    assert_eq!(balance(&undecided), 3);
    assert_eq!(balance(&undecided.kind(STEMFLOW)), 0);
    assert_eq!(balance(&undecided.missing(POTASSIUM)), 4);
    assert_eq!(balance(&undecided.kind(RUNOFF)), 0);
    assert_eq!(
        balance(&undecided.kind(RUNOFF).amount(ORGANIC_CARBON, 1)),
        3
    );
    assert_eq!(balance(&undecided.kind(BULK)), 3);
}
