//! Call 7: each inequality on its limit and one step beside it.

use super::bottle::Bottle;
use super::conducting::{edges, tenths_at_edges};
use super::floats::{float_of, least_float_of, limit_of, DOUBLE};
use super::generator::Generator;
use super::solver::{Bound, ENDS};
use super::Cases;
use crate::hydrogen::Ph;
use crate::numbers::{
    AMMONIUM, BULK, CARBON_LINE, CHLORIDE, KINDS, LEAST_LIMIT_BITS, LEAST_PH, MOST_AMOUNT, MOST_PH,
    NITRATE, ORGANIC_CARBON, RUNOFF, SODIUM, SOIL_WATER, TOTAL_NITROGEN,
};

pub fn all(cases: &mut Cases) {
    balance(cases);
    conductivity(cases);
    printed(cases);
    classes(cases);
    sodium_chloride(cases);
    nitrogen(cases);
    organic_carbon(cases);
}

/// Where p is a multiple of 100, hydrogen is whole: the end of the span on it,
/// and one step before and after.
fn on_and_beside(cases: &mut Cases, generator: &mut Generator, bound: Bound, ph: u32) {
    let hydrogen = Ph::new(ph).map_or(0, |ph| i128::from(ph.floor()));
    let on = bound.last_up_to(hydrogen);
    for n in [on - 1, on, on + 1] {
        if let Some(bottle) = bound.bottle(generator, ph, n) {
            cases.judge(&bottle);
        }
    }
}

fn balance(cases: &mut Cases) {
    let mut generator = Generator::new(301);
    for ph in (LEAST_PH..=MOST_PH).step_by(100) {
        for end in ENDS {
            for tenths in [1, 100, 200, 201, 1_000] {
                on_and_beside(cases, &mut generator, Bound { tenths, end }, ph);
            }
        }
    }
}

/// Each end of the bracket of y² next to each limit, where hydrogen is whole:
/// the last two plain sums before it and the first two after. Between the two
/// ends of a bracket conductivity is undecided.
fn conductivity(cases: &mut Cases) {
    let mut generator = Generator::new(302);
    let classes = [90, 100, 101, 200, 201];
    let whole = [500, 600, 900].map(|ph| classes.map(|tenths| (ph, tenths)));
    let strong = [(300, 5_000), (400, 1_000), (700, 2_000), (800, 30_000)];
    for (ph, tenths) in whole.into_iter().flatten().chain(strong) {
        let Ok(ph) = Ph::new(ph) else { continue };
        for edge in edges(tenths) {
            let bottles = (-1..=2).filter_map(|steps| edge.bottle(&mut generator, ph, steps));
            bottles.for_each(|bottle| cases.judge(&bottle));
        }
    }
}

/// The printed sample at every measured conductivity next to an edge.
fn printed(cases: &mut Cases) {
    for tenths in tenths_at_edges(&Bottle::printed()) {
        cases.judge(&Bottle::printed().conductivity(tenths));
    }
}

/// The same ions at 10.0 and 10.1, at 20.0 and 20.1 µS/cm.
fn classes(cases: &mut Cases) {
    for alkalinity in (70..=130).step_by(3) {
        for tenths in [99, 100, 101, 199, 200, 201] {
            let bottle = Bottle::without_ions().conductivity(tenths);
            cases.judge(&bottle.alkalinity(alkalinity));
            cases.judge(&bottle.alkalinity(alkalinity).ph(501));
            cases.judge(
                &bottle
                    .alkalinity(10 * alkalinity)
                    .ph(501)
                    .amount(SODIUM, 20_000),
            );
        }
    }
}

/// Sodium and chloride whose ratio of charges is 0.5 or 1.5 exactly:
/// 2 × 4350 × 2,821 is 2821 × 8,700, and 2 × 4350 × 2,821 is 3 × 2821 × 2,900.
/// The last two pairs are whole µg/L: in whole µg/L a step of one beside them
/// wouldn't tell.
const EXACT_RATIOS: [(u32, u32); 5] = [
    (2_821, 8_700),
    (2_821, 2_900),
    (5_642, 17_400),
    (28_210, 87_000),
    (28_210, 29_000),
];

fn sodium_chloride(cases: &mut Cases) {
    for kind in KINDS {
        for (sodium, chloride) in EXACT_RATIOS {
            let bottle = Bottle::printed().kind(kind);
            for (sodium, chloride) in [
                (sodium, chloride),
                (sodium - 1, chloride),
                (sodium + 1, chloride),
                (sodium, chloride - 1),
                (sodium, chloride + 1),
            ] {
                cases.judge(&bottle.amount(SODIUM, sodium).amount(CHLORIDE, chloride));
            }
        }
        little_chloride(cases, kind);
    }
}

/// Chloride that rounds to 0 or 1, or to the last that whole µg/L would take
/// for 0, with sodium, without, and missing; below the least limit, where there
/// is no ratio whatever sodium is, also where half the limit has one.
fn little_chloride(cases: &mut Cases, kind: u32) {
    let one = least_float_of(1);
    for bits in [0, 1, one - 1, one, float_of(4)] {
        let bottle = Bottle::printed().kind(kind).reading(CHLORIDE, 1, bits);
        cases.judge(&bottle);
        cases.judge(&bottle.amount(SODIUM, 0));
        cases.judge(&bottle.amount(SODIUM, 1));
        cases.judge(&bottle.missing(SODIUM));
    }
    let below = Bottle::printed()
        .kind(kind)
        .below(CHLORIDE, LEAST_LIMIT_BITS);
    cases.judge(&below);
    cases.judge(&below.missing(SODIUM));
    for sodium in [1, 2, 4, 5] {
        cases.judge(&below.amount(SODIUM, sodium));
    }
}

/// Nitrate and ammonium: none and next to none, that of the printed sample, on
/// both sides of a tie, and the greatest that total nitrogen reaches. In whole
/// µg/L twice 2,504 would be within with a tenth too little of total nitrogen,
/// and twice 2,495 outside with enough of it.
const NITROGEN: [(u32, u32); 7] = [
    (0, 0),
    (1, 0),
    (2_500, 2_500),
    (313, 312),
    (2_504, 2_504),
    (2_495, 2_495),
    (MOST_AMOUNT / 2, MOST_AMOUNT / 2),
];

fn nitrogen(cases: &mut Cases) {
    for kind in KINDS {
        for (nitrate, ammonium) in NITROGEN {
            let bottle = Bottle::printed().kind(kind);
            let bottle = bottle.amount(NITRATE, nitrate).amount(AMMONIUM, ammonium);
            let sum = nitrate + ammonium;
            for total in [sum.saturating_sub(1), sum, (sum + 1).min(MOST_AMOUNT)] {
                cases.judge(&bottle.amount(TOTAL_NITROGEN, total));
            }
        }
        let too_much = Bottle::printed().kind(kind).amount(NITRATE, MOST_AMOUNT);
        cases.judge(&too_much.amount(TOTAL_NITROGEN, MOST_AMOUNT));
        cases.judge(&too_much.below(TOTAL_NITROGEN, float_of(MOST_AMOUNT)));
    }
}

/// Runoff's line, the amount on it and the one before, measured and as half a
/// limit; also an amount that whole µg/L would put on the line.
fn organic_carbon(cases: &mut Cases) {
    let line = least_float_of(CARBON_LINE);
    let (before, near) = (CARBON_LINE - 1, CARBON_LINE - 4);
    for kind in [BULK, RUNOFF, SOIL_WATER] {
        let bottle = Bottle::printed().kind(kind);
        for bits in [float_of(before), line - 1, line, float_of(CARBON_LINE), 0] {
            cases.judge(&bottle.reading(ORGANIC_CARBON, 1, bits));
        }
        for limit in [limit_of(before), line + DOUBLE - 1, line + DOUBLE] {
            cases.judge(&bottle.below(ORGANIC_CARBON, limit));
        }
        cases.judge(&bottle.amount(ORGANIC_CARBON, near));
        cases.judge(&bottle.below(ORGANIC_CARBON, limit_of(near)));
        for amount in [before, CARBON_LINE] {
            cases.judge(&bottle.amount(ORGANIC_CARBON, amount).missing(CHLORIDE));
        }
        cases.judge(&bottle.missing(ORGANIC_CARBON).missing(CHLORIDE));
    }
}

#[cfg(test)]
mod tests {
    use super::*;
    use crate::checks::{conductivity_limit, Conductivity, Verdict};
    use crate::record::Record;

    /// Too low and too high in each of the three classes of measured
    /// conductivity: undecided where hydrogen is whole, outside and within beside
    /// that.
    #[test]
    fn whole_hydrogen_has_undecided_conductivity_in_every_class() {
        let mut cases = Cases::default();
        conductivity(&mut cases);
        let mut found = Vec::new();
        for words in cases.of_call(7) {
            let record = Record::read(words).expect("a record");
            assert!(record.ph.has_whole_hydrogen());
            let check = Conductivity::of(&record).expect("all ions");
            let h = i128::from(record.ph.floor());
            let calculated = check.calculated(check.bracket(h, true), h, true);
            let (from, to) = check.limits();
            let is_high = 100 * calculated.least > (from + to) / 2;
            let m = conductivity_limit(record.conductivity);
            found.push((m, is_high, check.verdict(h, true)));
        }
        for m in [30, 20, 10] {
            for is_high in [false, true] {
                for verdict in [Verdict::Within, Verdict::Outside, Verdict::Undecided] {
                    let here = |&&case: &&(i128, bool, Verdict)| case == (m, is_high, verdict);
                    let times = found.iter().filter(here).count();
                    assert!(times >= 6, "{m} {is_high} {verdict:?} {times} times");
                }
            }
        }
    }
}
