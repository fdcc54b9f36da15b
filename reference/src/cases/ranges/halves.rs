//! What still goes by half the limit: runoff's line of carbon (call 7) and
//! agreement on a docket (calls 8, 9 and 16).

use crate::cases::bottle::Bottle;
use crate::cases::floats::{limit_of, limit_with};
use crate::cases::Cases;
use crate::numbers::{
    AMMONIUM, BULK, CARBON_LINE, CHLORIDE, IONS, LEAST_LIMIT_BITS, MOST_BITS, NITRATE,
    ORGANIC_CARBON, POTASSIUM, RUNOFF, SODIUM, TOTAL_NITROGEN,
};

pub fn all(cases: &mut Cases) {
    carbon(cases);
    agreement(cases);
    dockets(cases);
}

/// Limits with half under the line and the whole over it, with half on the line,
/// with the whole on the line: the balance within, outside and undecided.
fn carbon(cases: &mut Cases) {
    let runoff = Bottle::printed().kind(RUNOFF);
    let bottles = [
        runoff.clone(),
        runoff.alkalinity(900),
        runoff.below(CHLORIDE, limit_with(15_000)),
        runoff.missing(POTASSIUM),
    ];
    for bottle in bottles {
        for limit in [
            LEAST_LIMIT_BITS,
            limit_with(CARBON_LINE - 1),
            limit_with(CARBON_LINE),
            limit_with(CARBON_LINE + 1),
            limit_of(CARBON_LINE - 1),
            limit_of(CARBON_LINE),
            limit_with(2 * CARBON_LINE - 1),
            limit_with(2 * CARBON_LINE + 1),
            MOST_BITS,
        ] {
            cases.judge(&bottle.below(ORGANIC_CARBON, limit));
        }
    }
}

fn compare(cases: &mut Cases, first: &Bottle, second: &Bottle) {
    for (first, second) in [(first, second), (second, first)] {
        let (first, second) = (first.words(), second.words());
        cases.add(8, &[&[first.len() as u32], first, second].concat());
    }
}

/// Below 0.2 mg/L against measured amounts at 0, about the half and at the limit,
/// and against other limits: in every ion.
fn agreement(cases: &mut Cases) {
    let bottle = Bottle::doubtful();
    for ion in 0..IONS {
        let below = bottle.below(ion, limit_with(2_000));
        for amount in [0, 899, 900, 1_000, 1_111, 1_112, 1_999, 2_000] {
            compare(cases, &below, &bottle.amount(ion, amount));
        }
        for limit in [1_798, 1_800, 2_000, 2_222, 2_224, 1_000_000] {
            compare(cases, &below, &bottle.below(ion, limit_with(limit)));
        }
    }
}

/// Offers of one list (call 9), and what the docket then holds (call 16).
fn follow(cases: &mut Cases, bottles: &[Bottle]) {
    let offers: Vec<u32> = bottles
        .iter()
        .flat_map(|bottle| [&[bottle.words().len() as u32], bottle.words()].concat())
        .collect();
    cases.add(9, &offers);
    let held: Vec<u32> = bottles.iter().flat_map(|b| b.words().to_vec()).collect();
    cases.add(16, &held);
}

/// Repeats whose verdicts go by ranges and which agree, or not, by halves.
fn dockets(cases: &mut Cases) {
    // Within by half the limit, undecided by all of it: it stays open and is
    // confirmed by a repeat.
    let undecided = Bottle::printed()
        .kind(BULK)
        .below(NITRATE, limit_with(2_000))
        .amount(TOTAL_NITROGEN, 3_600);
    let half = undecided.amount(NITRATE, 1_000);
    let whole = undecided.amount(NITRATE, 2_000);
    let lower = undecided.below(NITRATE, limit_with(1_800));
    let far_lower = undecided.below(NITRATE, limit_with(1_700));
    for repeats in [
        vec![&undecided, &undecided],
        vec![&undecided, &whole, &whole],
        vec![&undecided, &half],
        vec![&undecided, &lower],
        vec![&undecided, &far_lower, &undecided],
        vec![&whole, &undecided, &whole],
        vec![&whole, &undecided, &lower],
    ] {
        follow(cases, &repeats.into_iter().cloned().collect::<Vec<_>>());
    }
    chloride(cases);
}

/// Below chloride has no ratio: a bottle that was outside in it alone closes its
/// docket, and with sodium missing or undecided it doesn't.
fn chloride(cases: &mut Cases) {
    let outside = Bottle::printed().amount(SODIUM, 18_000).alkalinity(300);
    let below = outside.below(CHLORIDE, limit_with(15_000));
    let sodium = outside.below(SODIUM, limit_with(18_000));
    let repeats = [
        [outside.clone(), below.clone(), outside.clone()],
        [below.clone(), outside.clone(), below.clone()],
        [
            sodium.clone(),
            outside.amount(SODIUM, 9_000),
            sodium.clone(),
        ],
        [
            sodium.clone(),
            sodium.below(SODIUM, limit_with(17_000)),
            sodium,
        ],
        [below.missing(SODIUM), below.missing(SODIUM), below],
    ];
    for bottles in repeats {
        follow(cases, &bottles);
        let little = bottles.map(|bottle| bottle.amount(AMMONIUM, 0).amount(NITRATE, 0));
        follow(cases, &little);
    }
}
