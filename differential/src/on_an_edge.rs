//! Bottles whose conductivity changes its verdict with the next step of the
//! plain sum: where an end of the bracket of y² takes it to a limit.
//!
//! All parts of the plain sum but hydrogen's are multiples of 10^3 × 10^−13
//! µS/cm, and hydrogen's changes by 3.5 such steps from h to h + 1. The ions
//! that give a wanted sum are found by remainders here, where `Edge` of the
//! other implementation searches step by step.

use crate::ions::{drawn_below, inverse, Ions};
use crate::numbers::{
    AMMONIUM, CALCIUM, CHLORIDE, CONDUCTIVITY_TENTH, IONS, LEAST_PH, MAGNESIUM, MOST_AMOUNT,
    MOST_PH, NITRATE, POTASSIUM, SODIUM, SQUARE_UNIT, SULPHATE,
};
use crate::on_the_limit::tenths_from;
use reference::activity::Bracket;
use reference::cases::bottle::Bottle;
use reference::cases::conducting::{
    bracket_between, conducted, edges, Edge, CONDUCTED_BY_ALKALINITY,
};
use reference::cases::generator::Generator;
use reference::cases::ranges::Below;
use reference::cases::solver::Fixed;
use reference::hydrogen::Ph;
use reference::ions::HYDROGEN_CONDUCTANCE;

/// How often the ions are drawn again before a search gives up.
const DRAWS: usize = 4_000;

/// So many steps to both sides of an edge are drawn: more than hydrogen makes
/// from h to h + 1.
const STEPS: u32 = 5;

/// A bottle a few steps before or after an edge, half of them at whole pH.
pub fn bottle_on_an_edge(generator: &mut Generator) -> Option<Bottle> {
    let p = match generator.below(2) {
        0 => 100 * generator.between(LEAST_PH / 100, MOST_PH / 100),
        _ => generator.between(LEAST_PH, MOST_PH),
    };
    let ph = Ph::new(p).ok()?;
    // Less conductivity than hydrogen alone makes is never within.
    let least = 2 * HYDROGEN_CONDUCTANCE * i128::from(ph.floor()) / CONDUCTIVITY_TENTH;
    let tenths = tenths_from(generator, least as u32 + 10);
    let edge = generator.pick(&edges(tenths));
    let steps = i128::from(generator.below(2 * STEPS)) + 1 - i128::from(STEPS);
    let may_be_below = generator.pick(&MAY_BE_BELOW);
    let below = drawn_below(generator, &may_be_below, 20 * tenths);
    let ions = ions_on(generator, edge, ph, steps, &below)?;
    let bottle = ions.bottle_with(generator, ph, &below);
    Some(bottle.conductivity(tenths))
}

/// The ions that may be below their limits together: the search needs potassium
/// and chloride, and ammonium or magnesium, as without these every sum is even.
const MAY_BE_BELOW: [[usize; 5]; 2] = [
    [AMMONIUM, CALCIUM, SODIUM, SULPHATE, NITRATE],
    [MAGNESIUM, CALCIUM, SODIUM, SULPHATE, NITRATE],
];

/// Ions so many steps beyond the last plain sum before an edge, those below their
/// limits at 0 where the bracket's least end is on it and at their limits where
/// its greatest is. Their own bracket must be the one that the sum was worked out
/// with: the last one found is tried next.
fn ions_on(
    generator: &mut Generator,
    edge: Edge,
    ph: Ph,
    steps: i128,
    below: &Below,
) -> Option<Ions> {
    let fixed = below.at(|_| edge.bracket);
    let mut tried = Bracket {
        least: SQUARE_UNIT,
        greatest: SQUARE_UNIT,
    };
    (0..DRAWS).find_map(|_| {
        let sum = edge.conducted(tried, ph, steps);
        let ions = ions_conducting(generator, sum, &fixed)?;
        let found = bracket_between(&below.ends(&ions.amounts), ions.alkalinity, ph);
        let is_right = found == tried;
        tried = found;
        is_right.then_some(ions)
    })
}

/// The greatest number that divides what a tenth of a µg/L of chloride adds,
/// 2821 × 764 = 2² × 7 × 13 × 31 × 191, and what one of potassium does,
/// 2558 × 735 = 2 × 3 × 5 × 7² × 1279. Both are f × c times a unit that all
/// charges have, so a finer scale of amounts leaves it as it is.
const SHARED: i128 = 14;
const A: i128 = conducted(CHLORIDE) / SHARED;
const B: i128 = conducted(POTASSIUM) / SHARED;
const INVERSE: i128 = inverse(A, B);

/// Draws all but potassium and chloride; these two are a solution of
/// chloride × A + potassium × B = rest / SHARED. The least chloride is below B,
/// 134,295 tenths of a µg/L, and up to 200 mg/L there may be 14 more, each B
/// further: any of them is drawn, so that potassium need not make up all the
/// rest. In strong water the two can't make up much of it.
fn ions_conducting(generator: &mut Generator, sum: i128, fixed: &Fixed) -> Option<Ions> {
    let mut amounts = [0; IONS];
    let part = sum / generator.pick(&[4, 12]);
    let mut share = |conducted: i128| {
        let most = part / conducted;
        i128::from(generator.below(most.clamp(0, i128::from(MOST_AMOUNT)) as u32 + 1))
    };
    for (ion, amount) in amounts.iter_mut().enumerate() {
        *amount = fixed[ion].map_or_else(|| share(conducted(ion)), i128::from);
    }
    let alkalinity = share(CONDUCTED_BY_ALKALINITY);
    (amounts[POTASSIUM], amounts[CHLORIDE]) = (0, 0);
    let parts: i128 = (0..IONS).map(|ion| amounts[ion] * conducted(ion)).sum();
    let rest = sum - alkalinity * CONDUCTED_BY_ALKALINITY - parts;
    if rest < 0 || rest % SHARED != 0 {
        return None;
    }
    let rest = rest / SHARED;
    let least = rest % B * INVERSE % B;
    let most = (rest / A).min(i128::from(MOST_AMOUNT));
    if least > most {
        return None;
    }
    let more = generator.below(((most - least) / B) as u32 + 1);
    amounts[CHLORIDE] = least + B * i128::from(more);
    amounts[POTASSIUM] = (rest - amounts[CHLORIDE] * A) / B;
    Ions::checked(amounts, alkalinity)
}

#[cfg(test)]
mod tests {
    use super::*;
    use reference::checks::{conductivity, conductivity_limit, Conductivity};
    use reference::record::Record;
    use std::collections::HashMap;

    /// Where A has an inverse by B, no greater number than SHARED divides both.
    #[test]
    fn nothing_more_is_shared() {
        assert_eq!((A * SHARED, B * SHARED), (2_821 * 764, 2_558 * 735));
        assert_eq!(A * INVERSE % B, 1);
    }

    /// In each class, too low and too high, at whole pH and elsewhere: within,
    /// outside and undecided.
    #[test]
    fn every_verdict_is_common_on_every_side() {
        let mut generator = Generator::new(5);
        let mut times = HashMap::new();
        for bottle in (0..6_000).filter_map(|_| bottle_on_an_edge(&mut generator)) {
            let record = Record::read(bottle.words()).expect("a record");
            let check = Conductivity::of(&record).expect("all ions");
            let (h, is_whole) = (
                i128::from(record.ph.floor()),
                record.ph.has_whole_hydrogen(),
            );
            let calculated = check.calculated(check.bracket(h, is_whole), h, is_whole);
            let (from, to) = check.limits();
            let is_high = 100 * calculated.least > (from + to) / 2;
            let m = conductivity_limit(record.conductivity);
            let verdict = conductivity(&record).number();
            *times.entry((m, is_high, is_whole, verdict)).or_insert(0) += 1;
        }
        let all_common = times.values().all(|&times| times > 15);
        assert!(times.len() == 3 * 2 * 2 * 3 && all_common, "{times:?}");
    }

    #[test]
    fn the_last_before_an_edge_and_the_first_after_it_differ() {
        let mut generator = Generator::new(6);
        let ph = Ph::new(600).expect("a pH");
        for tenths in [100, 200, 201, 3_000] {
            for edge in edges(tenths) {
                let found = [0, 1].map(|steps| {
                    let none = Below::default();
                    let ions = ions_on(&mut generator, edge, ph, steps, &none).expect("ions");
                    let bottle = ions.bottle(ph).conductivity(tenths);
                    conductivity(&Record::read(bottle.words()).expect("a record"))
                });
                assert_ne!(found[0], found[1], "{edge:?}");
            }
        }
    }
}
