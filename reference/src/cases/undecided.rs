//! Call 7: records found by search with verdict 3, and their neighbours.
//!
//! For the ion balance the search looks, at every p that isn't a multiple of
//! 100, for whole numbers N at which an end of the span of hydrogen falls
//! strictly between h and h + 1: there the inequality holds for one fraction and
//! fails for another. For conductivity it looks for plain sums that the bracket
//! of y² takes to both sides of a limit, at any p.

use super::bottle::Bottle;
use super::conducting::edges;
use super::generator::Generator;
use super::solver::{Bound, End, ENDS};
use super::Cases;
use crate::hydrogen::Ph;
use crate::numbers::{CARBON_LINE, LEAST_PH, MOST_PH, ORGANIC_CARBON, RUNOFF, SOIL_WATER};

pub fn all(cases: &mut Cases) {
    balance(cases);
    conductivity(cases);
}

/// Every p at which hydrogen isn't whole, with its floor.
fn broken_hydrogen() -> impl Iterator<Item = (u32, i128)> {
    (LEAST_PH..=MOST_PH).filter_map(|p| {
        let ph = Ph::new(p).ok()?;
        (!ph.has_whole_hydrogen()).then(|| (p, i128::from(ph.floor())))
    })
}

/// Bottles with an end of the span before, in, and after the place between h
/// and h + 1.
fn before_in_and_after(
    cases: &mut Cases,
    generator: &mut Generator,
    bound: Bound,
    ph: (u32, i128),
) {
    let (p, h) = ph;
    for n in bound.last_up_to(h) - 1..=bound.last_up_to(h + 1) + 1 {
        if let Some(bottle) = bound.bottle(generator, p, n) {
            judge_twice(cases, &bottle);
        }
    }
}

/// As it is, and as runoff with little enough carbon.
fn judge_twice(cases: &mut Cases, bottle: &Bottle) {
    cases.judge(bottle);
    let runoff = bottle.kind(RUNOFF);
    cases.judge(&runoff.amount(ORGANIC_CARBON, CARBON_LINE - 1));
}

/// For the ion balance an end is a multiple of 10^3 divided by 9, 11, 19 or 21:
/// it falls between h and h + 1 at 5 to 13 p, by the divisor, and on neither, as
/// no such floor ends in 000 or 999.
fn balance(cases: &mut Cases) {
    let mut generator = Generator::new(401);
    for (p, h) in broken_hydrogen() {
        for tenths in [200, 201] {
            for end in ENDS {
                let bound = Bound { tenths, end };
                let possible = bound.is_between(bound.last_up_to(h) + 1, h);
                let now_and_then = p % 97 == 0;
                if possible || now_and_then {
                    before_in_and_after(cases, &mut generator, bound, (p, h));
                }
            }
        }
    }
}

/// Plain sums on both sides of each edge, where hydrogen isn't whole: further to
/// each than the 3.5 steps that one u of hydrogen makes, from h to h + 1.
fn conductivity(cases: &mut Cases) {
    let mut generator = Generator::new(402);
    // More acid rain than this has more conductivity than is measured here.
    let chosen = broken_hydrogen().filter(|(p, _)| *p > 500).step_by(40);
    for ((p, _), tenths) in chosen.zip([100, 101, 200, 201, 900].into_iter().cycle()) {
        let Ok(ph) = Ph::new(p) else { continue };
        for edge in edges(tenths) {
            let bottles = (-4..=4).filter_map(|steps| edge.bottle(&mut generator, ph, steps));
            bottles.for_each(|bottle| judge_twice(cases, &bottle));
        }
    }
}

/// A bottle of bulk water with an undecided ion balance: at the first p at which
/// this end falls strictly between h and h + 1.
pub fn undecided_balance() -> Option<Bottle> {
    let mut generator = Generator::new(403);
    let (tenths, end) = (201, End::Greatest);
    let bound = Bound { tenths, end };
    let later = broken_hydrogen().filter(|(p, _)| *p > 500);
    later.into_iter().find_map(|(p, h)| {
        let n = bound.last_up_to(h) + 1;
        let between = bound.is_between(n, h);
        between
            .then(|| bound.bottle(&mut generator, p, n))
            .flatten()
    })
}

/// A bottle of soil water with undecided conductivity at this pH, and nothing
/// else that could be outside or missing: the first plain sum that is too high
/// with the greatest y² and not with the least.
pub fn undecided_conductivity(ph: u32) -> Option<Bottle> {
    let [_, _, too_high, _] = edges(200);
    let bottle = too_high.bottle(&mut Generator::new(403), Ph::new(ph).ok()?, 1)?;
    Some(bottle.kind(SOIL_WATER))
}

#[cfg(test)]
mod tests {
    use super::*;
    use crate::checks::{verdicts, Verdict};
    use crate::numbers::{BALANCE_CHECK, CHECKS};
    use crate::record::Record;

    fn numbers(bottle: Option<Bottle>) -> Option<[u32; CHECKS]> {
        let record = Record::read(bottle?.words()).ok()?;
        Some(verdicts(&record).map(Verdict::number))
    }

    #[test]
    fn verdict_3_is_found_by_search() {
        let balance = numbers(undecided_balance());
        assert_eq!(balance.map(|verdicts| verdicts[BALANCE_CHECK]), Some(3));
        for ph in [501, 600] {
            let conductivity = numbers(undecided_conductivity(ph));
            assert_eq!(conductivity, Some([0, 3, 0, 0]), "pH {ph}");
        }
    }
}
