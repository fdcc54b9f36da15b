//! Call 7: conductivity at higher strength. Ionic strength at the squares where
//! e passes a thousandth and beside them, the strongest water there may be, and
//! bottles that the plain sum would judge otherwise.

use super::bottle::{plausible, Bottle};
use super::conducting::tenths_at_edges;
use super::generator::Generator;
use super::solver::{split, Fixed, Ions, TENTH_CHARGES};
use super::Cases;
use crate::activity::thousandths_up_to;
use crate::checks::{conductivity, plain_conductivity};
use crate::hydrogen::Ph;
use crate::ions::{ALKALINITY_VALENCE, HYDROGEN_VALENCE, TABLE};
use crate::numbers::{
    AMOUNT_CHARGE, CHLORIDE, EQUIVALENT, IONS, LEAST_PH, MOST_ALKALINITY, MOST_AMOUNT, MOST_BITS,
    MOST_PH, ROOT_STEPS, SOIL_WATER,
};
use crate::record::Record;

pub fn all(cases: &mut Cases) {
    squares(cases);
    strongest(cases);
    single_ions(cases);
    judged_otherwise(cases);
}

/// The bottle at each measured conductivity next to an edge.
pub fn at_every_edge(cases: &mut Cases, bottle: &Bottle) {
    for tenths in tenths_at_edges(bottle) {
        cases.judge(&bottle.conductivity(tenths));
    }
}

/// The first step of s at which the lower e is this many thousandths.
pub fn first_step_of(thousandths: u32) -> i128 {
    let (mut from, mut to) = (0, ROOT_STEPS / 2);
    while from < to {
        let middle = from + (to - from) / 2;
        if thousandths_up_to(middle) >= thousandths {
            to = middle;
        } else {
            from = middle + 1;
        }
    }
    from
}

/// Twice the strength of which so many steps of s are exactly the root, in u:
/// 2,000 for each of their square.
pub fn square_of(steps: i128) -> i128 {
    2 * EQUIVALENT / (ROOT_STEPS * ROOT_STEPS) * steps * steps
}

/// Twice the strength on both sides of both places at which a thousandth of e is
/// passed: the last and the first sum, in steps of 10^3 u, on which the upper e
/// goes on, and the same for the lower e.
pub fn sums_about(thousandths: u32) -> [i128; 4] {
    let first = first_step_of(thousandths);
    let (upper, lower) = (square_of(first - 1), square_of(first));
    [upper, upper + AMOUNT_CHARGE, lower - AMOUNT_CHARGE, lower]
}

/// Where hydrogen is whole, all sums are multiples of 10^3 u, and a square is
/// met; elsewhere the next sum that is.
fn squares(cases: &mut Cases) {
    let mut generator = Generator::new(501);
    for thousandths in [1, 2, 5, 10, 20, 35, 50, 75, 100, 125, 150, 170, 185] {
        for sum in sums_about(thousandths) {
            for ph in [600, 1_000, 555] {
                if let Some(bottle) = bottle_weighing(&mut generator, ph, sum, &Fixed::default()) {
                    at_every_edge(cases, &bottle);
                }
            }
        }
    }
}

/// A bottle whose sum of charges times valences is this many u, with hydrogen at
/// its floor, or the last that is no more; nothing where the search gives up.
/// Some amounts may be given.
pub fn bottle_weighing(
    generator: &mut Generator,
    ph: u32,
    sum: i128,
    fixed: &Fixed,
) -> Option<Bottle> {
    let hydrogen = HYDROGEN_VALENCE * i128::from(Ph::new(ph).ok()?.floor());
    let rest = (sum - hydrogen).div_euclid(AMOUNT_CHARGE);
    let ions = (0..20_000).find_map(|_| ions_weighing(generator, rest, fixed))?;
    Some(ions.bottle().ph(ph).kind(SOIL_WATER))
}

/// What an ion of this amount adds to the sum, in units of 10^3 u.
fn weight(ion: usize, amount: u32) -> i128 {
    TABLE[ion].valence * TABLE[ion].factor * i128::from(amount)
}

/// What so much alkalinity adds, in the same units.
fn alkalinity_weight(tenths: u32) -> i128 {
    ALKALINITY_VALENCE * TENTH_CHARGES * i128::from(tenths)
}

/// Draws all but chloride and alkalinity, then searches these two. A given
/// chloride isn't kept.
fn ions_weighing(generator: &mut Generator, sum: i128, fixed: &Fixed) -> Option<Ions> {
    let drawn = drawn_for(generator, sum);
    let mut amounts = std::array::from_fn(|ion| fixed[ion].unwrap_or(drawn[ion]));
    amounts[CHLORIDE] = 0;
    let drawn: i128 = (0..IONS).map(|ion| weight(ion, amounts[ion])).sum();
    let rest = sum - drawn;
    if rest > alkalinity_weight(MOST_ALKALINITY) {
        return None;
    }
    let (chloride, alkalinity) = split(rest, weight(CHLORIDE, 1), alkalinity_weight(1))?;
    amounts[CHLORIDE] = chloride;
    Some(Ions {
        amounts,
        alkalinity,
    })
}

/// Now anything up to a twelfth of the sum each, now about as much of each as
/// makes the sum with all the others.
fn drawn_for(generator: &mut Generator, sum: i128) -> [u32; IONS] {
    let every: i128 = (0..IONS).map(|ion| weight(ion, MOST_AMOUNT)).sum();
    let level = i128::from(MOST_AMOUNT) * sum / (every + alkalinity_weight(MOST_ALKALINITY));
    let is_level = generator.once_in(2);
    std::array::from_fn(|ion| {
        let drawn = if is_level {
            generator.near(level.clamp(0, i128::from(MOST_AMOUNT)) as u32, 30)
        } else {
            let part = (sum / 12 / weight(ion, 1)).clamp(0, i128::from(MOST_AMOUNT));
            generator.below(part as u32 + 1)
        };
        drawn.min(MOST_AMOUNT)
    })
}

/// The most of everything, of all cations and of all anions, at both ends of pH
/// and beside them.
fn strongest(cases: &mut Cases) {
    let none = Bottle::without_ions().kind(SOIL_WATER);
    let most = |ions: std::ops::Range<usize>| {
        let measured = ions.fold(none.clone(), |bottle, ion| {
            bottle.reading(ion, 1, MOST_BITS)
        });
        [measured.alkalinity(0), measured.alkalinity(MOST_ALKALINITY)]
    };
    for bottle in [0..IONS, 0..0, 0..IONS / 2, IONS / 2..IONS]
        .into_iter()
        .flat_map(most)
    {
        for ph in [LEAST_PH, LEAST_PH + 1, 700, MOST_PH - 1, MOST_PH] {
            at_every_edge(cases, &bottle.ph(ph));
        }
    }
}

/// Each ion alone, from a trace to the most: what its own charge does.
fn single_ions(cases: &mut Cases) {
    let none = Bottle::without_ions().kind(SOIL_WATER).ph(700);
    for ion in 0..IONS {
        for amount in [5_000, 50_000, 500_000, MOST_AMOUNT] {
            at_every_edge(cases, &none.amount(ion, amount));
        }
    }
    for alkalinity in [200, 2_000, 20_000, MOST_ALKALINITY] {
        at_every_edge(cases, &none.alkalinity(alkalinity));
    }
    for ph in [200, 250, 300, 350, 400, 450, 500, 600] {
        at_every_edge(cases, &none.ph(ph));
    }
}

/// How the plain sum is judged, and how the corrected one: all that differ.
const OTHERWISE: [(u32, u32); 4] = [(1, 2), (2, 1), (1, 3), (2, 3)];

/// So many bottles each for which both are judged like that, as they are drawn.
fn judged_otherwise(cases: &mut Cases) {
    let mut generator = Generator::new(502);
    for both in OTHERWISE {
        for _ in 0..25 {
            let found = (0..5_000).find_map(|_| {
                let bottle = plausible(&mut generator);
                (both_verdicts(&bottle) == Some(both)).then_some(bottle)
            });
            found.iter().for_each(|bottle| cases.judge(bottle));
        }
    }
}

/// The verdicts on the plain sum and on the corrected one.
fn both_verdicts(bottle: &Bottle) -> Option<(u32, u32)> {
    let record = Record::read(bottle.words()).ok()?;
    let (plain, corrected) = (plain_conductivity(&record), conductivity(&record));
    Some((plain.number(), corrected.number()))
}

#[cfg(test)]
mod tests {
    use super::*;
    use crate::activity::{lower_root, thousandths_from, upper_root};
    use crate::checks::Conductivity;

    /// Both e are the thousandth between the two squares, and one of them has
    /// gone on, or not yet come, at the squares themselves.
    #[test]
    fn the_sums_are_on_both_sides_of_a_thousandth() {
        for thousandths in [1, 10, 185] {
            let found = sums_about(thousandths).map(|sum| {
                let (lower, upper) = (lower_root(sum), upper_root(sum));
                (thousandths_up_to(lower), thousandths_from(upper))
            });
            let (before, at, after) = (thousandths - 1, thousandths, thousandths + 1);
            let between = (before, after);
            assert_eq!(found, [(before, at), between, between, (at, after)]);
        }
    }

    #[test]
    fn a_bottle_weighs_what_was_wanted() {
        let mut generator = Generator::new(9);
        for (ph, sum) in [(600, 2_000 * 30_000 * 30_000), (555, 60_000_000_000_000)] {
            let bottle =
                bottle_weighing(&mut generator, ph, sum, &Fixed::default()).expect("a bottle");
            let record = Record::read(bottle.words()).expect("a record");
            let check = Conductivity::of(&record).expect("all ions");
            let found = check.weighed.least + i128::from(record.ph.floor());
            assert!((0..AMOUNT_CHARGE).contains(&(sum - found)));
            assert!(ph != 600 || sum == found);
        }
    }

    /// What each verdict becomes where the sum is corrected, all of it found.
    #[test]
    fn every_other_judgement_is_found() {
        let mut generator = Generator::new(502);
        for both in OTHERWISE {
            let found = (0..5_000).any(|_| both_verdicts(&plausible(&mut generator)) == Some(both));
            assert!(found, "{both:?}");
        }
    }
}
