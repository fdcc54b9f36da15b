//! Call 7: the ion balance exactly met where each below reading is at 0 or at
//! its limit, and a step beside that.
//!
//! The inequality asks for the most hydrogen with the fewest cations and the most
//! anions, for the least with the most cations and the fewest anions. Of each of
//! these two corners both ends of the span of hydrogen are put on h: with one of
//! them the last choice stops to hold, with the other the first one begins to.

use super::Below;
use crate::cases::bottle::Bottle;
use crate::cases::generator::Generator;
use crate::cases::solver::{Bound, End, ENDS};
use crate::cases::Cases;
use crate::hydrogen::Ph;
use crate::ions::CATIONS;
use crate::numbers::{
    AMMONIUM, CHLORIDE, LEAST_LIMIT_BITS, LEAST_PH, MAGNESIUM, MOST_PH, NITRATE, ORGANIC_CARBON,
    POTASSIUM, SODIUM, SULPHATE, TOTAL_NITROGEN,
};

/// The ions that may be below their limits: the search needs calcium, chloride
/// and alkalinity.
const MAY_BE_BELOW: [usize; 6] = [AMMONIUM, MAGNESIUM, SODIUM, POTASSIUM, SULPHATE, NITRATE];

/// A corner of the ranges of all ions, by which end of each it takes.
#[derive(Clone, Copy, Debug, PartialEq, Eq)]
pub enum Corner {
    AsksForMost,
    AsksForLeast,
}

pub const CORNERS: [Corner; 2] = [Corner::AsksForMost, Corner::AsksForLeast];

impl Corner {
    /// Cations at their least and anions at their greatest ask for the most
    /// hydrogen.
    pub fn end_of(self, ion: usize) -> End {
        match (self, CATIONS.contains(&ion)) {
            (Corner::AsksForMost, true) | (Corner::AsksForLeast, false) => End::Least,
            _ => End::Greatest,
        }
    }
}

/// A bottle with some ions below their limits, one of whose corners has an end of
/// its span at N; nothing where the search gives up. Where anions are at their
/// greatest, the chloride that was found may be a limit as well.
pub fn bottle_at(
    generator: &mut Generator,
    (bound, corner): (Bound, Corner),
    ph: u32,
    n: i128,
    below: &Below,
) -> Option<Bottle> {
    let fixed = below.at(|ion| corner.end_of(ion));
    let bottle = bound.bottle_with(generator, ph, n, &fixed)?;
    let (_, chloride) = bottle.mark_and_bits(CHLORIDE);
    let bottle = below.in_bottle(&bottle);
    let is_little = (LEAST_LIMIT_BITS..=0.5f32.to_bits()).contains(&chloride);
    Some(match corner {
        Corner::AsksForMost if is_little => bottle.below(CHLORIDE, chloride),
        _ => bottle,
    })
}

pub fn all(cases: &mut Cases) {
    on_whole_hydrogen(cases);
    between_floor_and_next(cases);
}

/// The bottle, now and then with total nitrogen and carbon below their limits:
/// both have nothing to do with the balance.
fn judge(cases: &mut Cases, generator: &mut Generator, bottle: &Bottle) {
    let others = [TOTAL_NITROGEN, ORGANIC_CARBON];
    let bottle =
        others
            .into_iter()
            .fold(bottle.clone(), |bottle, place| match generator.once_in(3) {
                true => bottle.below(place, 2f32.to_bits()),
                false => bottle,
            });
    cases.judge(&bottle);
}

/// Where p is a multiple of 100, an end is met exactly; then one step before and
/// one after.
fn on_whole_hydrogen(cases: &mut Cases) {
    let mut generator = Generator::new(601);
    for ph in (LEAST_PH..=MOST_PH).step_by(100) {
        for end in ENDS {
            for corner in CORNERS {
                for tenths in [200, 201] {
                    let bound = Bound { tenths, end };
                    about_the_floor(cases, &mut generator, (bound, corner), ph);
                }
            }
        }
    }
}

/// Where an end can fall between h and h + 1: there it is undecided by hydrogen
/// alone, without the below readings.
fn between_floor_and_next(cases: &mut Cases) {
    let mut generator = Generator::new(602);
    let broken = (LEAST_PH..=MOST_PH).filter(|p| p % 100 != 0);
    for (p, ph) in broken.filter_map(|p| Some((p, Ph::new(p).ok()?))) {
        let h = i128::from(ph.floor());
        for (end, corner) in ENDS.into_iter().zip(CORNERS) {
            for tenths in [200, 201] {
                let bound = Bound { tenths, end };
                if bound.is_between(bound.last_up_to(h) + 1, h) {
                    about_the_floor(cases, &mut generator, (bound, corner), p);
                }
            }
        }
    }
}

/// One to six below ions, few of them with limits of 0.3 mg/L and more.
fn about_the_floor(cases: &mut Cases, generator: &mut Generator, corner: (Bound, Corner), ph: u32) {
    let h = Ph::new(ph).map_or(0, |ph| i128::from(ph.floor()));
    let on = corner.0.last_up_to(h);
    for n in [on - 1, on, on + 1] {
        let count = generator.between(1, MAY_BE_BELOW.len() as u32) as usize;
        let most = generator.pick(&[60, 600, 3_000]);
        let below = Below::drawn(generator, &MAY_BE_BELOW, count, most);
        if let Some(bottle) = bottle_at(generator, corner, ph, n, &below) {
            judge(cases, generator, &bottle);
        }
    }
}

#[cfg(test)]
mod tests {
    use super::*;
    use crate::checks::ion_balance;
    use crate::record::Record;

    fn verdict(bottle: &Bottle) -> u32 {
        ion_balance(&Record::read(bottle.words()).expect("a record")).number()
    }

    /// At whole hydrogen: on the end itself and on both sides of it. At a least
    /// end too much is asked for from the next N on, at a greatest end too little
    /// up to the one before.
    #[test]
    fn the_verdict_changes_next_to_each_end() {
        let mut generator = Generator::new(5);
        for (end, corner, due) in [
            (End::Least, Corner::AsksForMost, [1, 1, 3]),
            (End::Greatest, Corner::AsksForLeast, [3, 1, 1]),
            (End::Least, Corner::AsksForLeast, [3, 3, 2]),
            (End::Greatest, Corner::AsksForMost, [2, 3, 3]),
        ] {
            for (ph, tenths) in [(500, 200), (600, 201), (900, 200), (400, 201)] {
                let bound = Bound { tenths, end };
                let h = i128::from(Ph::new(ph).expect("a pH").floor());
                let on = bound.last_up_to(h);
                assert!(bound.reaches(h));
                let found = [on - 1, on, on + 1].map(|n| {
                    let below = Below::drawn(&mut generator, &MAY_BE_BELOW, 3, 600);
                    let bottle = bottle_at(&mut generator, (bound, corner), ph, n, &below);
                    verdict(&bottle.expect("a bottle"))
                });
                assert_eq!(found, due, "{bound:?} {corner:?} at {ph}");
            }
        }
    }

    /// All charges but hydrogen's are multiples of 10^3 u at both ends of every
    /// range, and 9, 11, 19 and 21 share nothing with that: an end on h or on
    /// h + 1 would need a floor that ends in 000 or in 999, and where hydrogen
    /// isn't whole none does. There no corner is ever exactly on a limit.
    #[test]
    fn no_corner_is_on_a_limit_where_hydrogen_is_broken() {
        for p in (LEAST_PH..=MOST_PH).filter(|p| p % 100 != 0) {
            let h = i128::from(Ph::new(p).expect("a pH").floor());
            for (end, tenths) in ENDS.into_iter().flat_map(|end| [(end, 200), (end, 201)]) {
                let bound = Bound { tenths, end };
                assert!(!bound.reaches(h) && !bound.reaches(h + 1), "p {p}");
            }
        }
    }
}
