//! Call 7: calculated conductivity next to a limit where each below reading is at
//! 0 or at its limit. No end is ever exactly on a limit: the last plain sum
//! before it and the first after.

use super::Below;
use crate::activity::Bracket;
use crate::cases::bottle::Bottle;
use crate::cases::conducting::{bracket_between, edges, ions_conducting, Edge};
use crate::cases::generator::Generator;
use crate::cases::Cases;
use crate::hydrogen::Ph;
use crate::numbers::{AMMONIUM, CALCIUM, MAGNESIUM, NITRATE, SODIUM, SQUARE_UNIT, SULPHATE};

/// The ions that may be below their limits together: the search needs potassium
/// and chloride, and ammonium or magnesium, as without these every sum is even.
const MAY_BE_BELOW: [[usize; 5]; 2] = [
    [AMMONIUM, CALCIUM, SODIUM, SULPHATE, NITRATE],
    [MAGNESIUM, CALCIUM, SODIUM, SULPHATE, NITRATE],
];

/// So many ions, or all that may be below together, with limits up to this amount.
fn drawn_below(generator: &mut Generator, count: usize, most: u32) -> Below {
    let ions = generator.pick(&MAY_BE_BELOW);
    Below::drawn(generator, &ions, count, most)
}

/// A bottle so many steps beyond the last plain sum before an edge: with all the
/// below readings at 0 where the least end of the bracket is on the limit, and at
/// their limits where the greatest is. Nothing where the search gives up.
pub fn bottle_at(
    generator: &mut Generator,
    edge: Edge,
    ph: Ph,
    steps: i128,
    below: &Below,
) -> Option<Bottle> {
    let fixed = below.at(|_| edge.bracket);
    let mut tried = Bracket {
        least: SQUARE_UNIT,
        greatest: SQUARE_UNIT,
    };
    let ions = (0..20_000).find_map(|_| {
        let sum = edge.conducted(tried, ph, steps);
        let ions = ions_conducting(generator, sum, &fixed)?;
        let found = bracket_between(&below.ends(&ions.amounts), ions.alkalinity, ph);
        let is_right = found == tried;
        tried = found;
        is_right.then_some(ions)
    });
    let bottle = below.in_bottle(&ions?.bottle());
    Some(bottle.ph(ph.hundredths()).conductivity(edge.tenths))
}

/// At whole pH and elsewhere, in each class, with one to five below readings.
pub fn all(cases: &mut Cases) {
    let mut generator = Generator::new(603);
    for p in [500, 600, 900, 553, 701] {
        let Ok(ph) = Ph::new(p) else { continue };
        for tenths in [90, 100, 101, 200, 201, 3_000] {
            for edge in edges(tenths) {
                for steps in [0, 1] {
                    let count = generator.between(1, 5) as usize;
                    let most = generator.pick(&[40, 200, 1_000]);
                    let below = drawn_below(&mut generator, count, most);
                    let bottle = bottle_at(&mut generator, edge, ph, steps, &below);
                    bottle.iter().for_each(|bottle| cases.judge(bottle));
                }
            }
        }
    }
}

#[cfg(test)]
mod tests {
    use super::*;
    use crate::checks::{conductivity, Verdict};
    use crate::record::Record;

    /// As without below readings, where these are few and their limits low.
    #[test]
    fn the_verdict_changes_at_each_edge() {
        use Verdict::{Outside, Undecided, Within};
        let due = [
            [Outside, Undecided],
            [Undecided, Within],
            [Within, Undecided],
            [Undecided, Outside],
        ];
        let mut generator = Generator::new(6);
        for p in [600, 553] {
            let ph = Ph::new(p).expect("a pH");
            for tenths in [100, 200, 201, 3_000] {
                for (edge, due) in edges(tenths).into_iter().zip(due) {
                    let found = [0, 1].map(|steps| {
                        let below = drawn_below(&mut generator, 2, 100);
                        let bottle = bottle_at(&mut generator, edge, ph, steps, &below);
                        let bottle = bottle.expect("a bottle");
                        conductivity(&Record::read(bottle.words()).expect("a record"))
                    });
                    assert_eq!(found, due, "{edge:?} at {p}");
                }
            }
        }
    }
}
