//! Bottles found by search whose conductivity changes its verdict with the next
//! tenth of a µg/L or the next tenth of a µS/cm.
//!
//! Calculated conductivity reaches from the bracket's least y² times the least
//! plain sum to its greatest times the greatest, and what is within reaches from
//! (100 − M) to (100 + M) hundredths of the measured: where an end of the one
//! meets an end of the other the verdict changes. They never meet exactly
//! (`no_end_of_a_bracket_is_ever_on_a_limit` below), so there is always a last
//! plain sum before and a first one after. Below readings change nothing in that:
//! at 0 and at their limits they have whole amounts as measured ones have.

use super::bottle::Bottle;
use super::generator::Generator;
use super::solver::{split, End, Fixed, Ions, ENDS, TENTH_CHARGES};
use crate::activity::{weighed_with, weighed_without_hydrogen, Bracket};
use crate::checks::{conductivity_limit, Conductivity};
use crate::hydrogen::Ph;
use crate::ions::{ALKALINITY_CONDUCTANCE, HYDROGEN_CONDUCTANCE, TABLE};
use crate::numbers::{
    AMOUNT_CHARGE, CHLORIDE, CONDUCTIVITY_TENTH, IONS, MOST_ALKALINITY, MOST_AMOUNT,
    MOST_CONDUCTIVITY, POTASSIUM, SQUARE_UNIT,
};
use crate::ranges::Ends;
use crate::record::Record;

/// An end of the bracket on an end of what is within, at a measured
/// conductivity in tenths of µS/cm.
#[derive(Clone, Copy, Debug)]
pub struct Edge {
    pub tenths: u32,
    pub limit: End,
    pub bracket: End,
}

/// The four edges at a measured conductivity.
pub fn edges(tenths: u32) -> [Edge; 4] {
    let edge = |limit, bracket| Edge {
        tenths,
        limit,
        bracket,
    };
    let [least, greatest] = ENDS;
    [
        edge(least, greatest),
        edge(least, least),
        edge(greatest, greatest),
        edge(greatest, least),
    ]
}

/// 100 − M or 100 + M.
fn percent(end: End, m: i128) -> i128 {
    match end {
        End::Least => 100 - m,
        End::Greatest => 100 + m,
    }
}

fn end_of(bracket: Bracket, end: End) -> i128 {
    match end {
        End::Least => bracket.least,
        End::Greatest => bracket.greatest,
    }
}

/// The whole hydrogen that goes with an end of the bracket: h with the least,
/// with the greatest h + 1, or h where that is exact.
pub fn hydrogen_at(ph: Ph, end: End) -> i128 {
    let beyond = end == End::Greatest && !ph.has_whole_hydrogen();
    i128::from(ph.floor()) + i128::from(beyond)
}

impl Edge {
    /// The greatest plain sum that this end of a bracket doesn't take beyond the
    /// limit, in 10^−13 µS/cm.
    pub fn last_sum(self, bracket: Bracket) -> i128 {
        let percent = percent(self.limit, conductivity_limit(self.tenths));
        let limit = percent * i128::from(self.tenths) * CONDUCTIVITY_TENTH * SQUARE_UNIT;
        limit.div_euclid(100 * end_of(bracket, self.bracket))
    }

    /// What all but hydrogen must conduct for the last plain sum that they can
    /// make up to that one, and so many steps beyond, each of 10^3 × 10^−13
    /// µS/cm: with 0 it is the last one before the limit, with 1 the first after.
    pub fn conducted(self, bracket: Bracket, ph: Ph, steps: i128) -> i128 {
        let by_hydrogen = HYDROGEN_CONDUCTANCE * hydrogen_at(ph, self.bracket);
        (self.last_sum(bracket) - by_hydrogen).div_euclid(AMOUNT_CHARGE) + steps
    }

    /// A bottle so many steps beyond the last plain sum before the limit, or
    /// nothing where the search gives up. Its own bracket must be the one that
    /// the sum was worked out with: the last one found is tried next.
    pub fn bottle(self, generator: &mut Generator, ph: Ph, steps: i128) -> Option<Bottle> {
        let mut tried = Bracket {
            least: SQUARE_UNIT,
            greatest: SQUARE_UNIT,
        };
        let ions = (0..20_000).find_map(|_| {
            let sum = self.conducted(tried, ph, steps);
            let ions = ions_conducting(generator, sum, &Fixed::default())?;
            let found = bracket_of(&ions.amounts, ions.alkalinity, ph);
            let is_right = found == tried;
            tried = found;
            is_right.then_some(ions)
        });
        let bottle = ions?.bottle();
        Some(bottle.ph(ph.hundredths()).conductivity(self.tenths))
    }
}

/// The bracket of these ions at a pH.
pub fn bracket_of(amounts: &[u32; IONS], alkalinity: u32, ph: Ph) -> Bracket {
    let ends = Ends {
        least: *amounts,
        greatest: *amounts,
    };
    bracket_between(&ends, alkalinity, ph)
}

/// The bracket from the least of each ion to the greatest of each.
pub fn bracket_between(ions: &Ends<[u32; IONS]>, alkalinity: u32, ph: Ph) -> Bracket {
    let weighed = ions.both(|amounts| weighed_without_hydrogen(&amounts, alkalinity));
    Bracket::of(
        weighed_with(hydrogen_at(ph, End::Least), weighed.least),
        weighed_with(hydrogen_at(ph, End::Greatest), weighed.greatest),
    )
}

/// What one tenth of a µg/L of an ion adds, in units of 10^3 × 10^−13 µS/cm.
pub const fn conducted(ion: usize) -> i128 {
    TABLE[ion].factor * TABLE[ion].conductance
}

/// What one tenth of a µeq/L of alkalinity adds, in the same units.
pub const CONDUCTED_BY_ALKALINITY: i128 = ALKALINITY_CONDUCTANCE * TENTH_CHARGES;

/// Draws all but potassium and chloride and those that are given, then searches
/// these two.
pub fn ions_conducting(generator: &mut Generator, sum: i128, fixed: &Fixed) -> Option<Ions> {
    if sum < 0 {
        return None;
    }
    let mut amounts = [0; IONS];
    // In strong water these two can't make up much of it.
    let part = sum / generator.pick(&[4, 12]);
    let mut share = |conducted: i128, most: u32| {
        let share = (part / conducted).min(i128::from(most));
        generator.below(share as u32 + 1)
    };
    for (ion, amount) in amounts.iter_mut().enumerate() {
        *amount = fixed[ion].unwrap_or_else(|| share(conducted(ion), MOST_AMOUNT));
    }
    let alkalinity = share(CONDUCTED_BY_ALKALINITY, MOST_ALKALINITY);
    amounts[POTASSIUM] = 0;
    amounts[CHLORIDE] = 0;
    let parts = (0..IONS).map(|ion| i128::from(amounts[ion]) * conducted(ion));
    let rest = sum - i128::from(alkalinity) * CONDUCTED_BY_ALKALINITY - parts.sum::<i128>();
    let (chloride, potassium) = split(rest, conducted(CHLORIDE), conducted(POTASSIUM))?;
    amounts[CHLORIDE] = chloride;
    amounts[POTASSIUM] = potassium;
    Some(Ions {
        amounts,
        alkalinity,
    })
}

/// The measured conductivities of a bottle at which its verdict may change: for
/// each edge the last tenth of a µS/cm before it and the first after, where they
/// are in the class whose M they were worked out with.
pub fn tenths_at_edges(bottle: &Bottle) -> Vec<u32> {
    let Some(record) = Record::read(bottle.words()).ok() else {
        return Vec::new();
    };
    let Some(check) = Conductivity::of(&record) else {
        return Vec::new();
    };
    let (h, is_whole) = (
        i128::from(record.ph.floor()),
        record.ph.has_whole_hydrogen(),
    );
    let calculated = check.calculated(check.bracket(h, is_whole), h, is_whole);
    let mut found = Vec::new();
    for m in [1, 101, 201].map(conductivity_limit) {
        for end in ENDS {
            for calculated in [calculated.least, calculated.greatest] {
                let unit = percent(end, m) * CONDUCTIVITY_TENTH * SQUARE_UNIT;
                let last = (100 * calculated / unit).min(i128::from(MOST_CONDUCTIVITY)) as u32;
                found.extend([last, last + 1].into_iter().filter(|&tenths| {
                    (1..=MOST_CONDUCTIVITY).contains(&tenths) && conductivity_limit(tenths) == m
                }));
            }
        }
    }
    found.sort_unstable();
    found.dedup();
    found
}

#[cfg(test)]
mod tests {
    use super::*;
    use crate::activity::{floor_of_power, thousandths_from, upper_root};
    use crate::checks::{conductivity, Verdict};
    use crate::numbers::LEAST_PH;

    fn verdict(bottle: &Bottle) -> Verdict {
        conductivity(&Record::read(bottle.words()).expect("a record"))
    }

    /// Too low with the whole bracket, too low with its least end alone, within
    /// up to the greatest, too high with that alone, too high with all of it: in
    /// every class, at whole pH and beside it.
    #[test]
    fn the_verdict_changes_at_each_edge() {
        use Verdict::{Outside, Undecided, Within};
        let due = [
            [Outside, Undecided],
            [Undecided, Within],
            [Within, Undecided],
            [Undecided, Outside],
        ];
        let mut generator = Generator::new(3);
        for p in [600, 601, 553] {
            let ph = Ph::new(p).expect("a pH");
            for tenths in [90, 100, 101, 150, 200, 201, 2_000, 20_000] {
                for (edge, due) in edges(tenths).into_iter().zip(due) {
                    let mut at =
                        |steps| verdict(&edge.bottle(&mut generator, ph, steps).expect("a bottle"));
                    assert_eq!([at(0), at(1)], due, "{edge:?} at {p}");
                }
            }
        }
    }

    #[test]
    fn the_verdict_changes_with_the_measured() {
        let found = tenths_at_edges(&Bottle::printed());
        assert_eq!(found, [125, 126, 127, 188, 189, 190]);
        assert_eq!(tenths_at_edges(&Bottle::printed().missing(CHLORIDE)), []);
    }

    /// An end is y × sum, y a whole number about 10^9 and the sum a multiple of
    /// 500, as 3500 is and as all other parts are multiples of 10^3. A limit is a
    /// percentage times 10^9 × 10^12 times the tenths. So what y has beside the
    /// factors of percentage × 10^21 / 500 / 100 would have to divide the
    /// tenths, and for no y but 10^9 itself it is as few as 100,000; that would
    /// be the least end of a bracket without ions.
    #[test]
    fn no_end_of_a_bracket_is_ever_on_a_limit() {
        fn common(a: i128, b: i128) -> i128 {
            if b == 0 {
                a
            } else {
                common(b, a % b)
            }
        }
        let acid = Ph::new(LEAST_PH).map_or(0, |ph| i128::from(ph.floor()));
        let most = weighed_without_hydrogen(&[MOST_AMOUNT; IONS], MOST_ALKALINITY);
        let last = thousandths_from(upper_root(weighed_with(acid, most)));
        let floors = (0..=last).map(floor_of_power);
        let ends = floors.flat_map(|floor| [floor, floor + 1]);
        for end in ends.filter(|&end| end != SQUARE_UNIT) {
            for tenths in [100, 200, 201] {
                for limit in ENDS {
                    let percent = percent(limit, conductivity_limit(tenths));
                    let divided = percent * SQUARE_UNIT * CONDUCTIVITY_TENTH / 100 / 500;
                    let left = end / common(end, divided);
                    assert!(left > i128::from(MOST_CONDUCTIVITY), "{end}");
                }
            }
        }
    }
}
