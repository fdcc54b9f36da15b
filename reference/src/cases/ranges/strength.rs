//! Call 7: below readings that move the ionic strength, so that the bracket of
//! y² spans several thousandths of e; and the least or the greatest strength on
//! a square where e passes a thousandth, and beside it.

use super::Below;
use crate::cases::bottle::Bottle;
use crate::cases::conducting::tenths_at_edges;
use crate::cases::floats::limit_with;
use crate::cases::generator::Generator;
use crate::cases::solver::ENDS;
use crate::cases::strength::{at_every_edge, bottle_weighing, sums_about};
use crate::cases::Cases;
use crate::numbers::{
    AMMONIUM, CALCIUM, IONS, LEAST_LIMIT, LEAST_PH, MAGNESIUM, MOST_AMOUNT, MOST_PH, NITRATE,
    POTASSIUM, SODIUM, SOIL_WATER, SULPHATE,
};

pub fn all(cases: &mut Cases) {
    wide(cases);
    single_ions(cases);
    squares(cases);
}

/// Nothing measured but pH, conductivity and alkalinity: all ions below one limit,
/// from the least to the greatest.
fn wide(cases: &mut Cases) {
    let none = Bottle::without_ions().kind(SOIL_WATER);
    for limit in [LEAST_LIMIT, 500, 10_000, 200_000, MOST_AMOUNT] {
        let below = (0..IONS).fold(none.clone(), |bottle, ion| {
            bottle.below(ion, limit_with(limit))
        });
        for ph in [LEAST_PH, 450, 553, 600, MOST_PH] {
            for alkalinity in [0, 500] {
                at_every_edge(cases, &below.ph(ph).alkalinity(alkalinity));
            }
        }
    }
}

/// One ion below its limit in each of the printed sample's places.
fn single_ions(cases: &mut Cases) {
    for ion in 0..IONS {
        for limit in [LEAST_LIMIT, 5_000, 100_000] {
            let bottle = Bottle::printed().below(ion, limit_with(limit));
            for (ph, tenths) in [500, 511].into_iter().flat_map(|ph| {
                let tenths = tenths_at_edges(&bottle.ph(ph));
                tenths.into_iter().map(move |tenths| (ph, tenths))
            }) {
                cases.judge(&bottle.ph(ph).conductivity(tenths));
            }
        }
    }
}

/// The strength with all below readings at one end of their ranges on both sides
/// of the squares about a thousandth of e.
fn squares(cases: &mut Cases) {
    const MAY_BE_BELOW: [usize; 7] = [
        AMMONIUM, CALCIUM, MAGNESIUM, SODIUM, POTASSIUM, SULPHATE, NITRATE,
    ];
    let mut generator = Generator::new(604);
    for thousandths in [2, 5, 10, 20, 50, 100, 150] {
        for sum in sums_about(thousandths) {
            for end in ENDS {
                let count = generator.between(1, MAY_BE_BELOW.len() as u32) as usize;
                let most = generator.pick(&[100, 1_000, 10_000]);
                let below = Below::drawn(&mut generator, &MAY_BE_BELOW, count, most);
                let fixed = below.at(|_| end);
                if let Some(bottle) = bottle_weighing(&mut generator, 600, sum, &fixed) {
                    at_every_edge(cases, &below.in_bottle(&bottle));
                }
            }
        }
    }
}

#[cfg(test)]
mod tests {
    use super::*;
    use crate::checks::Conductivity;
    use crate::record::Record;

    /// By how much the greatest y² is more than the least, in millionths.
    fn width(words: &[u32]) -> i128 {
        let record = Record::read(words).expect("a record");
        let check = Conductivity::of(&record).expect("all ions");
        let h = i128::from(record.ph.floor());
        let bracket = check.bracket(h, record.ph.has_whole_hydrogen());
        (bracket.greatest - bracket.least) / 1_000
    }

    /// A thousandth of e is some 2,300 millionths of y².
    #[test]
    fn brackets_span_several_thousandths() {
        let mut cases = Cases::default();
        all(&mut cases);
        let widths: Vec<i128> = cases.of_call(7).into_iter().map(width).collect();
        let wider = |than: i128| widths.iter().filter(|&&width| width > than).count();
        assert!(wider(10_000) > 200 && wider(100_000) > 50, "{widths:?}");
    }
}
