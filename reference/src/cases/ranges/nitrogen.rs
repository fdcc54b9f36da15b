//! Call 7: nitrogen with total nitrogen, nitrate or ammonium below its limit, or
//! any of these together.

use crate::cases::bottle::Bottle;
use crate::cases::floats::{float_of, limit_with};
use crate::cases::Cases;
use crate::numbers::{
    AMMONIUM, BULK, LEAST_LIMIT, MOST_AMOUNT, NITRATE, SOIL_WATER, TOTAL_NITROGEN,
};

/// A mark and an amount: of a limit where the mark says below.
type Told = (u32, u32);

/// Total nitrogen on the sum, one less and one more, where each of the three is
/// measured or below its limit: the sum is that of the least or of the greatest.
const SUMS: [(u32, u32); 6] = [
    (0, 0),
    (2_500, 2_500),
    (0, 60),
    (60, 0),
    (LEAST_LIMIT, LEAST_LIMIT),
    (MOST_AMOUNT / 2, MOST_AMOUNT / 2),
];

pub fn all(cases: &mut Cases) {
    for kind in [BULK, SOIL_WATER] {
        let bottle = Bottle::printed().kind(kind);
        for (nitrate, ammonium) in SUMS {
            for marks in 0..8 {
                about(cases, &bottle, marks, (nitrate, ammonium));
            }
        }
        missing(cases, &bottle);
    }
}

fn with(bottle: &Bottle, place: usize, (mark, amount): Told) -> Bottle {
    match mark {
        2 => bottle.below(place, limit_with(amount.max(LEAST_LIMIT))),
        _ => bottle.reading(place, 1, float_of(amount)),
    }
}

/// By the bits of `marks` nitrate, ammonium and total nitrogen are below.
fn about(cases: &mut Cases, bottle: &Bottle, marks: u32, (nitrate, ammonium): (u32, u32)) {
    let mark = |bit: u32| 1 + (marks >> bit & 1);
    let bottle = with(bottle, NITRATE, (mark(0), nitrate));
    let bottle = with(&bottle, AMMONIUM, (mark(1), ammonium));
    let measured = |bit: u32, amount: u32| if mark(bit) == 1 { amount } else { 0 };
    let least = measured(0, nitrate) + measured(1, ammonium);
    for sum in [least, nitrate + ammonium, (nitrate + ammonium) / 2] {
        for total in [sum.saturating_sub(1), sum, (sum + 1).min(MOST_AMOUNT)] {
            cases.judge(&with(&bottle, TOTAL_NITROGEN, (mark(2), total)));
        }
    }
}

/// 0 before 4, and 4 before anything that a range could say.
fn missing(cases: &mut Cases, bottle: &Bottle) {
    let below = bottle.below(TOTAL_NITROGEN, limit_with(100));
    for place in [NITRATE, AMMONIUM] {
        cases.judge(&below.missing(place));
        cases.judge(&bottle.missing(TOTAL_NITROGEN).below(place, limit_with(100)));
        cases.judge(
            &bottle
                .missing(place)
                .below(NITRATE + AMMONIUM - place, limit_with(100)),
        );
    }
}

#[cfg(test)]
mod tests {
    use super::*;
    use crate::checks::nitrogen;
    use crate::record::Record;

    /// Where total nitrogen is below its limit each of the three verdicts comes,
    /// and where only the others are below theirs.
    #[test]
    fn every_verdict_is_there_with_and_without_below_total_nitrogen() {
        let mut cases = Cases::default();
        all(&mut cases);
        let mut times = [[0; 5]; 2];
        for words in cases.of_call(7) {
            let record = Record::read(words).expect("a record");
            let is_below = record.words[crate::numbers::mark_of(TOTAL_NITROGEN)] == 2;
            times[usize::from(is_below)][nitrogen(&record).number() as usize] += 1;
        }
        let common = |times: &[u32; 5]| times[1..=3].iter().all(|&times| times >= 4);
        assert!(times.iter().all(common), "{times:?}");
    }
}
