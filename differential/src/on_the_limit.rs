//! Bottles whose ion balance changes from within to outside at a chosen place of
//! hydrogen, to a fraction of a u.
//!
//! An end of the span of hydrogen for which the inequality holds is
//! `unit × N / divisor` u with a whole number N (`Bound` of the other
//! implementation tells which). As all charges but hydrogen's are multiples of
//! 10^3 u, the ends are 10^3 × N / 9, 11, 19 or 21: 48 to 111 u apart. The ions
//! that give a wanted N are found by remainders here, where `Bound` itself
//! searches step by step.

use crate::floats::any_limit_with;
use crate::ions::{drawn_below, inverse, Ions};
use crate::numbers::{
    AMMONIUM, CALCIUM, CHLORIDE, IONS, LEAST_LIMIT, LEAST_PH, MAGNESIUM, MOST_AMOUNT,
    MOST_CONDUCTIVITY, MOST_PH, NITRATE, POTASSIUM, SODIUM, SULPHATE,
};
use crate::random::Draw;
use reference::cases::bottle::Bottle;
use reference::cases::generator::Generator;
use reference::cases::ranges::balance::{Corner, CORNERS};
use reference::cases::solver::{balance_weights, Bound, Fixed, ENDS, TENTH_CHARGES};
use reference::hydrogen::Ph;
use reference::ions::{ANIONS, CATIONS, TABLE};

/// How often the ions are drawn again before a search gives up.
const DRAWS: usize = 4_000;

/// The ions that may be below their limits: the search needs calcium and chloride.
const MAY_BE_BELOW: [usize; 6] = [AMMONIUM, MAGNESIUM, SODIUM, POTASSIUM, SULPHATE, NITRATE];

/// A bottle with an end of the span on h, on h + 1, between them or beside: where
/// ions are below their limits, of one of the two corners of their ranges that
/// decide.
pub fn bottle_on_a_limit(generator: &mut Generator) -> Option<Bottle> {
    let (tenths, end) = (tenths_from(generator, 1), generator.pick(&ENDS));
    let bound = Bound { tenths, end };
    let ph = drawn_ph(generator, bound)?;
    let n = drawn_n(generator, bound, i128::from(ph.floor()));
    let corner = generator.pick(&CORNERS);
    // From traces to 30 mg/L.
    let most = generator.pick(&[100, 1_000, 30_000, 300_000]);
    let below = drawn_below(generator, &MAY_BE_BELOW, most / 10);
    let fixed = below.at(|ion| corner.end_of(ion));
    let ions = balancing(generator, bound, n, most, &fixed)?;
    let bottle = ions.bottle_with(generator, ph, &below);
    let bottle = bottle.conductivity(tenths);
    // Where anions are at their greatest, chloride may end its range there, too.
    let chloride = ions.amounts[CHLORIDE];
    let is_limit = corner == Corner::AsksForMost && chloride >= LEAST_LIMIT;
    Some(
        match is_limit && below.count() > 0 && generator.once_in(3) {
            true => bottle.below(CHLORIDE, any_limit_with(generator, chloride)),
            false => bottle,
        },
    )
}

/// An N whose end is on h, on h + 1 or between them, or the next one before or
/// after these.
fn drawn_n(generator: &mut Generator, bound: Bound, h: i128) -> i128 {
    let first = bound.last_up_to(h) - 1;
    let last = bound.last_up_to(h + 1) + 1;
    first + i128::from(generator.below((last - first) as u32 + 1))
}

/// A p with whole hydrogen, or one at which an end can fall between h and
/// h + 1, or one at which it can fall on one of these. There are 5 to 13 p with
/// an end between, by the divisor, and none with an end on h or h + 1 where
/// hydrogen isn't whole, as no such floor ends in 000 or 999: there any p is
/// drawn.
fn drawn_ph(generator: &mut Generator, bound: Bound) -> Option<Ph> {
    let promising: Vec<Ph> = match generator.below(4) {
        0 => broken_hydrogen(|h| bound.is_between(bound.last_up_to(h) + 1, h)),
        1 => broken_hydrogen(|h| bound.reaches(h) || bound.reaches(h + 1)),
        _ => (LEAST_PH..=MOST_PH)
            .step_by(100)
            .filter_map(|p| Ph::new(p).ok())
            .collect(),
    };
    match promising.as_slice() {
        [] => Ph::new(generator.between(LEAST_PH, MOST_PH)).ok(),
        promising => Some(generator.pick(promising)),
    }
}

/// Every p that isn't a multiple of 100 with such a floor.
fn broken_hydrogen(floor: impl Fn(i128) -> bool) -> Vec<Ph> {
    (LEAST_PH..=MOST_PH)
        .filter_map(|p| Ph::new(p).ok())
        .filter(|ph| !ph.has_whole_hydrogen() && floor(i128::from(ph.floor())))
        .collect()
}

/// A measured conductivity of at least this, now and then at an end of a class.
pub fn tenths_from(generator: &mut Generator, least: u32) -> u32 {
    let ends: Vec<u32> = [1, 100, 101, 200, 201, MOST_CONDUCTIVITY]
        .into_iter()
        .filter(|&tenths| tenths >= least)
        .collect();
    match ends.as_slice() {
        [] => MOST_CONDUCTIVITY,
        ends if generator.once_in(2) => generator.pick(ends),
        _ => (least + generator.of_any_size(4_000)).min(MOST_CONDUCTIVITY),
    }
}

fn charges(amounts: &[i128; IONS], ions: std::ops::Range<usize>) -> i128 {
    ions.map(|ion| amounts[ion] * TABLE[ion].factor).sum()
}

fn balancing(
    generator: &mut Generator,
    bound: Bound,
    n: i128,
    most: u32,
    fixed: &Fixed,
) -> Option<Ions> {
    let (weight, divisor) = balance_weights(bound.tenths, bound.end);
    (0..DRAWS).find_map(|_| {
        let mut amounts = [0; IONS];
        for ion in CATIONS {
            let drawn = fixed[ion].unwrap_or_else(|| generator.below(most));
            amounts[ion] = i128::from(drawn);
        }
        // Calcium's factor shares none with any weight: some of the next few
        // amounts leaves no remainder.
        let weighed = |amounts: &[i128; IONS]| n + divisor * charges(amounts, CATIONS);
        while weighed(&amounts) % weight != 0 {
            amounts[CALCIUM] += 1;
        }
        anions_of(generator, amounts, weighed(&amounts) / weight, fixed)
    })
}

/// Draws sulphate and nitrate; chloride is what leaves a whole number of tenths
/// of a µeq/L to alkalinity. Such a tenth is 10^8 u, 10^5 times the unit of the
/// other charges, and chloride's factor shares none with it: of any 10^5
/// amounts in a row one leaves no remainder, so chloride is below 10 mg/L.
fn anions_of(
    generator: &mut Generator,
    mut amounts: [i128; IONS],
    anions: i128,
    fixed: &Fixed,
) -> Option<Ions> {
    for ion in [SULPHATE, NITRATE] {
        let most = (anions / 3 / TABLE[ion].factor).clamp(0, i128::from(MOST_AMOUNT));
        let drawn = fixed[ion].unwrap_or_else(|| generator.below(most as u32 + 1));
        amounts[ion] = i128::from(drawn);
    }
    const INVERSE: i128 = inverse(TABLE[CHLORIDE].factor, TENTH_CHARGES);
    let rest = anions - charges(&amounts, ANIONS);
    let factor = TABLE[CHLORIDE].factor;
    amounts[CHLORIDE] = (rest * INVERSE).rem_euclid(TENTH_CHARGES);
    let alkalinity = (rest - amounts[CHLORIDE] * factor) / TENTH_CHARGES;
    Ions::checked(amounts, alkalinity)
}

#[cfg(test)]
mod tests {
    use super::*;
    use crate::answers::judge;
    use crate::numbers::BALANCE_CHECK;
    use reference::checks::{Fraction, IonBalance, Spans};
    use reference::record::Record;

    fn record_and_spans(bottle: &Bottle) -> (Record, Spans) {
        let record = Record::read(bottle.words()).expect("a record");
        let spans = IonBalance::of(&record).expect("all ions").spans();
        (record, spans)
    }

    /// The ends with every choice of the amounts, then those with some choice.
    fn ends_of(spans: Spans) -> [Fraction; 4] {
        let (every, some) = (spans.with_every, spans.with_some);
        [every.least, every.greatest, some.least, some.greatest]
    }

    /// Whether the fraction is at most two of the longest steps, 10^3 / 9 u, from
    /// this hydrogen.
    fn is_near(end: Fraction, h: i128) -> bool {
        9 * (end.numerator - h * end.denominator).abs() <= 2_000 * end.denominator
    }

    #[test]
    fn an_end_of_a_span_is_near() {
        let mut generator = Generator::new(4);
        let mut found = 0;
        for bottle in (0..300).filter_map(|_| bottle_on_a_limit(&mut generator)) {
            let (record, spans) = record_and_spans(&bottle);
            let h = i128::from(record.ph.floor());
            assert!(ends_of(spans).into_iter().any(|end| is_near(end, h)));
            found += 1;
        }
        assert!(found > 150, "{found} found");
    }

    /// Undecided verdicts, and ends that are exactly on whole hydrogen, are both
    /// common: each of the four, with below readings and without.
    #[test]
    fn the_narrowest_places_are_common() {
        let mut generator = Generator::new(5);
        let (mut undecided, mut on) = ([0; 2], [[0; 4]; 2]);
        for bottle in (0..4_000).filter_map(|_| bottle_on_a_limit(&mut generator)) {
            let verdicts = judge(bottle.words()).expect("a record");
            let (record, spans) = record_and_spans(&bottle);
            let ranges = record.ion_ranges().expect("all ions");
            let has_below = usize::from(ranges.least != ranges.greatest);
            undecided[has_below] += u32::from(verdicts[BALANCE_CHECK] == 3);
            let h = i128::from(record.ph.floor());
            for (times, end) in on[has_below].iter_mut().zip(ends_of(spans)) {
                *times += u32::from(end.numerator == h * end.denominator);
            }
        }
        assert!(undecided.iter().all(|&times| times > 50), "{undecided:?}");
        assert!(on.iter().flatten().all(|&times| times > 50), "{on:?}");
    }
}
