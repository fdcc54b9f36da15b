//! The second, slower way: every check tried with many choices of what may be
//! chosen, each at an end of its range, next to it or anywhere between. Where
//! one choice has too little of something and another too much, a choice that
//! holds is searched for between them.
//!
//! Amounts are counted in thousandths of theirs, hydrogen in millionths of a u,
//! so that everything here is whole. The charge of such an amount is f u.

mod sides;
mod tried;
mod unchosen;

use super::super::*;
use super::record;
use crate::cases::bottle::{plausible, Bottle};
use crate::cases::conducting::tenths_at_edges;
use crate::cases::generator::Generator;
use crate::cases::ranges::with_below;
use crate::cases::replay_cases;
use crate::numbers::{mark_of, LEAST_LIMIT_BITS, MOST_BITS, READINGS};
use sides::{balanced, conducting, nitrogens, ratio_of, Choice};
use std::cmp::Ordering;
use tried::choices;
use unchosen::without_choices;

/// What a check says of one choice.
type Side = fn(&Record, &Choice) -> Ordering;

const ALL_CHECKS: [(fn(&Record) -> Verdict, Side); CHECKS] = [
    (ion_balance, balanced),
    (conductivity, conducting),
    (sodium_chloride, ratio_of),
    (nitrogen, nitrogens),
];

/// The mark of a reading.
fn mark(record: &Record, place: usize) -> u32 {
    record.words[mark_of(place)]
}

/// Between two choices: the middle of everything.
fn between(low: &Choice, high: &Choice) -> Choice {
    Choice {
        amounts: std::array::from_fn(|place| (low.amounts[place] + high.amounts[place]) / 2),
        hydrogen: (low.hydrogen + high.hydrogen) / 2,
        square: (low.square + high.square) / 2,
    }
}

/// Whether a choice that holds is found on the way from one with too little to
/// one with too much, halving it again and again.
fn holds_on_the_way(record: &Record, side: Side, mut low: Choice, mut high: Choice) -> bool {
    (0..60).any(|_| {
        let middle = between(&low, &high);
        match side(record, &middle) {
            Ordering::Less => low = middle,
            Ordering::Greater => high = middle,
            Ordering::Equal => return true,
        }
        false
    })
}

/// Whether it holds with every one of the choices, and whether with none of them
/// nor with one between them.
fn every_or_none(record: &Record, side: Side, choices: &[Choice]) -> (bool, bool) {
    let find = |due: Ordering| choices.iter().find(|choice| side(record, choice) == due);
    let (low, high) = (find(Ordering::Less), find(Ordering::Greater));
    let on_the_way = match (low, high) {
        (Some(&low), Some(&high)) => holds_on_the_way(record, side, low, high),
        _ => false,
    };
    let some = on_the_way || find(Ordering::Equal).is_some();
    (low.is_none() && high.is_none(), !some)
}

/// "Within means that the inequality holds for every choice ..; outside means for
/// none; else undecided": each verdict 1 or 2 is that of every choice, and where
/// it is 3 both outcomes occur. 0 and 4 are as marks and kinds say.
fn assert_by_choices(generator: &mut Generator, record: &Record) -> [Verdict; CHECKS] {
    let choices = choices(generator, record);
    for ((verdict, side), unchosen) in ALL_CHECKS.into_iter().zip(without_choices(record)) {
        let verdict = verdict(record);
        let by_choices = || match every_or_none(record, side, &choices) {
            (true, _) => Verdict::Within,
            (_, true) => Verdict::Outside,
            _ => Verdict::Undecided,
        };
        let due = unchosen.unwrap_or_else(by_choices);
        assert_eq!(verdict, due, "{record:?}");
    }
    verdicts(record)
}

/// Bottles with no below reading to ten of them, at every measured conductivity
/// at which a verdict may change, or at one of these where there is much to try.
#[test]
fn verdicts_are_those_of_every_choice() {
    let mut generator = Generator::new(12);
    let mut times = [[0; 5]; CHECKS];
    for round in 0..1_200 {
        let count = round % (READINGS + 1);
        let bottle = plausible(&mut generator);
        let bottle = with_below(&mut generator, &bottle, count);
        let mut bottles = vec![bottle.clone()];
        let mut edges = tenths_at_edges(&bottle);
        if count > 4 && !edges.is_empty() {
            edges = vec![generator.pick(&edges)];
        }
        bottles.extend(edges.into_iter().map(|tenths| bottle.conductivity(tenths)));
        for bottle in bottles {
            let found = assert_by_choices(&mut generator, &record(&bottle));
            for (times, verdict) in times.iter_mut().zip(found) {
                times[verdict.number() as usize] += 1;
            }
        }
    }
    let common = |times: &[u32; 5]| times[1..=3].iter().all(|&times| times >= 50);
    assert!(times.iter().all(common), "{times:?}");
}

/// Every record of the stored cases: among them those on a limit at an end of a
/// range.
#[test]
fn stored_verdicts_are_those_of_every_choice() {
    let mut generator = Generator::new(15);
    let cases = replay_cases();
    let stored = cases.of_call(7);
    let records = stored.iter().flat_map(|words| Record::read(words));
    let judged = records.map(|record| assert_by_choices(&mut generator, &record));
    assert!(judged.count() > 10_000);
}

/// All ions below their limits, from the least limit to the greatest.
#[test]
fn verdicts_with_nothing_measured() {
    let mut generator = Generator::new(14);
    for round in 0..60 {
        let bottle = (0..READINGS).fold(Bottle::printed(), |bottle, place| {
            let limit =
                generator.between(LEAST_LIMIT_BITS, MOST_BITS - (round << 20).min(0x0800_0000));
            bottle.below(place, limit)
        });
        let ph = generator.between(200, 1_000);
        let bottle = bottle.ph(ph).alkalinity(generator.below(2_000));
        let tenths = generator.between(1, 2_000);
        let found = assert_by_choices(&mut generator, &record(&bottle.conductivity(tenths)));
        assert_eq!(found[2], Verdict::NotApplicable);
    }
}
