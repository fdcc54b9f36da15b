//! Pairs written down: every change of a setup, every count about the most
//! later values, and two charts of which each could be refused.

use super::setups::{changed, Change, CHANGES};
use crate::numbers::{LEAST_SETUP, MOST_LATER};
use reference::cases::batches::{batch, chart, small};
use reference::cases::bottle::Bottle;

/// How many later values the first and the second batch have of one chart.
const LATER_COUNTS: [(usize, usize); 12] = [
    (MOST_LATER - 1, 0),
    (MOST_LATER / 2 - 1, MOST_LATER / 2),
    (MOST_LATER, 0),
    (0, MOST_LATER),
    (MOST_LATER / 2, MOST_LATER / 2),
    (MOST_LATER - 1, 1),
    (MOST_LATER, 1),
    (1, MOST_LATER),
    (MOST_LATER / 2, MOST_LATER / 2 + 1),
    (MOST_LATER - 1, 2),
    (MOST_LATER, MOST_LATER),
    (0, 0),
];

/// Setups of one chart that are the same or not, with later values that are
/// not too many together or are.
const STATES: [(bool, bool); 4] = [(false, false), (true, false), (false, true), (true, true)];

type Pair = [Vec<u32>; 2];

pub fn all() -> Vec<Pair> {
    let pairs = [plain(), every_change(), every_count(), competing()];
    pairs.concat()
}

/// The least pairs: nothing, an empty batch, a small one.
fn plain() -> Vec<Pair> {
    let batches = [vec![], batch(&[], &[]), small()];
    let pairs = batches
        .iter()
        .flat_map(|first| batches.iter().map(|second| [first.clone(), second.clone()]));
    pairs.collect()
}

/// No two values are the same, and there is one more than the fewest, so that
/// one can be dropped.
fn setup() -> Vec<u32> {
    (1_000..).take(LEAST_SETUP + 1).collect()
}

fn later(count: usize, from: u32) -> Vec<u32> {
    (from..).take(count).collect()
}

/// Two batches with a sample each, and these charts.
fn pair(of_first: &[Vec<u32>], of_second: &[Vec<u32>]) -> Pair {
    let sample = |number| [Bottle::printed().number(number)];
    [batch(of_first, &sample(9)), batch(of_second, &sample(7))]
}

/// Every change at the first place, in the middle and at the last, in the
/// second batch and in the first.
fn every_change() -> Vec<Pair> {
    let places = [0, LEAST_SETUP / 2, LEAST_SETUP];
    let changes = CHANGES
        .into_iter()
        .flat_map(|change| places.map(|place| changed(&setup(), change, place)));
    let pairs = changes.flat_map(|other| {
        let charts = [chart(4, &setup(), &[1_003]), chart(4, &other, &[1_007])];
        let [one, other] = charts.map(|chart| vec![chart]);
        [pair(&one, &other), pair(&other, &one)]
    });
    pairs.collect()
}

/// Later values that go on in the second batch, with the same setup and with
/// another.
fn every_count() -> Vec<Pair> {
    let setups = [setup(), changed(&setup(), Change::OneValue, 3)];
    let pairs = LATER_COUNTS.into_iter().flat_map(|(first, second)| {
        setups.each_ref().map(|other| {
            let of_first = chart(4, &setup(), &later(first, 1_000));
            let of_second = chart(4, other, &later(second, 2_000));
            pair(&[of_first], &[of_second])
        })
    });
    pairs.collect()
}

/// The chart of an element in the first and in the second batch: with another
/// setup there or not, with too many later values together or not.
fn charts_of(element: u32, (differs, is_long): (bool, bool)) -> [Vec<u32>; 2] {
    let change = |setup: Vec<u32>| match differs {
        true => changed(&setup, Change::Reversed, 0),
        false => setup,
    };
    let count = if is_long { MOST_LATER } else { 1 };
    [
        chart(element, &setup(), &later(1, 1_000)),
        chart(element, &change(setup()), &later(count, 1_004)),
    ]
}

/// Two charts that are in both, the second batch's in either order, and one
/// more that is in the second alone, in front of them.
fn competing() -> Vec<Pair> {
    let states = STATES
        .into_iter()
        .flat_map(|one| STATES.map(|other| (one, other)));
    let pairs = states.flat_map(|(one, other)| {
        let [[a, b], [c, d]] = [charts_of(8, one), charts_of(2, other)];
        let alone = chart(5, &setup(), &[]);
        let of_first = [a, c];
        [
            pair(&of_first, &[alone.clone(), b.clone(), d.clone()]),
            pair(&of_first, &[alone, d, b]),
        ]
    });
    pairs.collect()
}

#[cfg(test)]
mod tests {
    use super::*;
    use crate::answers::join;
    use crate::numbers::{JOINED_COUNT, SETUP_DIFFERS};

    fn refusals(pairs: &[Pair]) -> Vec<u32> {
        let answers = pairs.iter().map(|[first, second]| join(first, second));
        answers.map(|answer| answer.err().unwrap_or(0)).collect()
    }

    #[test]
    fn every_change_is_refused() {
        let due = vec![SETUP_DIFFERS; 2 * 3 * CHANGES.len()];
        assert_eq!(refusals(&every_change()), due);
    }

    #[test]
    fn counts_are_refused_from_65_on_and_after_the_setup() {
        let due = LATER_COUNTS.map(|(first, second)| match first + second {
            0..=64 => [0, SETUP_DIFFERS],
            _ => [JOINED_COUNT, SETUP_DIFFERS],
        });
        assert_eq!(refusals(&every_count()), due.concat());
    }

    /// The first chart's refusal before the second's, whatever order the second
    /// batch has.
    #[test]
    fn charts_are_tested_in_the_first_s_order() {
        let refusal = |state| match state {
            (true, _) => SETUP_DIFFERS,
            (false, true) => JOINED_COUNT,
            (false, false) => 0,
        };
        let due = STATES.into_iter().flat_map(|one| {
            STATES.map(|other| match refusal(one) {
                0 => [refusal(other); 2],
                first => [first; 2],
            })
        });
        let due: Vec<u32> = due.flatten().collect();
        assert_eq!(refusals(&competing()), due);
    }

    #[test]
    fn nothing_is_no_batch() {
        assert_eq!(refusals(&plain()), [8, 8, 8, 8, 0, 0, 8, 0, 0]);
    }
}
