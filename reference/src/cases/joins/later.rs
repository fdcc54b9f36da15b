//! "its later values are joined, first batch first": how many, and 14 and 15 in
//! one chart and in several.

use super::Runs;
use crate::cases::batches::{batch, chart, flat};
use crate::cases::bottle::Bottle;
use crate::cases::Cases;
use crate::numbers::{LEAST_SETUP, MOST_LATER};

pub fn all(cases: &mut Cases) {
    counts(cases);
    beside_a_full_chart(cases);
    two_charts(cases);
    three_charts(cases);
}

/// So many later values of one of the batches.
fn values(half: u32, count: usize) -> Vec<u32> {
    (1_000 * half..).take(count).collect()
}

fn one_chart(setup: &[u32], half: u32, count: usize) -> Vec<u32> {
    batch(&[chart(6, setup, &values(half, count))], &[])
}

/// A setup other than the flat one.
fn other() -> [u32; LEAST_SETUP] {
    let mut setup = flat();
    setup[LEAST_SETUP - 1] += 1;
    setup
}

/// Joined counts of up to 64, 65 and more, with equal setups; beyond 63 also
/// with setups that differ.
fn counts(cases: &mut Cases) {
    let counts = [0, 1, 2, 31, 32, 33, 62, 63, MOST_LATER];
    for before in counts {
        for after in counts {
            let first = one_chart(&flat(), 1, before);
            Runs::new(&first, &one_chart(&flat(), 2, after)).add(cases);
            if before + after >= MOST_LATER {
                Runs::new(&first, &one_chart(&other(), 2, after)).add(cases);
            }
        }
    }
}

/// A chart that is only in one batch may have all its later values, whatever
/// the other batch's charts have.
fn beside_a_full_chart(cases: &mut Cases) {
    let full = |element, half| chart(element, &flat(), &values(half, MOST_LATER));
    let none = |element| chart(element, &flat(), &[]);
    let sides = [
        vec![full(1, 1)],
        vec![full(1, 1), none(2)],
        vec![none(1), full(2, 1)],
        vec![full(2, 1), none(3)],
        vec![full(3, 1)],
    ];
    for first in &sides {
        for second in &sides {
            let samples = [Bottle::printed()];
            Runs::new(&batch(first, &samples), &batch(second, &[])).add(cases);
        }
    }
}

/// What a chart in both batches is refused, if at all.
#[derive(Clone, Copy)]
struct Fate {
    setups_differ: bool,
    too_many: bool,
}

const FATES: [Fate; 4] = [
    fate(false, false),
    fate(true, false),
    fate(false, true),
    fate(true, true),
];

const fn fate(setups_differ: bool, too_many: bool) -> Fate {
    Fate {
        setups_differ,
        too_many,
    }
}

impl Fate {
    fn chart_before(self, element: u32) -> Vec<u32> {
        let count = if self.too_many { 40 } else { 1 };
        chart(element, &flat(), &values(1, count))
    }

    fn chart_after(self, element: u32) -> Vec<u32> {
        let count = if self.too_many { 25 } else { 1 };
        let setup = if self.setups_differ { other() } else { flat() };
        chart(element, &setup, &values(2, count))
    }
}

/// Charts of both batches, after the change in the order that these places say.
fn add(cases: &mut Cases, elements: &[u32], fates: &[Fate], order: &[usize]) {
    let before: Vec<Vec<u32>> = elements
        .iter()
        .zip(fates)
        .map(|(&element, fate)| fate.chart_before(element))
        .collect();
    let after: Vec<Vec<u32>> = order
        .iter()
        .map(|&place| fates[place].chart_after(elements[place]))
        .collect();
    Runs::new(&batch(&before, &[]), &batch(&after, &[])).add(cases);
}

/// Every pair of fates, with charts in either order before and after the change.
fn two_charts(cases: &mut Cases) {
    for first in FATES {
        for second in FATES {
            for elements in [[3, 8], [8, 3]] {
                for order in [[0, 1], [1, 0]] {
                    add(cases, &elements, &[first, second], &order);
                }
            }
        }
    }
}

/// Every three fates; the second batch's order is not the joined one.
fn three_charts(cases: &mut Cases) {
    for first in FATES {
        for second in FATES {
            for third in FATES {
                for order in [[2, 1, 0], [1, 2, 0]] {
                    add(cases, &[7, 1, 4], &[first, second, third], &order);
                }
            }
        }
    }
}
