//! Which elements have charts, in which order, before the change and after it.

use super::Runs;
use crate::cases::batches::{batch, chart};
use crate::cases::bottle::Bottle;
use crate::cases::Cases;
use crate::numbers::{LEAST_SETUP, MOST_CHARTS};

/// Elements that are equal, overlap and are disjoint, in both orders.
const LISTS: [&[u32]; 15] = [
    &[],
    &[1],
    &[2],
    &[10],
    &[1, 2],
    &[2, 1],
    &[2, 3],
    &[3, 10],
    &[10, 1],
    &[1, 2, 3],
    &[3, 2, 1],
    &[2, 3, 1],
    &[4, 5, 6],
    &[6, 2, 4],
    &[9, 1, 10],
];

/// A chart with the setup of its element; its later values say which batch they
/// are of.
fn chart_of(element: u32, half: u32, later: u32) -> Vec<u32> {
    let setup = [1_000 + element; LEAST_SETUP];
    let later: Vec<u32> = (0..later)
        .map(|index| 10_000 * half + 100 * element + index)
        .collect();
    chart(element, &setup, &later)
}

/// A batch with one, two, none, one, two .. later values.
fn with_elements(elements: &[u32], half: u32, samples: &[Bottle]) -> Vec<u32> {
    let charts: Vec<Vec<u32>> = (half..)
        .zip(elements)
        .map(|(place, &element)| chart_of(element, half, place % 3))
        .collect();
    batch(&charts, samples)
}

pub fn all(cases: &mut Cases) {
    for first in LISTS {
        for second in LISTS {
            let first = with_elements(first, 1, &[]);
            let second = with_elements(second, 2, &[Bottle::printed()]);
            Runs::new(&first, &second).add(cases);
        }
    }
    all_ten(cases);
}

/// All ten elements in the joined batch.
fn all_ten(cases: &mut Cases) {
    let rising: Vec<u32> = (1..=MOST_CHARTS).collect();
    let falling: Vec<u32> = rising.iter().rev().copied().collect();
    for elements in [&rising, &falling] {
        for before in [0, 1, 5, 9, 10] {
            for after in [&elements[before..], &rising, &falling] {
                let first = with_elements(&elements[..before], 1, &[]);
                let second = with_elements(after, 2, &[]);
                Runs::new(&first, &second).add(cases);
            }
        }
    }
}
