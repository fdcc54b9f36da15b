//! "the same setup values in the same order": setups that differ.

use super::Runs;
use crate::cases::batches::{batch, chart, flat};
use crate::cases::Cases;
use crate::numbers::{LEAST_SETUP, MOST_SETUP, MOST_VALUE};

pub fn all(cases: &mut Cases) {
    one_value(cases);
    order(cases);
    count(cases);
    same_mean_and_deviation(cases);
    places(cases);
}

/// Setup values of which no two are equal.
fn rising(count: usize) -> Vec<u32> {
    (1_001..).take(count).collect()
}

/// A batch with one chart.
fn with_setup(setup: &[u32], later: &[u32]) -> Vec<u32> {
    batch(&[chart(5, setup, later)], &[])
}

/// Two batches whose charts have these setups, in both orders.
fn add(cases: &mut Cases, first: &[u32], second: &[u32]) {
    Runs::new(&with_setup(first, &[7]), &with_setup(second, &[8])).add_both(cases);
}

/// Each value of a short setup, and the first, a middle and the last value of
/// longer ones; to the least and the greatest there is, and by one bit.
fn one_value(cases: &mut Cases) {
    let short = LEAST_SETUP;
    for place in 0..short {
        one_value_at(cases, short, place, &[0, 1_000, MOST_VALUE]);
    }
    for count in [short + 1, 20, MOST_SETUP] {
        for place in [0, count / 2, count - 1] {
            one_value_at(cases, count, place, &[1_000]);
        }
    }
    for bit in 0..20 {
        let value = rising(short)[short / 2] ^ (1 << bit);
        one_value_at(cases, short, short / 2, &[value]);
    }
}

fn one_value_at(cases: &mut Cases, count: usize, place: usize, values: &[u32]) {
    let setup = rising(count);
    for &value in values {
        let mut other = setup.clone();
        other[place] = value;
        add(cases, &setup, &other);
    }
}

/// The same values in another order: neighbours swapped, the ends swapped,
/// backwards, and moved by one.
fn order(cases: &mut Cases) {
    for count in [LEAST_SETUP, 13] {
        let setup = rising(count);
        for place in 1..count {
            let mut swapped = setup.clone();
            swapped.swap(place - 1, place);
            add(cases, &setup, &swapped);
        }
        let mut ends = setup.clone();
        ends.swap(0, count - 1);
        let mut backwards = setup.clone();
        backwards.reverse();
        let mut moved = setup.clone();
        moved.rotate_left(1);
        for other in [ends, backwards, moved] {
            add(cases, &setup, &other);
        }
    }
}

/// One setup begins or ends with the other; also where setup and later values
/// one after another are the same in both.
fn count(cases: &mut Cases) {
    let long = rising(MOST_SETUP);
    for (few, many) in [(10, 11), (10, 12), (11, 20), (10, 64), (63, 64)] {
        add(cases, &long[..few], &long[..many]);
        add(cases, &long[many - few..many], &long[..many]);
        let first = with_setup(&long[..few], &long[few..many]);
        Runs::new(&first, &with_setup(&long[..many], &[])).add_both(cases);
    }
    add(cases, &flat(), &[1_000; LEAST_SETUP + 1]);
    for count in [LEAST_SETUP, LEAST_SETUP + 1, MOST_SETUP] {
        add(cases, &long[..count], &long[..count]);
    }
}

/// Other values with the same sum and the same sum of squares, so that every
/// signal stays: 1 + 5 + 6 is 2 + 3 + 7, and 1 + 25 + 36 is 4 + 9 + 49.
fn same_mean_and_deviation(cases: &mut Cases) {
    let mut first = flat();
    let mut second = flat();
    first[..3].copy_from_slice(&[1_001, 1_005, 1_006]);
    second[..3].copy_from_slice(&[1_002, 1_003, 1_007]);
    add(cases, &first, &second);
}

/// The chart whose setup differs is the first, a middle or the last one before
/// the change and after it; and charts of other elements may differ.
fn places(cases: &mut Cases) {
    let (usual, other) = (flat(), rising(LEAST_SETUP));
    let charts = |differing: u32, setup: &[u32], elements: [u32; 3]| {
        let charts = elements.map(|element| {
            let setup = if element == differing { setup } else { &usual };
            chart(element, setup, &[1_000])
        });
        batch(&charts, &[])
    };
    for differing in 1..=4 {
        for after in [[1, 2, 3], [3, 2, 1], [2, 4, 3], [4, 3, 1]] {
            let first = charts(differing, &usual, [1, 2, 3]);
            let second = charts(differing, &other, after);
            Runs::new(&first, &second).add_both(cases);
        }
    }
}
