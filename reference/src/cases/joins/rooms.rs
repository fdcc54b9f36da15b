//! "samples last, then 13": lent words of every length about the answer's.

use super::{faulty_batches, Runs};
use crate::cases::batches::{batch, chart, flat, printed_with};
use crate::cases::Cases;
use crate::numbers::{LEAST_SETUP, MOST_LATER, REPLAY_ROOM};

pub fn all(cases: &mut Cases) {
    joined(cases);
    refused(cases);
}

/// Pairs of every shape that has an answer.
fn shapes() -> Vec<Runs> {
    let empty = batch(&[], &[]);
    let chart_alone = batch(&[chart(2, &flat(), &[1_000])], &[]);
    let sample_alone = batch(&[], &printed_with([5]));
    let usual = batch(&[chart(2, &flat(), &[1_001])], &printed_with([4, 3]));
    let other = batch(&[chart(9, &flat(), &[])], &printed_with([2]));
    let batches = [empty, chart_alone, sample_alone, usual, other];
    let mut shapes = Vec::new();
    for first in &batches {
        for second in &batches {
            shapes.push(Runs::new(first, second));
        }
    }
    shapes
}

fn joined(cases: &mut Cases) {
    for runs in shapes() {
        let exact = runs.room();
        for room in [0, exact - 1, exact, exact + 1] {
            runs.add_with_room(cases, room);
        }
    }
    // As much as may be lent is exactly enough, a word too little, and more than
    // enough.
    let most = REPLAY_ROOM as usize;
    let with = |numbers: u64, later: usize| {
        let charts = [chart(2, &flat(), &vec![1_000; later])];
        batch(&charts, &printed_with(1..=numbers))
    };
    for (numbers, later) in [(5, 20), (5, 21), (1, 0)] {
        let runs = Runs::new(&with(5, 25), &with(numbers, later));
        runs.add_with_room(cases, most);
        runs.swapped().add_with_room(cases, most - 1);
    }
}

/// Every other refusal comes before 13, and leaves what is lent as it is.
fn refused(cases: &mut Cases) {
    let with = |setup: &[u32], later: usize| {
        let charts = [chart(2, setup, &vec![1_000; later])];
        batch(&charts, &printed_with([1]))
    };
    let other = [1_001; LEAST_SETUP];
    let mut unjoinable = vec![
        Runs::new(&with(&flat(), 1), &with(&other, 1)),
        Runs::new(&with(&flat(), MOST_LATER), &with(&flat(), 1)),
        Runs::new(&with(&flat(), MOST_LATER), &with(&other, 1)),
    ];
    for faulty in faulty_batches() {
        unjoinable.push(Runs::new(&with(&flat(), 1), &faulty));
    }
    for runs in unjoinable {
        for room in [0, 40] {
            runs.add_with_room(cases, room);
        }
    }
}
