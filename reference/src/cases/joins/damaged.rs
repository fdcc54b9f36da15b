//! "after the first batch and then the second has passed its own tests": damage
//! to the first batch, to the second and to both.

use super::Runs;
use crate::cases::batches::{
    bad_value, batch, chart, chart_head, charts_counted, faulty_bottles, flat, samples_counted,
};
use crate::cases::bottle::Bottle;
use crate::cases::Cases;
use crate::numbers::{
    LEAST_SETUP, MOST_CHARTS, MOST_LATER, MOST_SAMPLES, MOST_SETUP, MOST_VALUE, READINGS,
    RECORD_WORDS,
};
use std::slice::from_ref;

pub fn all(cases: &mut Cases) {
    one_damaged(cases);
    both_damaged(cases);
    damaged_and_unjoinable(cases);
    parted_anywhere(cases);
    cut_and_left_over(cases);
}

/// A batch with one chart and one sample.
fn good() -> Vec<u32> {
    batch(&[chart(8, &flat(), &[1_000])], &[Bottle::printed()])
}

/// Batches that their own tests refuse, with every refusal from 2 to 10.
pub fn faulty_batches() -> Vec<Vec<u32>> {
    let charts = [chart(8, &flat(), &[1_000])];
    let mut batches: Vec<Vec<u32>> = faulty_bottles()
        .into_iter()
        .map(|faulty| batch(&charts, &[faulty]))
        .collect();
    batches.extend(faulty_lengths());
    batches.extend(faulty_counts());
    batches.extend(faulty_charts());
    batches
}

/// 8: no words, a chart or a sample that isn't whole, and a word left over.
fn faulty_lengths() -> [Vec<u32>; 5] {
    let good = good();
    [
        vec![],
        good[..3].to_vec(),
        good[..8].to_vec(),
        good[..good.len() - 1].to_vec(),
        [good, vec![0]].concat(),
    ]
}

/// 9: the counts of both sections and of a chart.
fn faulty_counts() -> [Vec<u32>; 6] {
    let head = |setup, later| charts_counted(1, &chart_head(8, setup, later));
    [
        charts_counted(MOST_CHARTS + 1, &[]),
        samples_counted(MOST_SAMPLES + 1, &[]),
        head(LEAST_SETUP - 1, 0),
        head(MOST_SETUP + 1, 0),
        head(LEAST_SETUP, MOST_LATER + 1),
        samples_counted(u32::MAX, &[]),
    ]
}

/// 10: an element out of range or repeated, and values out of range.
fn faulty_charts() -> [Vec<u32>; 5] {
    let later = chart(8, &flat(), &[MOST_VALUE + 1]);
    let repeated = [chart(8, &flat(), &[]), chart(8, &flat(), &[])];
    [
        batch(&[chart(0, &flat(), &[])], &[]),
        batch(&[chart(READINGS as u32 + 1, &flat(), &[])], &[]),
        batch(&repeated, &[]),
        batch(&[bad_value(8)], &[]),
        batch(&[later], &[]),
    ]
}

fn one_damaged(cases: &mut Cases) {
    for faulty in faulty_batches() {
        Runs::new(&faulty, &good()).add_both(cases);
        Runs::new(&faulty, &batch(&[], &[])).add_both(cases);
    }
}

/// The first batch's refusal, whatever the second's.
fn both_damaged(cases: &mut Cases) {
    for first in faulty_batches() {
        for second in faulty_batches() {
            Runs::new(&first, &second).add_with_room(cases, 1);
        }
    }
}

/// Damage to the samples comes before setups that differ and counts beyond
/// their ranges, in either batch.
fn damaged_and_unjoinable(cases: &mut Cases) {
    let first = batch(&[chart(8, &flat(), &[1_000; MOST_LATER])], &[]);
    let other_setup = [chart(8, &[1_001; LEAST_SETUP], &[])];
    let one_more = [chart(8, &flat(), &[1_000])];
    for faulty in faulty_bottles() {
        for charts in [&other_setup, &one_more] {
            let second = batch(charts, from_ref(&faulty));
            Runs::new(&first, &second).add_both(cases);
        }
    }
    for leftover in [1, RECORD_WORDS] {
        let second = [batch(&other_setup, &[]), vec![0; leftover]].concat();
        Runs::new(&first, &second).add_both(cases);
    }
}

/// The words of a good pair, parted after every one of them.
fn parted_anywhere(cases: &mut Cases) {
    let words = [good(), good()].concat();
    for place in 0..=words.len() {
        let (first, second) = words.split_at(place);
        Runs::new(first, second).add(cases);
    }
}

/// One batch whole, the other cut after every word; and words left over.
fn cut_and_left_over(cases: &mut Cases) {
    let good = good();
    for length in 0..good.len() {
        Runs::new(&good[..length], &good).add_both(cases);
    }
    for leftover in [vec![0], vec![0, 0], vec![1_000; RECORD_WORDS]] {
        let longer = [&good[..], &leftover].concat();
        Runs::new(&longer, &good).add_both(cases);
        Runs::new(&longer, &longer).add(cases);
    }
}
