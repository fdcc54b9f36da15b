//! "each sample keeps its verdicts, and its chart flag is the one for the joined
//! charts."

use super::super::*;
use crate::cases::batches::{batch, chart, flat};
use crate::cases::bottle::Bottle;
use crate::cases::generator::Generator;
use crate::cases::joins::{drawn_runs, Runs};
use crate::charts::last_signal;
use crate::numbers::{reading_of, AMMONIUM, COUNT_WORDS, ROW_FLAG, ROW_WORDS};

/// The rows of a batch's answer.
fn rows(words: &[u32]) -> Vec<Vec<u32>> {
    let answer = batch::answer(words).unwrap_or_else(|refusal| panic!("refused {refusal}"));
    let rows = answer[COUNT_WORDS..].chunks(ROW_WORDS);
    rows.map(<[u32]>::to_vec).collect()
}

/// Pairs that are joined, and the joined batches.
fn joined_pairs(seed: u64) -> Vec<(Runs, Vec<u32>)> {
    let mut generator = Generator::new(seed);
    let mut pairs = Vec::new();
    for _ in 0..300 {
        let runs = drawn_runs(&mut generator);
        if let Ok(joined) = answer(&runs.first, &runs.second) {
            pairs.push((runs, joined));
        }
    }
    assert!(pairs.len() > 150, "{} pairs", pairs.len());
    pairs
}

#[test]
fn the_joined_rows_are_those_of_both_but_for_the_flags() {
    for (runs, joined) in joined_pairs(41) {
        let both = [rows(&runs.first), rows(&runs.second)].concat();
        let joined = rows(&joined);
        assert_eq!(joined.len(), both.len());
        for (joined, own) in joined.iter().zip(&both) {
            assert_eq!(joined[..ROW_FLAG], own[..ROW_FLAG]);
        }
    }
}

/// The later values of an element: the first batch's, then the second's.
fn later_of(element: u32, runs: &[&Batch]) -> Vec<u32> {
    let charts = runs.iter().flat_map(|run| &run.charts);
    let found = charts.filter(|chart| chart.element == element);
    found.flat_map(|chart| chart.later.clone()).collect()
}

#[test]
fn each_flag_is_the_one_for_the_joined_charts() {
    let mut changed = 0;
    for (runs, joined) in joined_pairs(42) {
        let both = [rows(&runs.first), rows(&runs.second)].concat();
        let [first, second] = [&runs.first, &runs.second].map(|words| batch::read(words));
        let (Ok(first), Ok(second)) = (first, second) else {
            panic!("refused");
        };
        let charts = [&first.charts[..], &second.charts].concat();
        let samples = [&first.samples[..], &second.samples].concat();
        for ((row, own), sample) in rows(&joined).iter().zip(&both).zip(&samples) {
            let flagged = charts.iter().any(|chart| {
                let later = later_of(chart.element, &[&first, &second]);
                let signals = last_signal(&chart.setup, &later) != Ok(0);
                signals && !sample.readings[reading_of(chart.element)].is_missing()
            });
            assert_eq!(row[ROW_FLAG], u32::from(flagged));
            changed += usize::from(row[ROW_FLAG] != own[ROW_FLAG]);
        }
    }
    assert!(changed > 20, "{changed} flags changed");
}

/// The flags of both batches' samples, by themselves and joined: each batch has a
/// sample with the element and one without.
fn flags(before: &[u32], after: &[u32]) -> ([u32; 4], [u32; 4]) {
    let words = |later| {
        let has = Bottle::printed();
        let lacks = has.missing(AMMONIUM);
        batch(&[chart(1, &flat(), later)], &[has, lacks])
    };
    let (first, second) = (words(before), words(after));
    let joined = answer(&first, &second).unwrap_or_default();
    let own = [rows(&first), rows(&second)].concat();
    let flag = |rows: Vec<Vec<u32>>| [0, 1, 2, 3].map(|place: usize| rows[place][ROW_FLAG]);
    (flag(own), flag(rows(&joined)))
}

#[test]
fn a_flag_may_change_in_either_direction() {
    let (calm, loud) = ([1_000], [1_001]);
    assert_eq!(flags(&calm, &calm), ([0, 0, 0, 0], [0, 0, 0, 0]));
    assert_eq!(flags(&calm, &loud), ([0, 0, 1, 0], [1, 0, 1, 0]));
    assert_eq!(flags(&loud, &calm), ([1, 0, 0, 0], [0, 0, 0, 0]));
    assert_eq!(flags(&loud, &loud), ([1, 0, 1, 0], [1, 0, 1, 0]));
    // Without later values after the change the last one is that before it.
    assert_eq!(flags(&loud, &[]), ([1, 0, 0, 0], [1, 0, 1, 0]));
    assert_eq!(flags(&[], &loud), ([0, 0, 1, 0], [1, 0, 1, 0]));
    assert_eq!(flags(&calm, &[]), ([0, 0, 0, 0], [0, 0, 0, 0]));
}
