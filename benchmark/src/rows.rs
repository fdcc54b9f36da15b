//! What is measured: each row runs the same inputs through both sides, and
//! adds up what they answer, so that nothing is left out and both can be
//! compared.

use crate::floors::floors;
use crate::inputs::{a_batch, a_bottle, a_chart, a_pair, a_record, Random};
use crate::numbers::{
    CHECKS, DOCKET_COUNT, DOCKET_STATE, DOCKET_WORDS, MOST_ANSWER, MOST_BATCH, MOST_LATER,
    MOST_SAMPLES, MOST_SETUP, RECORD_WORDS,
};
use crate::plain::{batch, chart, checks, docket::Docket, join, Floors};
use crate::proved;

const RECORDS: usize = 2000;
const BOTTLES: usize = 700;
const CHARTS: usize = 300;
const JOINS: usize = 20;

pub struct Row {
    pub key: &'static str,
    pub name: String,
    /// How many records, offers, later values or samples one run has.
    pub pieces: usize,
    pub proved: Box<dyn FnMut() -> u64>,
    pub plain: Box<dyn FnMut() -> u64>,
}

fn sum(words: &[u32]) -> u64 {
    words.iter().map(|&w| u64::from(w)).sum()
}

/// A sum that also tells the words' order, by each one's place.
fn sum_by_place(words: &[u32]) -> u64 {
    let weighed = words
        .iter()
        .zip(1..)
        .map(|(&w, place)| place * u64::from(w));
    weighed.sum()
}

fn judging(floors: Floors) -> Row {
    let mut random = Random::new(1);
    let records: Vec<[u32; RECORD_WORDS]> = (0..RECORDS).map(|_| a_record(&mut random)).collect();
    let same = records.clone();
    Row {
        key: "judge",
        name: "a record judged".into(),
        pieces: RECORDS,
        proved: Box::new(move || {
            let mut verdicts = [0; CHECKS];
            let judged = records.iter().map(|r| {
                proved::judge(r, &mut verdicts);
                sum(&verdicts)
            });
            judged.sum()
        }),
        plain: Box::new(move || {
            let judged = same
                .iter()
                .map(|r| checks::judge(r, &floors).map_or(0, |v| sum(&v)));
            judged.sum()
        }),
    }
}

fn following(floors: Floors) -> Row {
    let mut random = Random::new(2);
    let bottles: Vec<_> = (0..BOTTLES).map(|_| a_bottle(&mut random)).collect();
    let same = bottles.clone();
    Row {
        key: "follow",
        name: "a record offered to a docket".into(),
        pieces: 3 * BOTTLES,
        proved: Box::new(move || {
            let mut docket = [0; DOCKET_WORDS];
            let mut all = 0;
            for runs in &bottles {
                proved::fresh(&mut docket);
                for words in runs {
                    proved::offer(&mut docket, words);
                }
                all += u64::from(docket[DOCKET_STATE] + docket[DOCKET_COUNT]);
            }
            all
        }),
        plain: Box::new(move || {
            let mut all = 0;
            for runs in &same {
                let mut docket = Docket::fresh();
                for words in runs {
                    let _ = docket.offer(words, &floors);
                }
                all += docket.state as u64 + u64::from(docket.count);
            }
            all
        }),
    }
}

fn charting(key: &'static str, setup: usize, later: usize) -> Row {
    let mut random = Random::new(3);
    let charts: Vec<_> = (0..CHARTS)
        .map(|_| a_chart(&mut random, setup, later))
        .collect();
    let same = charts.clone();
    Row {
        key,
        name: format!("a later value of a chart {setup} + {later}"),
        pieces: CHARTS * later,
        proved: Box::new(move || {
            let mut out = [0; MOST_LATER];
            let read = charts.iter().map(|(before, after)| {
                proved::signals(before, after, &mut out);
                sum(&out[..after.len()])
            });
            read.sum()
        }),
        plain: Box::new(move || {
            let mut out = [0; MOST_LATER];
            let read = same.iter().map(|(before, after)| {
                let n = chart::signals(before, after, &mut out).unwrap_or(0);
                sum(&out[..n])
            });
            read.sum()
        }),
    }
}

fn batching(key: &'static str, samples: usize, floors: Floors) -> Row {
    let mut random = Random::new(4);
    let words = a_batch(&mut random, samples);
    let same = words.clone();
    let times = 2 * MOST_SAMPLES / samples;
    Row {
        key,
        name: format!("a sample of a batch of {samples}"),
        pieces: samples * times,
        proved: Box::new(move || {
            let mut out = [0; MOST_ANSWER];
            for _ in 0..times {
                proved::judge_batch(std::hint::black_box(&words), &mut out);
            }
            sum(&out)
        }),
        plain: Box::new(move || {
            let mut out = [0; MOST_ANSWER];
            for _ in 0..times {
                let _ = batch::judge_batch(std::hint::black_box(&same), &mut out, &floors);
            }
            sum(&out)
        }),
    }
}

fn joining(key: &'static str, samples: usize) -> Row {
    let mut random = Random::new(5);
    let [first, second] = a_pair(&mut random, samples);
    let same = [first.clone(), second.clone()];
    Row {
        key,
        name: format!("a sample of {samples} + {samples} joined"),
        pieces: 2 * samples * JOINS,
        proved: Box::new(move || {
            let mut out = [0; MOST_BATCH];
            let mut size = 0;
            for _ in 0..JOINS {
                proved::join(std::hint::black_box(&first), &second, &mut out, &mut size);
            }
            sum_by_place(&out) + size as u64
        }),
        plain: Box::new(move || {
            let mut out = [0; MOST_BATCH];
            let mut size = 0;
            for _ in 0..JOINS {
                let [first, second] = &same;
                size = join::join(std::hint::black_box(first), second, &mut out).unwrap_or(0);
            }
            sum_by_place(&out) + size as u64
        }),
    }
}

/// Rows that take turns with each other. Joins have turns of their own after all
/// others are measured: with them in between, plain Rust's other rows got slower.
pub const GROUPS: [fn() -> Vec<Row>; 2] = [judgements, joins];

fn judgements() -> Vec<Row> {
    let floors = floors();
    checked(vec![
        judging(floors),
        following(floors),
        charting("chart30", 30, MOST_LATER),
        charting("chart64", MOST_SETUP, MOST_LATER),
        batching("batch4", 4, floors),
        batching("batch40", 40, floors),
        batching("batch400", MOST_SAMPLES, floors),
    ])
}

fn joins() -> Vec<Row> {
    checked(vec![joining("join400", MOST_SAMPLES / 2)])
}

/// The rows, once both sides of each have given the same sum.
fn checked(mut rows: Vec<Row>) -> Vec<Row> {
    for row in &mut rows {
        assert_eq!(
            (row.proved)(),
            (row.plain)(),
            "the two sides of {} differ",
            row.key
        );
    }
    rows
}
