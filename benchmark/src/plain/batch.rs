//! A batch: charts, then samples.

use super::record::Record;
use super::{chart, checks, Floors, Refusal};
use crate::numbers::{
    answer_words, CHART_ELEMENT, CHART_HEAD, CHART_LATER, CHART_SETUP, COUNT_WORDS, MOST_CHARTS,
    MOST_SAMPLES, READINGS, RECORD_WORDS,
};

fn split(words: &[u32], n: usize) -> Result<(&[u32], &[u32]), Refusal> {
    if words.len() < n {
        return Err(8);
    }
    Ok(words.split_at(n))
}

fn count(words: &[u32], most: u32) -> Result<(u32, &[u32]), Refusal> {
    let (first, rest) = split(words, COUNT_WORDS)?;
    if first[0] > most {
        return Err(9);
    }
    Ok((first[0], rest))
}

/// A chart whose element and counts passed their tests.
#[derive(Clone, Copy)]
pub struct Chart<'a> {
    pub element: usize,
    pub setup: &'a [u32],
    pub later: &'a [u32],
}

/// Which elements had a chart so far.
type Seen = [bool; READINGS + 1];

/// The next chart, and the words after it.
fn next_chart<'a>(words: &'a [u32], seen: &mut Seen) -> Result<(Chart<'a>, &'a [u32]), Refusal> {
    let (head, values) = split(words, CHART_HEAD)?;
    let element = head[CHART_ELEMENT] as usize;
    let (setup, later) = (head[CHART_SETUP] as usize, head[CHART_LATER] as usize);
    if !(1..=READINGS).contains(&element) || seen[element] {
        return Err(10);
    }
    seen[element] = true;
    if !chart::counts_fit(setup, later) {
        return Err(9);
    }
    let (values, after) = split(values, setup + later)?;
    let (setup, later) = values.split_at(setup);
    let chart = Chart {
        element,
        setup,
        later,
    };
    Ok((chart, after))
}

/// A batch that passed its tests.
pub struct Batch<'a> {
    pub charts: Vec<Chart<'a>>,
    /// The words of all samples.
    pub samples: &'a [u32],
}

impl Batch<'_> {
    /// The batch's own tests; nothing is judged.
    pub fn read(words: &[u32]) -> Result<Batch<'_>, Refusal> {
        let (n, mut rest) = count(words, MOST_CHARTS)?;
        let mut seen = [false; READINGS + 1];
        let mut charts = Vec::with_capacity(n as usize);
        for _ in 0..n {
            let (chart, after) = next_chart(rest, &mut seen)?;
            chart::tested(chart.setup, chart.later)?;
            charts.push(chart);
            rest = after;
        }
        let (n, samples) = count(rest, MOST_SAMPLES as u32)?;
        let mut rest = samples;
        for _ in 0..n {
            let (words, after) = split(rest, RECORD_WORDS)?;
            Record::read(words)?;
            rest = after;
        }
        if !rest.is_empty() {
            return Err(8);
        }
        Ok(Batch { charts, samples })
    }
}

pub fn judge_batch(words: &[u32], out: &mut [u32], floors: &Floors) -> Result<usize, Refusal> {
    let (charts, mut rest) = count(words, MOST_CHARTS)?;
    let mut seen = [false; READINGS + 1];
    let mut signalled = Vec::new();
    for _ in 0..charts {
        let (chart, after) = next_chart(rest, &mut seen)?;
        if chart::last_signal(chart.setup, chart.later)? != 0 {
            signalled.push(chart.element);
        }
        rest = after;
    }
    let (samples, mut rest) = count(rest, MOST_SAMPLES as u32)?;
    let mut answer = Vec::with_capacity(answer_words(samples as usize));
    answer.push(samples);
    for _ in 0..samples {
        let (words, after) = split(rest, RECORD_WORDS)?;
        let record = Record::read(words)?;
        answer.extend([(record.number >> 32) as u32, record.number as u32]);
        answer.extend(checks::verdicts(&record, floors));
        let flagged = signalled.iter().any(|&e| record.amounts[e - 1].is_some());
        answer.push(u32::from(flagged));
        rest = after;
    }
    if !rest.is_empty() {
        return Err(8);
    }
    out.get_mut(..answer.len())
        .ok_or(13u32)?
        .copy_from_slice(&answer);
    Ok(answer.len())
}
