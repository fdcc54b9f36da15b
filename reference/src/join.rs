//! "Runs of one day joined" (document 02 (iii)): "the batches before and after a
//! tray change as one". All quotations here are of that request.

use crate::batch::{self, Batch, Chart};
use crate::numbers::{
    CHART_ELEMENT, CHART_HEAD, CHART_LATER, CHART_SETUP, MOST_LATER, MOST_SAMPLES,
};
use crate::record::Record;
use crate::refusals::{refused_line, require, Refusal, JOINED_COUNT, SETUP_DIFFERS};
use crate::words::to_bytes;
use crate::{file, lent};

/// "a chart in both must have the same setup values in the same order, and its
/// later values are joined, first batch first": else 14, and 15 where these are
/// more than a chart may have, "with 14 before 15".
fn join_chart(first: &Chart, second: &Chart) -> Result<Chart, Refusal> {
    require(first.setup == second.setup, SETUP_DIFFERS)?;
    let later = [&first.later[..], &second.later[..]].concat();
    require(later.len() <= MOST_LATER, JOINED_COUNT)?;
    Ok(Chart {
        element: first.element,
        setup: first.setup.clone(),
        later,
    })
}

fn chart_of(element: u32, charts: &[Chart]) -> Option<&Chart> {
    charts.iter().find(|chart| chart.element == element)
}

/// "Charts of the first come first, then those found only in the second", tested
/// "chart by chart in joined order". There are as many elements as a batch may
/// have charts, and each has one joined chart at most: that count is never
/// beyond its range.
fn join_charts(first: &[Chart], second: &[Chart]) -> Result<Vec<Chart>, Refusal> {
    let mut joined = Vec::new();
    for chart in first {
        joined.push(match chart_of(chart.element, second) {
            Some(same) => join_chart(chart, same)?,
            None => chart.clone(),
        });
    }
    for chart in second {
        if chart_of(chart.element, first).is_none() {
            joined.push(chart.clone());
        }
    }
    Ok(joined)
}

/// "Samples of the first come first too": all of both. 15 where these are more
/// than a batch may have.
fn join_samples(first: &[Record], second: &[Record]) -> Result<Vec<Record>, Refusal> {
    let joined = [first, second].concat();
    require(joined.len() <= MOST_SAMPLES as usize, JOINED_COUNT)?;
    Ok(joined)
}

/// "chart by chart in joined order with 14 before 15, samples last"
fn join_batches(first: &Batch, second: &Batch) -> Result<Batch, Refusal> {
    let charts = join_charts(&first.charts, &second.charts)?;
    let samples = join_samples(&first.samples, &second.samples)?;
    Ok(Batch { charts, samples })
}

fn chart_words(chart: &Chart) -> Vec<u32> {
    let mut head = [0; CHART_HEAD];
    head[CHART_ELEMENT] = chart.element;
    head[CHART_SETUP] = chart.setup.len() as u32;
    head[CHART_LATER] = chart.later.len() as u32;
    [&head, &chart.setup[..], &chart.later[..]].concat()
}

/// "The answer is the joined batch in the file's layout": two sections, each
/// after its count.
fn layout(batch: &Batch) -> Vec<u32> {
    let mut words = vec![batch.charts.len() as u32];
    for chart in &batch.charts {
        words.extend(chart_words(chart));
    }
    words.push(batch.samples.len() as u32);
    for sample in &batch.samples {
        words.extend(sample.words);
    }
    words
}

/// The words of the joined batch. 14 and 15 "come after the first batch and then
/// the second has passed its own tests".
pub fn answer(first: &[u32], second: &[u32]) -> Result<Vec<u32>, Refusal> {
    let first = batch::read(first)?;
    let second = batch::read(second)?;
    join_batches(&first, &second).map(|batch| layout(&batch))
}

/// The same, into lent words: "samples last, then 13."
pub fn join(first: &[u32], second: &[u32], lent: &mut [u32]) -> Result<usize, Refusal> {
    lent::write(&answer(first, second)?, lent)
}

/// A file's batch: the tests on bytes come before its other tests.
fn read_file(bytes: &[u8]) -> Result<Batch, Refusal> {
    batch::read(&file::words(bytes)?)
}

/// The bytes of the joined batch's file. The first file has passed all its tests,
/// on bytes and on words, before the second is looked at.
pub fn answer_bytes(first: &[u8], second: &[u8]) -> Result<Vec<u8>, Refusal> {
    let first = read_file(first)?;
    let second = read_file(second)?;
    join_batches(&first, &second).map(|batch| to_bytes(&layout(&batch)))
}

/// The same, into lent bytes: 13 last.
pub fn join_bytes(first: &[u8], second: &[u8], lent: &mut [u8]) -> Result<usize, Refusal> {
    lent::write(&answer_bytes(first, second)?, lent)
}

/// What the program prints: the joined batch's file, or the line of the refusal.
pub fn output(first: &[u8], second: &[u8]) -> Vec<u8> {
    answer_bytes(first, second).unwrap_or_else(|refusal| refused_line(refusal).into_bytes())
}

#[cfg(test)]
mod tests;
