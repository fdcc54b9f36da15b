//! Two batches of one day as one.

use super::batch::{Batch, Chart};
use super::Refusal;
use crate::numbers::{CHART_HEAD, COUNT_WORDS, MOST_LATER, MOST_SAMPLES, RECORD_WORDS};

/// A chart with the later values that the second batch adds to it.
struct Joined<'a> {
    chart: Chart<'a>,
    added: &'a [u32],
}

impl<'a> Joined<'a> {
    /// A chart that is in one of the batches alone.
    fn alone(chart: Chart<'a>) -> Joined<'a> {
        Joined { chart, added: &[] }
    }

    fn of_both(chart: Chart<'a>, other: &Chart<'a>) -> Result<Joined<'a>, Refusal> {
        if chart.setup != other.setup {
            return Err(14);
        }
        if chart.later.len() + other.later.len() > MOST_LATER {
            return Err(15);
        }
        let added = other.later;
        Ok(Joined { chart, added })
    }

    fn head(&self) -> [u32; CHART_HEAD] {
        let Chart {
            element,
            setup,
            later,
        } = self.chart;
        [element, setup.len(), later.len() + self.added.len()].map(|word| word as u32)
    }

    fn values(&self) -> [&'a [u32]; 3] {
        [self.chart.setup, self.chart.later, self.added]
    }

    fn len(&self) -> usize {
        let values = self.values().map(<[u32]>::len);
        CHART_HEAD + values.iter().sum::<usize>()
    }
}

fn joined_charts<'a>(first: &Batch<'a>, second: &Batch<'a>) -> Result<Vec<Joined<'a>>, Refusal> {
    let mut charts = Vec::with_capacity(first.charts.len() + second.charts.len());
    for &chart in &first.charts {
        let mut others = second.charts.iter();
        charts.push(match others.find(|c| c.element == chart.element) {
            Some(other) => Joined::of_both(chart, other)?,
            None => Joined::alone(chart),
        });
    }
    for &other in &second.charts {
        if first.charts.iter().all(|c| c.element != other.element) {
            charts.push(Joined::alone(other));
        }
    }
    Ok(charts)
}

pub fn join(first: &[u32], second: &[u32], out: &mut [u32]) -> Result<usize, Refusal> {
    let (first, second) = (Batch::read(first)?, Batch::read(second)?);
    let charts = joined_charts(&first, &second)?;
    let sample_words = first.samples.len() + second.samples.len();
    let samples = sample_words / RECORD_WORDS;
    if samples > MOST_SAMPLES {
        return Err(15);
    }
    let chart_words: usize = charts.iter().map(Joined::len).sum();
    let length = 2 * COUNT_WORDS + chart_words + sample_words;
    let mut rest = out.get_mut(..length).ok_or(13u32)?;
    let mut put = |words: &[u32]| {
        let (place, after) = std::mem::take(&mut rest).split_at_mut(words.len());
        place.copy_from_slice(words);
        rest = after;
    };
    put(&[charts.len() as u32]);
    for chart in &charts {
        put(&chart.head());
        chart.values().into_iter().for_each(&mut put);
    }
    put(&[samples as u32]);
    put(first.samples);
    put(second.samples);
    Ok(length)
}

#[cfg(test)]
mod tests {
    use super::*;
    use crate::inputs::{a_pair, Random};
    use crate::numbers::{CHART_SETUP, MOST_BATCH};

    /// The joined words, with as much room as there may be.
    fn joined(first: &[u32], second: &[u32]) -> Result<Vec<u32>, Refusal> {
        let mut out = [0; MOST_BATCH];
        join(first, second, &mut out).map(|length| out[..length].to_vec())
    }

    #[test]
    fn the_other_implementation_gives_the_same_words() {
        let mut random = Random::new(6);
        for samples in [0, 1, 2, 200, 201] {
            let [first, second] = a_pair(&mut random, samples);
            let nothing = [0, 0];
            let pairs = [
                (&first[..], &second[..]),
                (&second, &first),
                (&first, &first),
                (&first, &nothing),
                (&nothing, &first),
                (&first, &second[1..]),
            ];
            for (first, second) in pairs {
                let due = reference::join::answer(first, second);
                assert_eq!(joined(first, second), due);
            }
        }
    }

    #[test]
    fn every_word_of_a_chart_that_differs_is_refused_alike() {
        let [first, second] = a_pair(&mut Random::new(7), 1);
        let refusals = (0..COUNT_WORDS + CHART_HEAD + 30).map(|place| {
            let mut second = second.clone();
            second[place] += 1;
            let due = reference::join::answer(&first, &second);
            assert_eq!(joined(&first, &second), due, "{place}");
            due.err().unwrap_or(0)
        });
        let refusals: Vec<u32> = refusals.collect();
        assert_ne!(refusals[COUNT_WORDS + CHART_SETUP], 14);
        assert_eq!(refusals[COUNT_WORDS + CHART_HEAD..], [14; 30]);
    }

    #[test]
    fn a_short_slice_stays_as_it_was() {
        let [first, second] = a_pair(&mut Random::new(8), 3);
        let due = joined(&first, &second).expect("a joined batch");
        let mut out = vec![5; due.len() - 1];
        assert_eq!(join(&first, &second, &mut out), Err(13));
        assert!(out.iter().all(|&word| word == 5));
    }
}
