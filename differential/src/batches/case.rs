//! A batch to be answered.

use super::layout::{ChartParts, Layout};
use crate::answers;
use crate::canary::Lent;
use crate::case::{Case, Difference};
use crate::charts::smaller_charts;
use crate::library::Library;
use crate::numbers::{CHART_COUNT, RECORD_WORDS};
use crate::outcome::Outcome;
use crate::records::{describe_record, smaller_records};
use crate::shrink::{flatter, shorter, simpler_room, simpler_words, stretches};
use reference::cases::batches::chart;
use std::ops::Range;

pub struct BatchCase {
    pub words: Vec<u32>,
    pub room: usize,
}

impl Case for BatchCase {
    fn difference(&self, library: &dyn Library) -> Option<Difference> {
        let mut lent = Lent::of_length(self.room);
        let due = Outcome::due(lent.content(), answers::batch(&self.words));
        let answer = library.batch(&self.words, lent.slice());
        Outcome::found(answer, &lent).against(&due)
    }

    fn smaller(&self) -> impl Iterator<Item = BatchCase> {
        let exact = super::answer_length(&self.words);
        let rooms = simpler_room(self.room, exact).map(|room| BatchCase {
            words: self.words.clone(),
            room,
        });
        // A smaller batch has a smaller answer: its room is made exact first.
        let batches = smaller_batches(&self.words).flat_map(|words| {
            let exact = super::answer_length(&words);
            let rooms = [exact, self.room];
            rooms.map(|room| BatchCase {
                words: words.clone(),
                room,
            })
        });
        batches.chain(rooms)
    }

    fn describe(&self) -> String {
        let batch = describe_batch(&self.words);
        format!("batch, {} words lent for the answer\n{batch}", self.room)
    }
}

/// Batches with fewer samples, fewer charts, fewer words, simpler words.
pub fn smaller_batches(words: &[u32]) -> impl Iterator<Item = Vec<u32>> + '_ {
    let layout = Layout::of(words);
    fewer_samples(words)
        .chain(fewer_charts(words))
        .chain(flatter(words))
        .chain(simpler_charts(words, layout.charts))
        .chain(shorter(words))
        .chain(simpler_samples(words, layout.samples))
        .chain(simpler_words(words, |_| 0))
}

pub fn fewer_samples(words: &[u32]) -> impl Iterator<Item = Vec<u32>> + '_ {
    let Layout {
        sample_count,
        samples,
        ..
    } = Layout::of(words);
    let fewer = sample_count.map(|count| without_parts(words, count, samples));
    fewer.into_iter().flatten()
}

pub fn fewer_charts(words: &[u32]) -> impl Iterator<Item = Vec<u32>> + '_ {
    without_parts(words, CHART_COUNT, Layout::of(words).charts)
}

/// The words with another part in the place of one.
pub fn replaced(words: &[u32], part: &Range<usize>, by: &[u32]) -> Vec<u32> {
    [&words[..part.start], by, &words[part.end..]].concat()
}

/// One chart made simpler, its counts with it.
fn simpler_charts(words: &[u32], charts: Vec<Range<usize>>) -> impl Iterator<Item = Vec<u32>> + '_ {
    charts.into_iter().flat_map(move |part| {
        let ChartParts {
            element,
            setup,
            later,
        } = ChartParts::of(&words[part.clone()]);
        smaller_charts(setup, later)
            .map(move |(setup, later)| replaced(words, &part, &chart(element, &setup, &later)))
    })
}

/// One sample made simpler, as long as before and with no word greater: a
/// record's words go to the printed sample's and those of a batch to 0, and
/// without this the two would undo each other for ever.
fn simpler_samples(
    words: &[u32],
    samples: Vec<Range<usize>>,
) -> impl Iterator<Item = Vec<u32>> + '_ {
    samples.into_iter().flat_map(move |part| {
        let before = &words[part.clone()];
        smaller_records(before)
            .filter(|sample| sample.len() == RECORD_WORDS)
            .filter(move |sample| sample.iter().zip(before).all(|(new, old)| new <= old))
            .map(move |sample| replaced(words, &part, &sample))
    })
}

/// The words without a stretch of parts, their count lowered by as many.
fn without_parts(
    words: &[u32],
    count: usize,
    parts: Vec<Range<usize>>,
) -> impl Iterator<Item = Vec<u32>> + '_ {
    stretches(parts.len()).map(move |(first, last)| {
        let (start, end) = (parts[first].start, parts[last - 1].end);
        let mut shorter = [&words[..start], &words[end..]].concat();
        shorter[count] -= (last - first) as u32;
        shorter
    })
}

/// So many words are told; beyond that the seed has to do.
const MOST_TOLD: usize = 600;

/// The charts and the samples, as far as the counts can be believed, and all
/// the words.
pub fn describe_batch(words: &[u32]) -> String {
    let told = &words[..words.len().min(MOST_TOLD)];
    let layout = Layout::of(told);
    let charts = layout
        .charts
        .iter()
        .map(|chart| format!("  chart {:?}", &words[chart.clone()]));
    let samples = layout
        .samples
        .iter()
        .map(|sample| describe_record(&words[sample.clone()]));
    let mut lines = vec![format!("  {} words", words.len())];
    lines.extend(charts.chain(samples));
    lines.push(if told == words {
        format!("  all in all {words:?}")
    } else {
        format!("  the first {MOST_TOLD} {told:?}")
    });
    lines.join("\n")
}
