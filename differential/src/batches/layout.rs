//! Where the parts of a batch stand, as far as its counts can be believed.

use crate::numbers::{
    CHART_COUNT, CHART_ELEMENT, CHART_HEAD, CHART_LATER, CHART_SETUP, COUNT_WORDS, FIRST_CHART,
    RECORD_WORDS,
};
use std::ops::Range;

#[derive(Default)]
pub struct Layout {
    /// The places of all counts: of the charts, of each chart's setup and later
    /// values, of the samples.
    pub counts: Vec<usize>,
    pub charts: Vec<Range<usize>>,
    /// The place of the samples' count.
    pub sample_count: Option<usize>,
    pub samples: Vec<Range<usize>>,
}

impl Layout {
    pub fn of(words: &[u32]) -> Layout {
        let mut layout = Layout::default();
        // A batch that ends early has the parts that were found by then.
        let _ = layout.find(words);
        layout
    }

    /// Nothing where the words end before a part does.
    fn find(&mut self, words: &[u32]) -> Option<()> {
        let charts = *words.get(CHART_COUNT)?;
        self.counts.push(CHART_COUNT);
        let mut place = FIRST_CHART;
        for _ in 0..charts {
            let counts = [place + CHART_SETUP, place + CHART_LATER];
            let [setup, later] = [*words.get(counts[0])?, *words.get(counts[1])?];
            self.counts.extend(counts);
            let end = place + CHART_HEAD + setup as usize + later as usize;
            words.get(place..end)?;
            self.charts.push(place..end);
            place = end;
        }
        let samples = *words.get(place)?;
        self.counts.push(place);
        self.sample_count = Some(place);
        place += COUNT_WORDS;
        for _ in 0..samples {
            let end = place + RECORD_WORDS;
            words.get(place..end)?;
            self.samples.push(place..end);
            place = end;
        }
        Some(())
    }
}

/// A chart's words taken apart.
#[derive(Clone, Copy, Debug, PartialEq, Eq)]
pub struct ChartParts<'a> {
    pub element: u32,
    pub setup: &'a [u32],
    pub later: &'a [u32],
}

impl<'a> ChartParts<'a> {
    /// Of a chart that a layout has found.
    pub fn of(words: &'a [u32]) -> ChartParts<'a> {
        let (head, values) = words.split_at(CHART_HEAD);
        let (setup, later) = values.split_at(head[CHART_SETUP] as usize);
        ChartParts {
            element: head[CHART_ELEMENT],
            setup,
            later,
        }
    }

    /// All charts of a batch that its layout finds: for the faults and for
    /// tests.
    #[cfg(any(test, feature = "stand-in"))]
    pub fn all_of(words: &'a [u32]) -> Vec<ChartParts<'a>> {
        let charts = Layout::of(words).charts.into_iter();
        charts.map(|part| ChartParts::of(&words[part])).collect()
    }
}

#[cfg(test)]
mod tests {
    use super::*;
    use reference::cases::batches::{flat, small};

    #[test]
    fn the_parts_of_a_small_batch() {
        // Charts of 10 + 2 and 10 + 1 values, and two samples.
        let first = FIRST_CHART;
        let second = first + CHART_HEAD + 12;
        let count = second + CHART_HEAD + 11;
        let sample = count + COUNT_WORDS;
        let end = sample + RECORD_WORDS;
        let layout = Layout::of(&small());
        assert_eq!(layout.charts, [first..second, second..count]);
        assert_eq!(layout.sample_count, Some(count));
        assert_eq!(layout.samples, [sample..end, end..end + RECORD_WORDS]);
        assert_eq!(end + RECORD_WORDS, small().len());
        let of_charts = [first, second].map(|chart| [chart + CHART_SETUP, chart + CHART_LATER]);
        let counts = [vec![CHART_COUNT], of_charts.concat(), vec![count]];
        assert_eq!(layout.counts, counts.concat());
    }

    #[test]
    fn the_charts_of_a_small_batch() {
        let words = small();
        let charts = ChartParts::all_of(&words);
        let due = [(4, vec![1_000, 1_001]), (9, vec![1_000])];
        let found = charts
            .iter()
            .map(|chart| (chart.element, chart.later.to_vec()));
        assert_eq!(found.collect::<Vec<_>>(), due);
        assert!(charts.iter().all(|chart| chart.setup == flat()));
    }

    #[test]
    fn a_batch_that_ends_early_has_what_came_before() {
        let small = small();
        let layout = Layout::of(&small[..small.len() - 1]);
        assert_eq!((layout.charts.len(), layout.samples.len()), (2, 1));
        assert!(Layout::of(&[]).counts.is_empty());
        assert!(Layout::of(&[u32::MAX, 1, u32::MAX, u32::MAX])
            .charts
            .is_empty());
    }
}
