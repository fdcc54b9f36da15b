//! One element's chart in several batches: the later values of a single chart
//! parted among them, so that its runs go on over a tray change.

use super::setups::another;
use crate::charts::Chart;
use crate::numbers::MOST_LATER;
use crate::random::Draw;
use reference::cases::generator::Generator;

/// A chart for each of so many batches, with the same setup; in one set of five
/// one of them has another.
pub fn of_one_element(generator: &mut Generator, batches: usize) -> Vec<Chart> {
    let chart = Chart::drawn(generator);
    let mut charts = parted(generator, &chart, batches);
    if generator.once_in(5) {
        let place = generator.place(batches);
        charts[place].setup = another(generator, &chart.setup);
    }
    charts
}

/// The chart's later values go round and round where they are too few.
fn parted(generator: &mut Generator, chart: &Chart, batches: usize) -> Vec<Chart> {
    let values = chart.later.iter().chain(&chart.setup);
    let mut values = values.copied().cycle();
    let mut taken = 0;
    let next = |_| {
        let count = next_count(generator, taken);
        taken += count;
        Chart {
            setup: chart.setup.clone(),
            later: values.by_ref().take(count).collect(),
        }
    };
    (0..batches).map(next).collect()
}

/// How many later values the next batch has, where those before it have so
/// many: mostly a few, else about as many as there may be together, none, one,
/// as many as one batch may have, or any number.
fn next_count(generator: &mut Generator, before: usize) -> usize {
    let about = [MOST_LATER - 1, MOST_LATER, MOST_LATER, MOST_LATER + 1];
    let count = match generator.below(12) {
        0 => 0,
        1 => 1,
        2 => MOST_LATER,
        3 => generator.place(MOST_LATER + 1),
        4 | 5 => generator.pick(&about).saturating_sub(before),
        _ => generator.place(9),
    };
    count.min(MOST_LATER)
}

#[cfg(test)]
mod tests {
    use super::*;
    use crate::numbers::{LEAST_SETUP, MOST_SETUP};
    use std::collections::HashMap;

    /// How many later values each of two batches has, and how often.
    fn counts() -> HashMap<(usize, usize), u32> {
        let mut generator = Generator::new(30);
        let mut times = HashMap::new();
        for _ in 0..40_000 {
            let charts = of_one_element(&mut generator, 2);
            let counts = (charts[0].later.len(), charts[1].later.len());
            *times.entry(counts).or_default() += 1;
        }
        times
    }

    #[test]
    fn joined_counts_about_the_most_are_common() {
        let counts = counts();
        for all in [63, 64, 65] {
            let alike = counts.iter().filter(|((a, b), _)| a + b == all);
            assert!(alike.clone().map(|(_, times)| times).sum::<u32>() > 500);
            assert!(alike.count() > 40, "{all} values are parted in many ways");
        }
        for edge in [(64, 0), (0, 64), (64, 1), (1, 64), (64, 64), (0, 0)] {
            let times = counts.get(&edge).copied().unwrap_or(0);
            assert!(times > 50, "{edge:?} {times} times");
        }
        assert!(counts.len() > 1_000, "{}", counts.len());
    }

    #[test]
    fn every_batch_takes_its_chart() {
        let mut generator = Generator::new(31);
        for batches in [1, 2, 3] {
            for _ in 0..1_000 {
                let charts = of_one_element(&mut generator, batches);
                assert_eq!(charts.len(), batches);
                for Chart { setup, later } in charts {
                    assert!((LEAST_SETUP..=MOST_SETUP).contains(&setup.len()));
                    assert!(later.len() <= MOST_LATER);
                }
            }
        }
    }

    #[test]
    fn values_go_on_in_the_next_batch() {
        let mut generator = Generator::new(32);
        for _ in 0..1_000 {
            let chart = Chart::drawn(&mut generator);
            let parts = parted(&mut generator, &chart, 3);
            let joined: Vec<u32> = parts.into_iter().flat_map(|part| part.later).collect();
            let length = joined.len().min(chart.later.len());
            assert_eq!(joined[..length], chart.later[..length]);
        }
    }
}
