//! Faults in a join: tests of something else or in another order, charts or
//! samples put together otherwise, and a length told that is none of the answer.

use super::Fault::{
    self, AllSetupsFirst, ChartCountsAdded, CountBeforeSetup, EqualNumbersMerged,
    JoinedLengthToldWhenRefused, LaterCountKept, LentLengthTold, OutputBeforeCounts,
    SampleBeyondTaken, SamplesBeforeCharts, SamplesSorted, SecondChartsFirst, SecondLaterFirst,
    SecondSamplesFirst, SecondTestedFirst, SetupByItsCount, SetupByTheShorter, SetupInAnyOrder,
    SharedChartTwice, SixtyFiveTaken, SixtyFourRefused, TestedInTheOtherOrder,
};
use crate::batches::{ChartParts, Layout};
use crate::numbers::{CHART_LATER, JOINED_COUNT, MOST_LATER, MOST_SAMPLES, SETUP_DIFFERS};
use crate::sample_numbers::number_of;
use crate::stand_in::write_telling;
use reference::batch;
use reference::cases::batches::chart;
use reference::refusals::{require, Refusal, OUTPUT};
use std::collections::HashSet;

/// A batch taken apart, once its own tests let it pass.
struct Batch<'a> {
    charts: Vec<ChartParts<'a>>,
    samples: Vec<&'a [u32]>,
}

impl<'a> Batch<'a> {
    fn of(words: &'a [u32]) -> Batch<'a> {
        let samples = Layout::of(words).samples.into_iter();
        Batch {
            charts: ChartParts::all_of(words),
            samples: samples.map(|part| &words[part]).collect(),
        }
    }

    fn chart(&self, element: u32) -> Option<ChartParts<'a>> {
        let mut charts = self.charts.iter().copied();
        charts.find(|chart| chart.element == element)
    }

    fn elements(&self) -> Vec<u32> {
        self.charts.iter().map(|chart| chart.element).collect()
    }
}

/// Both batches joined with this fault, into a lent slice. With a fault that is
/// none of a join the answer is right.
pub fn misjoined(
    fault: Fault,
    first: &[u32],
    second: &[u32],
    lent: &mut [u32],
    size: &mut usize,
) -> u32 {
    if let Err(refusal) = own_tests(fault, first, second) {
        return refusal;
    }
    let [first, second] = [first, second].map(Batch::of);
    let words = joined_words(fault, &first, &second);
    let length = words.len();
    let is_short = lent.len() < length;
    let answer = match joined_tests(fault, &first, &second) {
        Err(JOINED_COUNT) if fault == OutputBeforeCounts && is_short => Err(OUTPUT),
        tested => tested.map(|()| words),
    };
    let refusal = write_telling(answer, lent, size);
    match fault {
        LentLengthTold if refusal == 0 => *size = lent.len(),
        JoinedLengthToldWhenRefused if refusal != 0 => *size = length,
        _ => {}
    }
    refusal
}

fn own_tests(fault: Fault, first: &[u32], second: &[u32]) -> Result<(), Refusal> {
    if fault == SecondTestedFirst {
        batch::test(second)?;
    }
    batch::test(first)?;
    batch::test(second)
}

/// 14 and 15, chart by chart in joined order, samples last.
fn joined_tests(fault: Fault, first: &Batch, second: &Batch) -> Result<(), Refusal> {
    let samples = first.samples.len() + second.samples.len();
    let test_samples = || require(samples <= most_samples(fault), JOINED_COUNT);
    if fault == SamplesBeforeCharts {
        test_samples()?;
    }
    let shared = shared(fault, first, second);
    if fault == AllSetupsFirst {
        shared.iter().try_for_each(|pair| test_setup(fault, pair))?;
    }
    for pair in &shared {
        if fault == CountBeforeSetup {
            test_later(fault, pair)?;
        }
        test_setup(fault, pair)?;
        test_later(fault, pair)?;
    }
    test_samples()
}

/// The charts that are in both, in the order in which they are tested.
fn shared<'a>(fault: Fault, first: &Batch<'a>, second: &Batch<'a>) -> Vec<[ChartParts<'a>; 2]> {
    let elements = match fault {
        TestedInTheOtherOrder => second.elements(),
        _ => first.elements(),
    };
    let in_both = |element| Some([first.chart(element)?, second.chart(element)?]);
    elements.into_iter().filter_map(in_both).collect()
}

fn test_setup(fault: Fault, [first, second]: &[ChartParts; 2]) -> Result<(), Refusal> {
    let (first, second) = (first.setup, second.setup);
    let is_same = match fault {
        SetupByItsCount => first.len() == second.len(),
        SetupInAnyOrder => sorted(first) == sorted(second),
        SetupByTheShorter => first.iter().zip(second).all(|(one, other)| one == other),
        _ => first == second,
    };
    require(is_same, SETUP_DIFFERS)
}

fn sorted(values: &[u32]) -> Vec<u32> {
    let mut values = values.to_vec();
    values.sort();
    values
}

fn test_later(fault: Fault, [first, second]: &[ChartParts; 2]) -> Result<(), Refusal> {
    let most = match fault {
        SixtyFourRefused => MOST_LATER - 1,
        SixtyFiveTaken => MOST_LATER + 1,
        _ => MOST_LATER,
    };
    require(first.later.len() + second.later.len() <= most, JOINED_COUNT)
}

fn most_samples(fault: Fault) -> usize {
    MOST_SAMPLES as usize + usize::from(fault == SampleBeyondTaken)
}

fn joined_words(fault: Fault, first: &Batch, second: &Batch) -> Vec<u32> {
    let elements = joined_elements(fault, first, second).into_iter();
    let charts = elements.map(|element| joined_chart(fault, element, first, second));
    let charts: Vec<Vec<u32>> = charts.collect();
    let count = match fault {
        ChartCountsAdded => first.charts.len() + second.charts.len(),
        _ => charts.len(),
    };
    let samples = joined_samples(fault, first, second);
    [
        vec![count as u32],
        charts.concat(),
        vec![samples.len() as u32],
        samples.concat(),
    ]
    .concat()
}

fn joined_elements(fault: Fault, first: &Batch, second: &Batch) -> Vec<u32> {
    let [mut elements, others] = match fault {
        SecondChartsFirst => [second, first].map(Batch::elements),
        _ => [first, second].map(Batch::elements),
    };
    let before = elements.clone();
    let is_written = |element: &u32| fault == SharedChartTwice || !before.contains(element);
    elements.extend(others.into_iter().filter(is_written));
    elements
}

fn joined_chart(fault: Fault, element: u32, first: &Batch, second: &Batch) -> Vec<u32> {
    let charts = match fault {
        SecondLaterFirst => [second, first],
        _ => [first, second],
    };
    let charts = charts.into_iter().filter_map(|batch| batch.chart(element));
    let charts: Vec<ChartParts> = charts.collect();
    let later: Vec<&[u32]> = charts.iter().map(|chart| chart.later).collect();
    let mut words = chart(element, charts[0].setup, &later.concat());
    if fault == LaterCountKept {
        words[CHART_LATER] = charts[0].later.len() as u32;
    }
    words
}

fn joined_samples<'a>(fault: Fault, first: &Batch<'a>, second: &Batch<'a>) -> Vec<&'a [u32]> {
    let batches = match fault {
        SecondSamplesFirst => [second, first],
        _ => [first, second],
    };
    let mut samples = batches.map(|batch| batch.samples.clone()).concat();
    let mut numbers = HashSet::new();
    match fault {
        SamplesSorted => samples.sort_by_key(|sample| number_of(sample)),
        EqualNumbersMerged => samples.retain(|sample| numbers.insert(number_of(sample))),
        _ => {}
    }
    samples
}

#[cfg(test)]
mod tests {
    use super::super::tests::smallest_input;
    use super::*;
    use crate::answers;
    use crate::joins::a_pair;
    use crate::numbers::{CHART_HEAD, COUNT_WORDS, LEAST_SETUP, RECORD_WORDS};
    use reference::cases::generator::Generator;

    /// Every fault here is what it says and nothing else.
    #[test]
    fn without_a_fault_of_a_join_the_joiner_is_right() {
        let mut generator = Generator::new(44);
        for _ in 0..5_000 {
            let [first, second] = a_pair(&mut generator);
            let due = answers::join(&first, &second);
            let mut lent = vec![0; first.len() + second.len()];
            let mut size = 0;
            let answer = misjoined(Fault::TieGoesDown, &first, &second, &mut lent, &mut size);
            lent.truncate(size);
            let found = match answer {
                0 => Ok(lent),
                refusal => Err(refusal),
            };
            assert_eq!(found, due);
        }
    }

    /// How many words each of the two batches has.
    fn lengths(input: &str) -> Vec<usize> {
        let lines = input.lines().filter_map(|line| line.strip_suffix(" words"));
        lines
            .filter_map(|count| count.trim().parse().ok())
            .collect()
    }

    const EMPTY: usize = 2 * COUNT_WORDS;
    const LEAST_CHART: usize = CHART_HEAD + LEAST_SETUP;

    #[test]
    fn charts_in_both_shrink_to_one_of_ten_zeros() {
        for (fault, [first, second]) in [
            (ChartCountsAdded, [0, 0]),
            (SharedChartTwice, [0, 0]),
            (LaterCountKept, [0, 1]),
            (SecondLaterFirst, [1, 1]),
        ] {
            let input = smallest_input(fault);
            let due = [first, second].map(|later| EMPTY + LEAST_CHART + later);
            assert_eq!(lengths(&input), due, "{fault:?}: {input}");
            let zeros = format!(", {}", ["0"; LEAST_SETUP].join(", "));
            assert_eq!(input.matches("chart").count(), 2, "{input}");
            assert!(input.matches(&zeros).count() >= 4, "{input}");
        }
    }

    #[test]
    fn samples_in_another_order_shrink_to_two() {
        for fault in [SecondSamplesFirst, EqualNumbersMerged] {
            let input = smallest_input(fault);
            assert_eq!(lengths(&input), [EMPTY + RECORD_WORDS; 2], "{input}");
        }
    }

    #[test]
    fn a_sample_beyond_shrinks_to_401_without_charts() {
        let all: usize = lengths(&smallest_input(SampleBeyondTaken)).iter().sum();
        assert_eq!(all, 2 * EMPTY + 401 * RECORD_WORDS);
    }

    #[test]
    fn a_length_told_wrongly_shrinks_to_two_empty_batches() {
        for (fault, room) in [
            (LentLengthTold, EMPTY + 1),
            (JoinedLengthToldWhenRefused, 0),
        ] {
            let input = smallest_input(fault);
            assert_eq!(lengths(&input), [EMPTY; 2], "{fault:?}: {input}");
            let lent = format!("join, {room} words lent ");
            assert!(input.starts_with(&lent), "{fault:?}: {input}");
        }
    }

    #[test]
    fn two_charts_are_left_where_their_order_tells() {
        for fault in [AllSetupsFirst, TestedInTheOtherOrder] {
            let input = smallest_input(fault);
            assert_eq!(input.matches("chart").count(), 4, "{fault:?}: {input}");
        }
    }
}
