//! Pairs that are joined.

use super::Pair;
use crate::batch::Chart;
use crate::cases::batches::{batch, chart, flat, printed_with};
use crate::cases::bottle::{plausible, Bottle};
use crate::cases::charts::WIDE;
use crate::cases::generator::Generator;
use crate::cases::greatest_batch::charts_and_samples;
use crate::numbers::{AMMONIUM, CALCIUM, MAGNESIUM, MOST_NUMBER, MOST_SAMPLES, SODIUM};

pub fn all() -> Vec<Pair> {
    vec![
        tray_change(),
        flag_changes(),
        no_charts(),
        Pair::of_words("empty_batches", &batch(&[], &[]), &batch(&[], &[])),
        greatest(),
    ]
}

/// Charts of three elements before the change and of four after it, two of them
/// in both, in the other order; five samples and four.
pub fn tray_change() -> Pair {
    let mut generator = Generator::new(1_101);
    let mut half = |elements: &[u32], samples: u32| -> Vec<u32> {
        let charts: Vec<Vec<u32>> = elements
            .iter()
            .map(|&element| chart_of_the_day(&mut generator, element))
            .collect();
        let samples: Vec<Bottle> = (0..samples).map(|_| plausible(&mut generator)).collect();
        batch(&charts, &samples)
    };
    let first = half(&[8, 2, 5], 5);
    let second = half(&[5, 1, 8, 9], 4);
    Pair::of_words("tray_change", &first, &second)
}

/// A chart with the setup that its element has all day, and later values drawn.
fn chart_of_the_day(generator: &mut Generator, element: u32) -> Vec<u32> {
    let mut setup_generator = Generator::new(1_110 + u64::from(element));
    let setup: Vec<u32> = (0..10 + element)
        .map(|_| 2_000 + setup_generator.below(200))
        .collect();
    let later: Vec<u32> = (0..generator.between(3, 9))
        .map(|_| 1_980 + generator.below(240))
        .collect();
    chart(element, &setup, &later)
}

/// A bottle in which of the elements 1 to 4 only those are present whose
/// readings are named.
fn only(number: u64, present: &[usize]) -> Bottle {
    let mut bottle = Bottle::printed().number(number);
    for place in [AMMONIUM, CALCIUM, MAGNESIUM, SODIUM] {
        if !present.contains(&place) {
            bottle = bottle.missing(place);
        }
    }
    bottle
}

/// Element 1 is calm before the change and signals after it, element 2 the other
/// way round; element 3 has a chart before it only; element 4 has seven values
/// above the mean, four of them before the change.
fn flag_changes() -> Pair {
    let first_charts = [
        chart(1, &flat(), &[1_001, 1_000]),
        chart(2, &flat(), &[1_000, 1_001]),
        chart(3, &flat(), &[1_001]),
        chart(4, &WIDE, &[1_001, 1_002, 1_001, 1_002]),
    ];
    let second_charts = [
        chart(4, &WIDE, &[1_001, 1_002, 1_001]),
        chart(2, &flat(), &[1_001, 1_000]),
        chart(1, &flat(), &[1_000, 1_001]),
    ];
    let first_samples = [
        only(101, &[AMMONIUM]),
        only(102, &[CALCIUM]),
        only(103, &[SODIUM]),
        only(104, &[]),
    ];
    let second_samples = [
        only(201, &[MAGNESIUM]),
        only(202, &[SODIUM]),
        only(203, &[CALCIUM]),
        only(204, &[AMMONIUM]),
    ];
    let first = batch(&first_charts, &first_samples);
    let second = batch(&second_charts, &second_samples);
    Pair::of_words("flag_changes", &first, &second)
}

/// Samples alone; one number is in both, and numbers go down as well as up.
fn no_charts() -> Pair {
    let first = batch(&[], &printed_with([9, 8, MOST_NUMBER]));
    let second = batch(&[], &[Bottle::doubtful(), Bottle::printed().number(8)]);
    Pair::of_words("no_charts", &first, &second)
}

/// Where the later values of the first eight charts are parted.
const LATER_BEFORE: [usize; 8] = [0, 64, 32, 1, 63, 64, 44, 7];
/// The charts after the change, by their places in the greatest batch: the sixth
/// is in the first batch only, the last two in the second only.
const CHARTS_AFTER: [usize; 9] = [7, 8, 2, 0, 9, 1, 6, 4, 3];
/// How many samples come before the change.
const SAMPLES_BEFORE: usize = MOST_SAMPLES as usize / 2 - 17;

/// The greatest batch taken apart: it is the answer.
fn greatest() -> Pair {
    let (charts, samples) = charts_and_samples();
    let first_charts: Vec<Vec<u32>> = charts
        .iter()
        .zip(LATER_BEFORE)
        .map(|(chart, count)| with_later(chart, &chart.later[..count]))
        .collect();
    let second_charts = CHARTS_AFTER.map(|place| {
        let count = LATER_BEFORE.get(place).copied().unwrap_or(0);
        with_later(&charts[place], &charts[place].later[count..])
    });
    let (first_samples, second_samples) = samples.split_at(SAMPLES_BEFORE);
    let first = batch(&first_charts, first_samples);
    let second = batch(&second_charts, second_samples);
    Pair::of_words("greatest", &first, &second)
}

/// A chart with some of its later values.
fn with_later(whole: &Chart, later: &[u32]) -> Vec<u32> {
    chart(whole.element, &whole.setup, later)
}
