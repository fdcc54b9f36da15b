//! Call 12: batches.

use super::bottle::{plausible, Bottle};
use super::charts::BEYOND_WHOLE;
use super::generator::Generator;
use super::sample_numbers::{ends_of_every_count, mixed, swapped, ORDERED, REFUSED};
use super::Cases;
use crate::numbers::{
    answer_words, reading_of, AMMONIUM, CHART_ELEMENT, CHART_HEAD, CHART_LATER, CHART_SETUP,
    LEAST_LIMIT_BITS, LEAST_SETUP, MOST_ALKALINITY, MOST_CHARTS, MOST_LATER, MOST_NUMBER, MOST_PH,
    MOST_SAMPLES, MOST_SETUP, MOST_VALUE, ORGANIC_CARBON, POTASSIUM, READINGS, RECORD_WORDS,
    REPLAY_ROOM, REPLAY_SAMPLES, SOIL_WATER,
};
use std::slice::from_ref;

/// The least setup, and without variance: all values are 1,000.
pub fn flat() -> [u32; LEAST_SETUP] {
    [1_000; LEAST_SETUP]
}

/// A chart's first words: element, setup count, later count, whatever these say.
pub fn chart_head(element: u32, setup: usize, later: usize) -> Vec<u32> {
    let mut head = vec![0; CHART_HEAD];
    head[CHART_ELEMENT] = element;
    head[CHART_SETUP] = setup as u32;
    head[CHART_LATER] = later as u32;
    head
}

/// A chart's words: its head, then its values.
pub fn chart(element: u32, setup: &[u32], later: &[u32]) -> Vec<u32> {
    let head = chart_head(element, setup.len(), later.len());
    [&head, setup, later].concat()
}

/// A batch from its charts' count on, whatever that says.
pub fn charts_counted(count: u32, rest: &[u32]) -> Vec<u32> {
    [&[count], rest].concat()
}

/// A batch without charts from its samples' count on, whatever that says.
pub fn samples_counted(count: u32, rest: &[u32]) -> Vec<u32> {
    charts_counted(0, &[&[count], rest].concat())
}

/// A batch's words: "two sections, each after its count".
pub fn batch(charts: &[Vec<u32>], samples: &[Bottle]) -> Vec<u32> {
    let mut rest = charts.concat();
    rest.push(samples.len() as u32);
    for sample in samples {
        rest.extend(sample.words());
    }
    charts_counted(charts.len() as u32, &rest)
}

fn add(cases: &mut Cases, room: usize, batch: &[u32]) {
    cases.add(12, &[&[room as u32], batch].concat());
}

pub fn all(cases: &mut Cases) {
    small_ones(cases);
    every_prefix(cases);
    single_refusals(cases);
    competing_in_charts(cases);
    competing_across_parts(cases);
    competing_at_the_end(cases);
    flags(cases);
    numbers(cases);
    rooms(cases);
    scattered(cases);
}

/// Two charts and two samples.
pub fn small() -> Vec<u32> {
    let charts = [
        chart(4, &flat(), &[1_000, 1_001]),
        chart(9, &flat(), &[1_000]),
    ];
    batch(&charts, &[Bottle::printed(), Bottle::doubtful()])
}

fn small_ones(cases: &mut Cases) {
    for room in [1, 0, 3] {
        add(cases, room, &batch(&[], &[]));
    }
    add(cases, answer_words(1), &batch(&[], &[Bottle::printed()]));
    add(
        cases,
        answer_words(0),
        &batch(&[chart(1, &flat(), &[])], &[]),
    );
    add(cases, answer_words(2), &small());
    let same = [Bottle::printed(), Bottle::printed()];
    add(cases, answer_words(2), &batch(&[], &same));
}

/// "8 a batch ends early": after every word of it, and words left over.
fn every_prefix(cases: &mut Cases) {
    let whole = small();
    let room = answer_words(2);
    for length in 0..whole.len() {
        add(cases, room, &whole[..length]);
    }
    for leftover in [vec![0], vec![0, 0], vec![7; RECORD_WORDS]] {
        add(cases, room, &[whole.clone(), leftover].concat());
    }
    add(cases, 4, &samples_counted(0, &[0]));
}

fn single_refusals(cases: &mut Cases) {
    let room = answer_words(0);
    for count in [MOST_CHARTS + 1, MOST_CHARTS + 2, MOST_SAMPLES, u32::MAX] {
        add(cases, room, &charts_counted(count, &[0]));
    }
    for count in [MOST_SAMPLES + 1, 65_536, u32::MAX] {
        add(cases, room, &samples_counted(count, &[]));
    }
    let last = READINGS as u32;
    for element in [0, 1, last, last + 1, u32::MAX] {
        add(cases, room, &batch(&[chart(element, &flat(), &[1])], &[]));
    }
    chart_counts(cases);
    for value in [BEYOND_WHOLE, MOST_VALUE, MOST_VALUE + 1, u32::MAX] {
        let mut setup = flat();
        setup[LEAST_SETUP - 1] = value;
        add(cases, room, &batch(&[chart(3, &setup, &[])], &[]));
        add(cases, room, &batch(&[chart(3, &flat(), &[5, value])], &[]));
    }
    let room = answer_words(2);
    for faulty in faulty_bottles() {
        let second = [Bottle::printed(), faulty.clone()];
        add(cases, room, &batch(&[], &second));
        add(cases, room, &batch(&[], &[faulty, Bottle::printed()]));
    }
    eleven_charts(cases);
}

/// A chart's counts at the ends of their ranges and beyond.
fn chart_counts(cases: &mut Cases) {
    const MOST: usize = u32::MAX as usize;
    for (setup, later) in [
        (0, 0),
        (LEAST_SETUP - 1, 0),
        (LEAST_SETUP, MOST_LATER + 1),
        (MOST_SETUP + 1, 0),
        (MOST_SETUP, MOST_LATER),
        (MOST, MOST),
    ] {
        let values = vec![1_000; (setup + later).min(MOST_SETUP + MOST_LATER)];
        let chart = [chart_head(3, setup, later), values];
        add(cases, answer_words(0), &batch(&[chart.concat()], &[]));
    }
}

/// Bottles that a record's tests refuse with 2 to 7.
pub fn faulty_bottles() -> [Bottle; 6] {
    let printed = Bottle::printed();
    [
        printed.number(0),
        printed.kind(SOIL_WATER + 1),
        printed.ph(MOST_PH + 1),
        printed.conductivity(0),
        printed.alkalinity(MOST_ALKALINITY + 1),
        printed.reading(ORGANIC_CARBON, 0, 1),
    ]
}

/// Ten charts are taken whole; the eleventh is one too many.
fn eleven_charts(cases: &mut Cases) {
    let charts: Vec<Vec<u32>> = (1..=MOST_CHARTS + 1)
        .map(|element| chart(element, &flat(), &[1_000]))
        .collect();
    let most = &charts[..MOST_CHARTS as usize];
    for charts in [most, &charts] {
        let words = batch(charts, &[Bottle::printed()]);
        add(cases, answer_words(1), &words);
    }
}

/// Two faults of the charts at once.
fn competing_in_charts(cases: &mut Cases) {
    let (few, least, most, many) = (LEAST_SETUP - 1, LEAST_SETUP, MOST_LATER, MOST_LATER + 1);
    let good = chart(8, &flat(), &[1_000]);
    let bad_value = bad_value(8);
    let mut charts = |charts: &[Vec<u32>]| add(cases, answer_words(0), &batch(charts, &[]));
    // The element before the counts, out of range and repeated.
    charts(&[chart_head(0, few, 0)]);
    charts(&[chart_head(READINGS as u32 + 1, least, many)]);
    charts(&[good.clone(), chart_head(8, few, 0)]);
    charts(&[good.clone(), chart_head(8, least, many)]);
    charts(&[good.clone(), chart(9, &flat(), &[]), good.clone()]);
    // The counts before missing values, missing values before bad ones.
    let mut cut_short = |head: Vec<u32>, value: u32| charts(&[[head, vec![value]].concat()]);
    cut_short(chart_head(8, few, most), 1_000);
    cut_short(chart_head(8, least, many), 1_000);
    cut_short(chart_head(8, MOST_SETUP, most), MOST_VALUE + 1);
    // A bad value before the next chart's element.
    charts(&[bad_value.clone(), chart_head(0, 0, 0)]);
    charts(&[bad_value, chart_head(8, 0, 0)[..=CHART_ELEMENT].to_vec()]);
    // A repeated element whose first chart has a bad value.
    charts(&[chart(8, &flat(), &[MOST_VALUE + 1]), good]);
    // The words of a chart's head must be whole before the element's test.
    let bad_head = chart_head(0, few, many);
    let mut begun = |count: u32, head: &[u32]| add(cases, 1, &charts_counted(count, head));
    begun(1, &bad_head[..CHART_HEAD - 2]);
    begun(1, &bad_head[..CHART_HEAD - 1]);
    begun(1, &bad_head);
    begun(1, &chart_head(5, few, many));
    // A section's count before everything in it.
    begun(MOST_CHARTS + 1, &bad_head);
    begun(MOST_CHARTS + 1, &[]);
}

/// A chart whose setup values are all out of their range.
pub fn bad_value(element: u32) -> Vec<u32> {
    chart(element, &[MOST_VALUE + 1; LEAST_SETUP], &[])
}

/// Faults of two parts at once: the front one is answered.
fn competing_across_parts(cases: &mut Cases) {
    let good = chart(8, &flat(), &[1_000]);
    let bad_value = bad_value(8);
    let [bad_number, bad_kind, .., bad_reading] = faulty_bottles();
    let mut add = |batch: &[u32]| add(cases, answer_words(2), batch);
    add(&batch(from_ref(&bad_value), from_ref(&bad_number)));
    add(&batch(from_ref(&good), from_ref(&bad_number)));
    let too_many = MOST_SAMPLES + 1;
    add(&charts_counted(1, &[bad_value, vec![too_many]].concat()));
    add(&charts_counted(1, &[good, vec![too_many, 0]].concat()));
    add(&batch(&[], &[bad_reading.clone(), bad_kind.clone()]));
    add(&batch(&[], &[bad_kind, bad_reading.clone()]));
    // A bad record, and the next one missing or cut.
    add(&samples_counted(2, bad_number.words()));
    let cut = &bad_reading.words()[..RECORD_WORDS - 1];
    add(&samples_counted(2, &[bad_reading.words(), cut].concat()));
    // A bad number in a record that isn't whole.
    add(&samples_counted(1, &bad_number.words()[..RECORD_WORDS - 1]));
}

/// Leftovers and a short output, with each other and with other faults.
fn competing_at_the_end(cases: &mut Cases) {
    let good = chart(8, &flat(), &[1_000]);
    let [bad_number, bad_kind, ..] = faulty_bottles();
    for bottle in [Bottle::printed(), bad_kind] {
        let leftover = [batch(&[], &[bottle]), vec![9]].concat();
        let exact = answer_words(1);
        for room in [0, exact - 1, exact, answer_words(2)] {
            add(cases, room, &leftover);
        }
    }
    let mut without_room = |batch: &[u32]| add(cases, 0, batch);
    without_room(&charts_counted(MOST_CHARTS + 1, &[]));
    without_room(&samples_counted(MOST_SAMPLES + 1, &[]));
    without_room(&charts_counted(0, &[]));
    let bad_head = chart_head(0, LEAST_SETUP - 1, MOST_LATER + 1);
    without_room(&batch(&[bad_head], &[]));
    without_room(&batch(&[good], &[bad_number]));
}

/// The last word of a row: signals, and elements missing in the sample.
fn flags(cases: &mut Cases) {
    let printed = Bottle::printed();
    let calm = |element| chart(element, &flat(), &[1_001, 1_000]);
    let loud = |element| chart(element, &flat(), &[1_000, 1_001]);
    let without_later = |element| chart(element, &flat(), &[]);
    // In the printed sample the tenth reading is missing.
    for element in [1, 2, 8, 9, 10] {
        for make in [&calm as &dyn Fn(u32) -> Vec<u32>, &loud, &without_later] {
            let samples = [printed.clone(), printed.missing(reading_of(element))];
            let words = batch(&[make(element)], &samples);
            add(cases, answer_words(samples.len()), &words);
        }
    }
    // Elements 1 and 5.
    let samples = [
        printed.clone(),
        printed.missing(AMMONIUM),
        printed.missing(POTASSIUM),
        printed.missing(AMMONIUM).missing(POTASSIUM),
        printed.below(POTASSIUM, LEAST_LIMIT_BITS),
    ];
    for (first, second) in [
        (loud(1), loud(5)),
        (loud(5), loud(1)),
        (calm(1), loud(5)),
        (loud(1), calm(5)),
        (calm(1), calm(5)),
        (loud(10), calm(5)),
        (without_later(1), loud(5)),
        (without_later(1), without_later(5)),
    ] {
        let words = batch(&[first, second], &samples);
        add(cases, answer_words(samples.len()), &words);
    }
}

/// The printed sample once for each of these numbers.
pub fn printed_with(numbers: impl IntoIterator<Item = u64>) -> Vec<Bottle> {
    let bottle = |number| Bottle::printed().number(number);
    numbers.into_iter().map(bottle).collect()
}

/// Bottles for batches of one sample: numbers of every count of digits, with
/// short low words and at the edges, also beyond them, and words in both orders.
pub fn single_numbers() -> Vec<Bottle> {
    let mut bottles = printed_with(mixed());
    bottles.extend(printed_with([0, MOST_NUMBER + 1, MOST_NUMBER + 2]));
    for parts in ORDERED {
        bottles.extend([parts, swapped(parts)].map(|parts| Bottle::printed().parts(parts)));
    }
    bottles
}

/// One number in a batch, many in one, and numbers that are none after one that
/// is good, with no room for an answer.
fn numbers(cases: &mut Cases) {
    for bottle in single_numbers() {
        add(cases, answer_words(1), &batch(&[], &[bottle]));
    }
    for samples in [printed_with(mixed()), printed_with(ends_of_every_count())] {
        add(cases, answer_words(samples.len()), &batch(&[], &samples));
    }
    let good = Bottle::printed().number(MOST_NUMBER);
    for parts in REFUSED {
        add(cases, 0, &batch(&[], &[good.clone(), good.parts(parts)]));
    }
}

fn rooms(cases: &mut Cases) {
    for samples in [0, 1, 2, 5] {
        let batch = batch(&[], &vec![Bottle::printed(); samples]);
        let exact = answer_words(samples);
        for room in [0, 1, exact - 1, exact, exact + 1, REPLAY_ROOM as usize] {
            add(cases, room, &batch);
        }
    }
    // As many samples as a case has words for.
    let many = printed_with((1..).take(REPLAY_SAMPLES));
    add(cases, REPLAY_ROOM as usize, &batch(&[], &many));
    add(cases, answer_words(REPLAY_SAMPLES) - 1, &batch(&[], &many));
}

fn scattered_chart(generator: &mut Generator, element: u32) -> Vec<u32> {
    let n = generator.pick(&[LEAST_SETUP, 12, 20]);
    let setup: Vec<u32> = (0..n).map(|_| 2_000 + generator.below(200)).collect();
    let length = generator.pick(&[0, 1, 5, 9]);
    let later: Vec<u32> = (0..length).map(|_| 1_950 + generator.below(300)).collect();
    chart(element, &setup, &later)
}

fn scattered(cases: &mut Cases) {
    let mut generator = Generator::new(801);
    for _ in 0..60 {
        let first = generator.between(1, READINGS as u32);
        let count = generator.below(4);
        let charts: Vec<Vec<u32>> = (0..count)
            .map(|index| scattered_chart(&mut generator, (first + 3 * index) % READINGS as u32 + 1))
            .collect();
        let samples: Vec<Bottle> = (0..generator.below(12))
            .map(|_| plausible(&mut generator))
            .collect();
        let mut words = batch(&charts, &samples);
        if generator.once_in(3) {
            let place = generator.below(words.len() as u32) as usize;
            words[place] ^= 1 << generator.below(32);
        }
        add(cases, answer_words(samples.len()), &words);
    }
}
