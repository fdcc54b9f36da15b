//! Batches that something happened to.

use super::layout::Layout;
use crate::numbers::{
    CHART_ELEMENT, LEAST_SETUP, MOST_CHARTS, MOST_ELEMENT, MOST_SAMPLES, MOST_SETUP, MOST_VALUE,
    RECORD_WORDS,
};
use crate::random::Draw;
use crate::sample_numbers::damage_number;
use reference::cases::generator::Generator;

/// The greatest counts of charts and of a chart's values.
const CHARTS: u32 = MOST_CHARTS as u32;
const VALUES: u32 = MOST_SETUP as u32;

/// Ends of the counts' ranges, and beyond them.
const COUNTS: [u32; 8] = [
    LEAST_SETUP as u32 - 1,
    CHARTS,
    CHARTS + 1,
    VALUES,
    VALUES + 1,
    MOST_SAMPLES,
    MOST_SAMPLES + 1,
    u32::MAX,
];

/// Ends of the ranges of any word of a batch, and beyond them.
const WORDS: [u32; 11] = [
    0,
    1,
    CHARTS,
    CHARTS + 1,
    VALUES,
    VALUES + 1,
    MOST_SAMPLES,
    MOST_SAMPLES + 1,
    MOST_VALUE,
    MOST_VALUE + 1,
    u32::MAX,
];

/// One damage anywhere in a batch's words.
pub fn damage(generator: &mut Generator, words: &mut Vec<u32>) {
    match generator.below(9) {
        0 => generator.flip_bit(words),
        1 => words.truncate(generator.place(words.len() + 1)),
        2 => words.truncate(words.len().saturating_sub(generator.place(4))),
        3 => extend(generator, words),
        4 => any_word(generator, words),
        5 => repeat_an_element(generator, words),
        6 => renumber_a_sample(generator, words),
        _ => change_a_count(generator, words),
    }
}

fn extend(generator: &mut Generator, words: &mut Vec<u32>) {
    let length = generator.pick(&[1, 1, 2, RECORD_WORDS, RECORD_WORDS + 1]);
    let word = generator.pick(&[0, 1, 7]);
    words.extend(vec![word; length]);
}

fn any_word(generator: &mut Generator, words: &mut [u32]) {
    if !words.is_empty() {
        words[generator.place(words.len())] = generator.pick(&WORDS);
    }
}

/// An element out of its range, or another chart's.
fn repeat_an_element(generator: &mut Generator, words: &mut [u32]) {
    let charts = Layout::of(words).charts;
    if charts.is_empty() {
        return;
    }
    let mut element = || charts[generator.place(charts.len())].start + CHART_ELEMENT;
    let (from, to) = (element(), element());
    words[to] = match generator.below(4) {
        0 => 0,
        1 => MOST_ELEMENT + 1,
        _ => words[from],
    };
}

fn renumber_a_sample(generator: &mut Generator, words: &mut [u32]) {
    let samples = Layout::of(words).samples;
    if !samples.is_empty() {
        let sample = samples[generator.place(samples.len())].clone();
        damage_number(generator, &mut words[sample]);
    }
}

/// A count that is one off or at an end of its range: of a section, of setup
/// values or of later ones.
fn change_a_count(generator: &mut Generator, words: &mut [u32]) {
    let counts = Layout::of(words).counts;
    if counts.is_empty() {
        return;
    }
    let place = counts[generator.place(counts.len())];
    words[place] = match generator.below(4) {
        0 => words[place].wrapping_add(1),
        1 => words[place].wrapping_sub(1),
        2 => generator.pick(&COUNTS),
        _ => generator.of_any_size(500),
    };
}
