//! Call 13: the listing program's text.

use super::batches::{
    batch, chart, charts_counted, flat, printed_with, samples_counted, single_numbers, small,
};
use super::bottle::{plausible, Bottle};
use super::generator::Generator;
use super::sample_numbers::{ends_of_every_count, mixed};
use super::Cases;
use crate::listing::text;
use crate::numbers::{
    text_bytes, AMMONIUM, MOST_ALKALINITY, MOST_CHARTS, MOST_NUMBER, READINGS, REPLAY_SAMPLES,
    REPLAY_TEXT, WORD_BYTES,
};
use crate::words::to_bytes;

/// The listing of the first `length` bytes of these words.
fn add(cases: &mut Cases, room: u32, length: usize, words: &[u32]) {
    cases.add(13, &[&[room, length as u32], words].concat());
}

/// The listing of all of these words.
fn add_whole(cases: &mut Cases, room: u32, words: &[u32]) {
    add(cases, room, WORD_BYTES * words.len(), words);
}

/// How long the text of these words is.
fn text_length(words: &[u32]) -> u32 {
    text(&to_bytes(words)).len() as u32
}

pub fn all(cases: &mut Cases) {
    lengths(cases);
    printed(cases);
    numbers(cases);
    refused(cases);
    scattered(cases);
}

/// Lengths that are no multiple of 4, and ends that come early.
fn lengths(cases: &mut Cases) {
    for length in 0..=3 * WORD_BYTES {
        add(cases, 12, length, &samples_counted(0, &[0]));
        add(cases, 12, length, &charts_counted(MOST_CHARTS + 1, &[0, 0]));
    }
    let printed = batch(&[], &[Bottle::printed()]);
    let whole = WORD_BYTES * printed.len();
    for length in whole - 3..=whole {
        add(cases, 20, length, &printed);
    }
    add(cases, 20, whole, &[printed, vec![0, 0]].concat());
}

/// Lent texts of no bytes, one too short, exact and longer.
fn printed(cases: &mut Cases) {
    let printed = batch(&[], &[Bottle::printed()]);
    let exact = text_length(&printed);
    for room in [0, 1, 2, exact - 1, exact, exact + 1, 40, REPLAY_TEXT] {
        add_whole(cases, room, &printed);
    }
    for room in [0, 1, 2, 3] {
        add_whole(cases, room, &batch(&[], &[]));
    }
    let small = small();
    let exact = text_length(&small);
    for room in [20].into_iter().chain(exact - 1..=exact + 3).chain([40]) {
        add_whole(cases, room, &small);
    }
}

/// Numbers of 1 to 15 digits, one in a text and many; as many of 15 as a case
/// has words for, which is the longest text of one.
fn numbers(cases: &mut Cases) {
    for bottle in single_numbers() {
        add_whole(cases, text_bytes(1) as u32, &batch(&[], &[bottle]));
    }
    let greatest = printed_with((0..=MOST_NUMBER).rev().take(REPLAY_SAMPLES));
    for samples in [
        printed_with(mixed()),
        printed_with(ends_of_every_count()),
        greatest,
    ] {
        add_whole(cases, REPLAY_TEXT, &batch(&[], &samples));
    }
    let one = batch(&[], &printed_with([MOST_NUMBER]));
    let exact = text_length(&one);
    for room in [exact - 1, exact, exact + 1] {
        add_whole(cases, room, &one);
    }
}

/// `refused N` is an answer, too: for the numbers 2 to 10.
fn refused(cases: &mut Cases) {
    let printed = Bottle::printed();
    let batches = [
        batch(&[], &[printed.number(0)]),
        batch(&[], &[printed.kind(0)]),
        batch(&[], &[printed.ph(0)]),
        batch(&[], &[printed.conductivity(0)]),
        batch(&[], &[printed.alkalinity(MOST_ALKALINITY + 1)]),
        batch(&[], &[printed.reading(AMMONIUM, 3, 0)]),
        samples_counted(1, &[]),
        charts_counted(MOST_CHARTS + 1, &[]),
        batch(&[chart(READINGS as u32 + 1, &flat(), &[])], &[]),
    ];
    for words in batches {
        for room in [0, 9, 10, 11, 12, 30] {
            add_whole(cases, room, &words);
        }
    }
}

/// The most samples of a text drawn at random.
const MOST_SCATTERED: usize = 30;

fn scattered(cases: &mut Cases) {
    let mut generator = Generator::new(901);
    for _ in 0..20 {
        let samples: Vec<Bottle> = (0..generator.between(1, MOST_SCATTERED as u32))
            .map(|_| plausible(&mut generator))
            .collect();
        let loud = chart(generator.between(1, READINGS as u32), &flat(), &[1_001]);
        let words = batch(&[loud], &samples);
        add_whole(cases, text_bytes(MOST_SCATTERED) as u32, &words);
    }
}
