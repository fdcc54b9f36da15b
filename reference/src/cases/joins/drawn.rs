//! Pairs drawn at random, good and damaged.

use super::Runs;
use crate::cases::batches::{batch, chart};
use crate::cases::bottle::{plausible, Bottle};
use crate::cases::generator::Generator;
use crate::cases::Cases;
use crate::numbers::{ELEMENTS, LEAST_SETUP, MOST_LATER, REPLAY_ROOM};

/// How many pairs are drawn.
const PAIRS: u32 = 700;

pub fn all(cases: &mut Cases) {
    let mut generator = Generator::new(1_301);
    for _ in 0..PAIRS {
        let mut runs = drawn_runs(&mut generator);
        if generator.once_in(4) {
            damage(&mut generator, &mut runs);
        }
        let exact = runs.room();
        let room = match generator.below(8) {
            0 => generator.below(exact as u32 + 1) as usize,
            1 => exact + 1,
            _ => exact,
        };
        runs.add_with_room(cases, room.min(REPLAY_ROOM as usize));
    }
}

/// The setup that an element has on one day.
fn setup_of_the_day(day: u32, element: u32) -> Vec<u32> {
    let mut generator = Generator::new(u64::from(day) * 100 + u64::from(element));
    let count = LEAST_SETUP + generator.below(4) as usize;
    (0..count).map(|_| 2_000 + generator.below(200)).collect()
}

fn drawn_chart(generator: &mut Generator, day: u32, element: u32) -> Vec<u32> {
    let mut setup = setup_of_the_day(day, element);
    if generator.once_in(24) {
        spoil(generator, &mut setup);
    }
    let most = MOST_LATER as u32;
    let count = match generator.below(24) {
        0 => generator.between(most / 2 - 2, most / 2 + 2),
        1 => generator.between(most - 2, most),
        _ => generator.below(8),
    };
    let later: Vec<u32> = (0..count).map(|_| 1_950 + generator.below(300)).collect();
    chart(element, &setup, &later)
}

/// Changes a setup in one value, in order or in count.
fn spoil(generator: &mut Generator, setup: &mut Vec<u32>) {
    let place = generator.below(setup.len() as u32) as usize;
    match generator.below(4) {
        0 => setup[place] += 1,
        1 => setup.swap(0, place),
        2 => setup.truncate(LEAST_SETUP),
        _ => setup.push(2_000),
    }
}

/// Up to so many elements, each once, in any order.
fn drawn_elements(generator: &mut Generator, most: u32) -> Vec<u32> {
    let mut elements: Vec<u32> = ELEMENTS.collect();
    // Few elements to choose from make charts in both batches likely.
    elements.truncate(generator.pick(&[3, 4, 10]));
    let count = generator.below(most + 1) as usize;
    while elements.len() > count {
        elements.remove(generator.below(elements.len() as u32) as usize);
    }
    for place in 1..elements.len() {
        elements.swap(place, generator.below(place as u32 + 1) as usize);
    }
    elements
}

/// A batch of one day: charts of up to three elements, and up to two samples.
pub fn drawn_batch(generator: &mut Generator, day: u32) -> Vec<u32> {
    let charts: Vec<Vec<u32>> = drawn_elements(generator, 3)
        .into_iter()
        .map(|element| drawn_chart(generator, day, element))
        .collect();
    let count = generator.below(3);
    let samples: Vec<Bottle> = (0..count).map(|_| plausible(generator)).collect();
    batch(&charts, &samples)
}

/// Two batches of one day.
pub fn drawn_runs(generator: &mut Generator) -> Runs {
    let day = generator.below(50);
    Runs {
        first: drawn_batch(generator, day),
        second: drawn_batch(generator, day),
    }
}

/// Damages one of the batches, or both.
fn damage(generator: &mut Generator, runs: &mut Runs) {
    let which = generator.below(3);
    if which != 0 {
        damage_batch(generator, &mut runs.first);
    }
    if which != 1 {
        damage_batch(generator, &mut runs.second);
    }
}

/// Changes a bit of a word, cuts the batch, or puts words behind it.
pub fn damage_batch(generator: &mut Generator, words: &mut Vec<u32>) {
    let place = generator.below(words.len() as u32) as usize;
    match generator.below(8) {
        0 => words.truncate(place),
        1 => words.extend(vec![7; 1 + generator.below(3) as usize]),
        _ => words[place] ^= 1 << generator.below(32),
    }
}
