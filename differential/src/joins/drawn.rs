//! The batches of one day: which elements they have charts of, what samples,
//! and what happened to their words.

use super::charts::of_one_element;
use crate::batches::{damage, elements};
use crate::bottles::any_bottle;
use crate::charts::Chart;
use crate::numbers::MOST_CHARTS;
use crate::random::Draw;
use crate::sample_numbers::any_number;
use reference::cases::batches::{batch, chart};
use reference::cases::bottle::Bottle;
use reference::cases::generator::Generator;

/// Which of a day's batches have a chart of an element.
#[derive(Clone, Copy)]
enum Spread {
    All,
    One,
    Any,
}

/// So many batches, now and then the same one again and again.
pub fn day(generator: &mut Generator, batches: usize) -> Vec<Vec<u32>> {
    let different = if generator.once_in(16) { 1 } else { batches };
    let charts = charts(generator, different);
    let samples = samples(generator, different);
    let words = charts.iter().zip(&samples);
    let words: Vec<Vec<u32>> = words
        .map(|(charts, samples)| batch(charts, samples))
        .collect();
    words.into_iter().cycle().take(batches).collect()
}

/// Damages the first batch, the last one or both; most days none.
pub fn damage_some(generator: &mut Generator, day: &mut [Vec<u32>]) {
    let last = day.len() - 1;
    let damaged: &[usize] = match generator.below(8) {
        0 => &[0],
        1 => &[last],
        2 => &[0, last],
        _ => &[],
    };
    for &place in damaged {
        damage(generator, &mut day[place]);
    }
}

/// The charts of each batch, in any order.
fn charts(generator: &mut Generator, batches: usize) -> Vec<Vec<Vec<u32>>> {
    let mut charts = vec![Vec::new(); batches];
    let spread = generator.pick(&[Spread::All, Spread::One, Spread::Any, Spread::Any]);
    let count = generator.pick(&[0, 1, 1, 1, 2, 2, 3, 4, MOST_CHARTS]);
    for &element in &elements(generator)[..count] {
        let holders = holders(generator, spread, batches);
        let of_element = of_one_element(generator, holders.len());
        for (holder, Chart { setup, later }) in holders.into_iter().zip(of_element) {
            charts[holder].push(chart(element, &setup, &later));
        }
    }
    for charts in &mut charts {
        if generator.once_in(2) {
            generator.shuffle(charts);
        }
    }
    charts
}

/// The batches that have a chart of an element, at least one.
fn holders(generator: &mut Generator, spread: Spread, batches: usize) -> Vec<usize> {
    let one = generator.place(batches);
    let has = |place: usize, generator: &mut Generator| match spread {
        Spread::All => true,
        Spread::One => place == one,
        Spread::Any => place == one || generator.once_in(2),
    };
    (0..batches)
        .filter(|&place| has(place, generator))
        .collect()
}

/// The samples of each batch. Their numbers may fall from the first sample of
/// the day to its last, and may be the same in many of them.
fn samples(generator: &mut Generator, batches: usize) -> Vec<Vec<Bottle>> {
    let counts: Vec<usize> = (0..batches)
        .map(|_| generator.pick(&[0, 0, 1, 1, 2, 3, 5]))
        .collect();
    let all: usize = counts.iter().sum();
    let mut numbers: Vec<u64> = (0..all).map(|_| any_number(generator)).collect();
    match generator.below(4) {
        0 => numbers.sort_by(|one, other| other.cmp(one)),
        1 => numbers = few_of(generator, &numbers),
        _ => {}
    }
    let mut numbers = numbers.into_iter();
    let samples_of = |count| {
        let numbers = numbers.by_ref().take(count);
        let samples = numbers.map(|number| any_bottle(generator).number(number));
        samples.collect()
    };
    counts.into_iter().map(samples_of).collect()
}

/// As many numbers, each one of the first two.
fn few_of(generator: &mut Generator, numbers: &[u64]) -> Vec<u64> {
    let few = &numbers[..numbers.len().min(2)];
    numbers.iter().map(|_| generator.pick(few)).collect()
}

#[cfg(test)]
mod tests;
