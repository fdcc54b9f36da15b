//! Part 5: batches, each also as bytes through the listing.

mod case;
mod damage;
mod layout;
mod listing;
mod written;

pub use case::{describe_batch, fewer_charts, fewer_samples, replaced, smaller_batches, BatchCase};
pub use damage::damage;
pub use layout::{ChartParts, Layout};

use crate::bottles::any_bottle;
use crate::case::{Mismatch, Run};
use crate::charts::Chart;
use crate::numbers::{
    answer_words, MOST_CHARTS, MOST_ELEMENT, MOST_LATER, MOST_SAMPLES, MOST_SETUP, RECORD_WORDS,
};
use crate::random::Draw;
use crate::sample_numbers::{any_number, with_other_high};
use listing::ListCase;
use reference::cases::batches::{batch, chart};
use reference::cases::bottle::Bottle;
use reference::cases::generator::Generator;
use reference::cases::greatest_batch::peltquarry_input;
use reference::words::{to_bytes, whole_words};

const DRAWN: u32 = 150_000;
/// Batches at their greatest, half of them damaged.
const GREATEST: u32 = 100;

pub fn run(run: &mut Run) -> Result<(), Mismatch> {
    for words in written::all() {
        check_about(run, &words)?;
    }
    for bytes in written::about_the_most_bytes() {
        check_text_about(run, &bytes)?;
    }
    check_about(run, &whole_words(&peltquarry_input()))?;
    for _ in 0..GREATEST {
        let mut words = greatest(&mut run.generator);
        if run.generator.once_in(2) {
            damage(&mut run.generator, &mut words);
        }
        check(run, words)?;
    }
    for _ in 0..DRAWN {
        let mut words = drawn(&mut run.generator);
        for _ in 0..run.generator.pick(&[0, 0, 1, 1, 2]) {
            damage(&mut run.generator, &mut words);
        }
        check(run, words)?;
    }
    Ok(())
}

/// A batch into words and, as bytes, into text.
fn check(run: &mut Run, words: Vec<u32>) -> Result<(), Mismatch> {
    let bytes = listing::damaged_bytes(&mut run.generator, to_bytes(&words));
    let room = room_about(&mut run.generator, answer_length(&words));
    run.check(BatchCase { words, room })?;
    let room = room_about(&mut run.generator, listing::text_length(&bytes));
    run.check(ListCase::new(&bytes, room))
}

/// A batch and its text with the answer's own length lent, one less and one
/// more.
fn check_about(run: &mut Run, words: &[u32]) -> Result<(), Mismatch> {
    let exact = answer_length(words);
    for room in exact - 1..=exact + 1 {
        let words = words.to_vec();
        run.check(BatchCase { words, room })?;
    }
    check_text_about(run, &to_bytes(words))
}

fn check_text_about(run: &mut Run, bytes: &[u8]) -> Result<(), Mismatch> {
    let exact = listing::text_length(bytes);
    for room in exact - 1..=exact + 1 {
        run.check(ListCase::new(bytes, room))?;
    }
    Ok(())
}

/// How many words the answer to a batch has; for a refused one, how many it
/// might have had.
pub fn answer_length(words: &[u32]) -> usize {
    match crate::answers::batch(words) {
        Ok(answer) => answer.len(),
        Err(_) => answer_words(words.len() / RECORD_WORDS),
    }
}

/// A lent length: exact, a little shorter or longer, or none.
fn room_about(generator: &mut Generator, exact: usize) -> usize {
    match generator.below(8) {
        0 => 0,
        1 => generator.place(exact + 1),
        2..=4 => generator.about(exact, 3),
        5 => exact + generator.place(100),
        _ => exact,
    }
}

fn drawn(generator: &mut Generator) -> Vec<u32> {
    let charts = generator.pick(&[0, 0, 1, 1, 2, 3, MOST_CHARTS]);
    let samples = generator.pick(&[0, 1, 1, 2, 2, 3, 5, 12]);
    let charts: Vec<Vec<u32>> = elements(generator)[..charts]
        .iter()
        .map(|&element| chart_words(generator, element))
        .collect();
    let mut samples: Vec<Bottle> = (0..samples).map(|_| any_bottle(generator)).collect();
    if generator.once_in(4) {
        samples = alike_in_the_low_word(generator, &samples);
    }
    batch(&charts, &samples)
}

/// The samples under numbers that differ in their high words alone.
fn alike_in_the_low_word(generator: &mut Generator, samples: &[Bottle]) -> Vec<Bottle> {
    let mut number = any_number(generator);
    let renumbered = samples.iter().map(|sample| {
        number = with_other_high(generator, number);
        sample.number(number)
    });
    renumbered.collect()
}

fn chart_words(generator: &mut Generator, element: u32) -> Vec<u32> {
    let Chart { setup, later } = Chart::drawn(generator);
    chart(element, &setup, &later)
}

/// All elements in any order.
pub fn elements(generator: &mut Generator) -> Vec<u32> {
    let mut elements: Vec<u32> = (1..=MOST_ELEMENT).collect();
    generator.shuffle(&mut elements);
    elements
}

/// As many charts, values and samples as there may be.
fn greatest(generator: &mut Generator) -> Vec<u32> {
    let elements = elements(generator);
    let mut values = |count: usize, spread: u32| -> Vec<u32> {
        let value = |_| 3_000 + generator.below(spread);
        (0..count).map(value).collect()
    };
    let charts: Vec<Vec<u32>> = elements
        .into_iter()
        .take(MOST_CHARTS)
        .map(|element| chart(element, &values(MOST_SETUP, 300), &values(MOST_LATER, 340)))
        .collect();
    let samples: Vec<Bottle> = (0..MOST_SAMPLES).map(|_| any_bottle(generator)).collect();
    batch(&charts, &samples)
}

#[cfg(test)]
mod tests {
    use super::*;
    use crate::numbers::{COUNT_WORDS, ROW_FLAG, ROW_NUMBER_HIGH, ROW_NUMBER_LOW, ROW_WORDS};
    use std::collections::HashSet;

    #[test]
    fn every_refusal_of_a_batch_and_its_answer_are_common() {
        let mut generator = Generator::new(10);
        let mut times = [0; 11];
        for _ in 0..40_000 {
            let mut words = drawn(&mut generator);
            damage(&mut generator, &mut words);
            let refusal = crate::answers::batch(&words).err().unwrap_or(0);
            times[refusal as usize] += 1;
        }
        // A record in a batch is never of another length: that is 8.
        assert_eq!(times[1], 0);
        times[1] = u32::MAX;
        assert!(times.iter().all(|&times| times > 5), "{times:?}");
    }

    #[test]
    fn flags_are_raised_and_not() {
        let mut generator = Generator::new(11);
        let mut times = [0; 2];
        for answer in (0..1_000).filter_map(|_| crate::answers::batch(&drawn(&mut generator)).ok())
        {
            for row in answer[COUNT_WORDS..].chunks(ROW_WORDS) {
                times[row[ROW_FLAG] as usize] += 1;
            }
        }
        assert!(times.iter().all(|&times| times > 100), "{times:?}");
    }

    #[test]
    fn numbers_alike_in_the_low_word_are_common() {
        let mut generator = Generator::new(19);
        let mut alike = 0;
        for answer in (0..1_000).filter_map(|_| crate::answers::batch(&drawn(&mut generator)).ok())
        {
            let rows = || answer[COUNT_WORDS..].chunks(ROW_WORDS);
            let highs: HashSet<u32> = rows().map(|row| row[ROW_NUMBER_HIGH]).collect();
            let lows: HashSet<u32> = rows().map(|row| row[ROW_NUMBER_LOW]).collect();
            alike += u32::from(lows.len() == 1 && highs.len() > 1);
        }
        assert!(alike > 50, "{alike}");
    }

    /// Three words short to three over, for an answer of 1 + 7 × 2 words.
    #[test]
    fn every_length_about_an_answer_s_is_lent() {
        let mut generator = Generator::new(20);
        let exact = answer_words(2);
        assert_eq!(exact, 15);
        let rooms: HashSet<usize> = (0..1_000)
            .map(|_| room_about(&mut generator, exact))
            .collect();
        assert!((exact - 3..=exact + 3).all(|room| rooms.contains(&room)));
    }
}
