//! Pairs with about as many samples as a batch may have, and pairs whose joined
//! batch is as great as there may be.

use super::setups::{changed, Change};
use crate::batches::elements;
use crate::bottles::any_bottle;
use crate::numbers::{MOST_CHARTS, MOST_LATER, MOST_SAMPLES, MOST_SETUP};
use crate::random::Draw;
use reference::cases::batches::{batch, chart, flat};
use reference::cases::bottle::Bottle;
use reference::cases::generator::Generator;

const MOST: usize = MOST_SAMPLES as usize;

/// How many samples the first and the second batch have: one less than may be
/// together, as many, one more, and as many as may be in each.
const COUNTS: [(usize, usize); 13] = [
    (MOST / 2 - 1, MOST / 2),
    (MOST - 1, 0),
    (MOST / 2, MOST / 2),
    (MOST, 0),
    (0, MOST),
    (MOST - 1, 1),
    (1, MOST - 1),
    (MOST / 2, MOST / 2 + 1),
    (MOST / 2 + 1, MOST / 2),
    (MOST, 1),
    (1, MOST),
    (MOST - 1, 2),
    (MOST, MOST),
];

/// Each of these counts with a chart in both, whose setups are the same or not:
/// samples are tested after charts.
pub fn about_the_most_samples(generator: &mut Generator) -> Vec<[Vec<u32>; 2]> {
    let samples: Vec<Bottle> = (0..MOST).map(|_| any_bottle(generator)).collect();
    let other_setup = changed(&flat(), Change::OneValue, 0);
    let pair = |(first, second): (usize, usize), setup: &[u32]| {
        let of_first = [chart(2, &flat(), &[1_000])];
        let of_second = [chart(2, setup, &[1_001])];
        // The second has the last samples, so that at most some are in both.
        [
            batch(&of_first, &samples[..first]),
            batch(&of_second, &samples[MOST - second..]),
        ]
    };
    let pairs = COUNTS.map(|counts| [pair(counts, &flat()), pair(counts, &other_setup)]);
    pairs.concat()
}

/// As many charts and values as a joined batch may have, and so many samples,
/// parted anywhere between the two batches.
pub fn greatest(generator: &mut Generator, samples: usize) -> [Vec<u32>; 2] {
    let [mut of_first, mut of_second] = [Vec::new(), Vec::new()];
    for element in elements(generator).into_iter().take(MOST_CHARTS) {
        let setup = values(generator, MOST_SETUP, 300);
        let later = values(generator, MOST_LATER, 340);
        let (before, after) = later.split_at(generator.place(MOST_LATER + 1));
        of_first.push(chart(element, &setup, before));
        of_second.push(chart(element, &setup, after));
    }
    generator.shuffle(&mut of_second);
    let samples: Vec<Bottle> = (0..samples).map(|_| any_bottle(generator)).collect();
    let most = samples.len().min(MOST);
    let least = samples.len() - most;
    let (before, after) = samples.split_at(least + generator.place(most - least + 1));
    [batch(&of_first, before), batch(&of_second, after)]
}

fn values(generator: &mut Generator, count: usize, spread: u32) -> Vec<u32> {
    let value = |_| 3_000 + generator.below(spread);
    (0..count).map(value).collect()
}

#[cfg(test)]
mod tests {
    use super::*;
    use crate::answers::join;
    use crate::numbers::{JOINED_COUNT, MOST_BATCH, SETUP_DIFFERS};

    #[test]
    fn one_sample_more_than_may_be_is_refused_after_the_setups() {
        let pairs = about_the_most_samples(&mut Generator::new(33));
        let answers = pairs.iter().map(|[first, second]| join(first, second));
        let refusals: Vec<u32> = answers.map(|answer| answer.err().unwrap_or(0)).collect();
        let due = COUNTS.map(|(first, second)| match first + second {
            0..=400 => [0, SETUP_DIFFERS],
            _ => [JOINED_COUNT, SETUP_DIFFERS],
        });
        assert_eq!(refusals, due.concat());
    }

    #[test]
    fn counts_about_the_most_are_among_them() {
        let all = COUNTS.map(|(first, second)| first + second);
        for due in [399, 400, 401, 800] {
            assert!(all.contains(&due), "{due}");
        }
        for due in [(400, 0), (0, 400), (400, 1), (200, 200), (400, 400)] {
            assert!(COUNTS.contains(&due), "{due:?}");
        }
    }

    #[test]
    fn the_greatest_pair_makes_the_greatest_batch() {
        let mut generator = Generator::new(34);
        for (samples, due) in [(400, Ok(MOST_BATCH)), (401, Err(JOINED_COUNT))] {
            for _ in 0..5 {
                let [first, second] = greatest(&mut generator, samples);
                let joined = join(&first, &second).map(|joined| joined.len());
                assert_eq!(joined, due);
            }
        }
    }
}
