//! Charts drawn so that each rule holds often and fails narrowly.

use crate::numbers::{LEAST_SETUP, MOST_LATER, MOST_SETUP, MOST_VALUE};
use crate::random::Draw;
use reference::cases::generator::Generator;

pub struct Chart {
    pub setup: Vec<u32>,
    pub later: Vec<u32>,
}

/// Setup values with what their later values are drawn by: a mean (or a whole
/// number near it) and a deviation (or something near it).
struct Setup {
    values: Vec<u32>,
    mean: u32,
    deviation: u32,
}

impl Chart {
    pub fn drawn(generator: &mut Generator) -> Chart {
        let setup = match generator.below(9) {
            0 => flat_setup(generator),
            1 | 2 => scattered_setup(generator),
            3 => setup_of_halves(generator),
            4 => setup_at_the_ends(generator),
            _ => exact_setup(generator),
        };
        let length = match generator.below(10) {
            0 => generator.pick(&[0, 1, MOST_LATER as u32]),
            _ => generator.between(2, 20),
        };
        let mut later = match generator.below(4) {
            0 => on_one_side(generator, &setup, length),
            1 => in_one_direction(generator, &setup, length),
            _ => about_the_limits(generator, &setup, length),
        };
        for value in &mut later {
            *value = (*value).min(MOST_VALUE);
        }
        Chart {
            setup: setup.values,
            later,
        }
    }

    /// Values beyond their range, or counts beyond theirs.
    pub fn damage(&mut self, generator: &mut Generator) {
        let Chart { setup, later } = self;
        match generator.below(6) {
            0 => setup.truncate(generator.place(LEAST_SETUP + 1)),
            1 => {
                let lengths = [MOST_SETUP, MOST_SETUP + 1, MOST_SETUP + 2, 130];
                setup.resize(generator.pick(&lengths), 1_000);
            }
            2 => {
                let lengths = [MOST_LATER - 1, MOST_LATER, MOST_LATER + 1, 130];
                later.resize(generator.pick(&lengths), 1_000);
            }
            3 => generator.flip_bit(setup),
            4 => generator.flip_bit(later),
            _ => {
                let values = if generator.once_in(2) { setup } else { later };
                let ends = [0, MOST_VALUE - 1, MOST_VALUE, MOST_VALUE + 1, u32::MAX];
                let value = generator.pick(&ends);
                if !values.is_empty() {
                    let place = generator.place(values.len());
                    values[place] = value;
                }
            }
        }
    }
}

/// How many setup values there are, any number in its range.
fn setup_count(generator: &mut Generator) -> u32 {
    generator.between(LEAST_SETUP as u32, MOST_SETUP as u32)
}

/// No variance: every value off the mean is beyond.
fn flat_setup(generator: &mut Generator) -> Setup {
    let mean = generator.of_any_size(MOST_VALUE);
    Setup {
        values: vec![mean; setup_count(generator) as usize],
        mean,
        deviation: generator.below(2),
    }
}

fn scattered_setup(generator: &mut Generator) -> Setup {
    let least = generator.of_any_size(MOST_VALUE - 1);
    let most = (least + generator.of_any_size(MOST_VALUE)).min(MOST_VALUE);
    let n = setup_count(generator);
    let values: Vec<u32> = (0..n).map(|_| generator.between(least, most)).collect();
    Setup {
        mean: values.iter().sum::<u32>() / n,
        deviation: (most - least) / 3,
        values,
    }
}

/// All values at one end of their range, or some at either: with later values
/// at the other end the rule's products are the greatest.
fn setup_at_the_ends(generator: &mut Generator) -> Setup {
    let (least, most) = generator.pick(&[(0, 0), (MOST_VALUE, MOST_VALUE), (0, MOST_VALUE)]);
    let n = setup_count(generator);
    Setup {
        values: (0..n).map(|_| generator.pick(&[least, most])).collect(),
        mean: (least + most) / 2,
        deviation: MOST_VALUE / 2,
    }
}

/// A mean that isn't whole: its two neighbours are above and below it.
fn setup_of_halves(generator: &mut Generator) -> Setup {
    let mean = 10 + generator.of_any_size(MOST_VALUE - 20);
    let pairs = generator.between(LEAST_SETUP as u32 / 2, MOST_SETUP as u32 / 2) as usize;
    Setup {
        values: [mean, mean + 1].repeat(pairs),
        mean,
        deviation: 1,
    }
}

/// A setup whose mean and deviation are whole: pairs at mean ± a. With all
/// squares of a summing up to 2 × (n − 1) × e², the deviation is 2 × e exactly.
fn exact_setup(generator: &mut Generator) -> Setup {
    let n = setup_count(generator);
    let e = 1 + generator.of_any_size(20_000);
    // No a is above 11, and later values reach out by 8 × e and one.
    let mean = generator.between(12 * e, MOST_VALUE - 12 * e);
    let mut values = Vec::new();
    let mut squares = 2 * (n - 1);
    while squares > 0 {
        let a = squares.isqrt();
        squares -= a * a;
        values.extend([mean - a * e, mean + a * e]);
    }
    values.resize(n as usize, mean);
    generator.shuffle(&mut values);
    Setup {
        values,
        mean,
        deviation: 2 * e,
    }
}

/// Values on the mean, on two and three deviations, and one beside, on either
/// side.
fn about_the_limits(generator: &mut Generator, setup: &Setup, length: u32) -> Vec<u32> {
    let mut value = || {
        let deviations = generator.pick(&[0, 1, 2, 2, 2, 3, 3, 4]) * setup.deviation;
        let distance = (deviations + generator.below(3)).saturating_sub(1);
        if generator.once_in(3) {
            setup.mean.saturating_sub(distance)
        } else {
            setup.mean + distance
        }
    };
    (0..length).map(|_| value()).collect()
}

/// A run on one side of the mean, in most lists broken once: on the mean or on
/// the other side.
fn on_one_side(generator: &mut Generator, setup: &Setup, length: u32) -> Vec<u32> {
    let above = generator.once_in(2);
    let spread = setup.deviation + 2;
    let mut values: Vec<u32> = (0..length)
        .map(|_| {
            let distance = 1 + generator.below(spread);
            if above {
                setup.mean + distance
            } else {
                setup.mean.saturating_sub(distance)
            }
        })
        .collect();
    break_once(generator, &mut values, setup);
    values
}

/// Rising or falling values through the mean or off it, in most lists broken
/// once: by a tie, a step back, a value on the mean or a leap.
fn in_one_direction(generator: &mut Generator, setup: &Setup, length: u32) -> Vec<u32> {
    let start = match generator.below(2) {
        0 => setup.mean.saturating_sub(generator.below(8)),
        _ => setup.mean + generator.below(3),
    };
    let step = generator.between(1, setup.deviation / 3 + 2);
    let mut values: Vec<u32> = (0..length).map(|place| start + step * place).collect();
    if generator.once_in(2) {
        values.reverse();
    }
    break_once(generator, &mut values, setup);
    values
}

fn break_once(generator: &mut Generator, values: &mut [u32], setup: &Setup) {
    if values.len() < 2 || generator.once_in(3) {
        return;
    }
    let place = 1 + generator.place(values.len() - 1);
    let leap = 3 * setup.deviation + generator.below(2);
    values[place] = match generator.below(6) {
        0 => setup.mean,
        1 => values[place - 1],
        2 => values[place - 1].saturating_sub(1),
        3 => setup.mean + leap,
        4 => setup.mean.saturating_sub(leap),
        // The same on the other side.
        _ => (2 * setup.mean).saturating_sub(values[place]),
    };
}

#[cfg(test)]
mod tests {
    use super::*;
    use crate::answers::signals;

    #[test]
    fn exact_deviations_are_exact() {
        let mut generator = Generator::new(8);
        for _ in 0..500 {
            let setup = exact_setup(&mut generator);
            let three_deviations = setup.mean + 3 * setup.deviation;
            let answer = signals(&setup.values, &[three_deviations, three_deviations + 1]);
            assert!(matches!(answer.as_deref(), Ok([0, 1 | 3])), "{answer:?}");
        }
    }

    /// Setups at one end of the range with a later value at the other, and
    /// damaged charts that reach up to the greatest value or to one beyond it.
    #[test]
    fn the_ends_of_the_range_are_common() {
        let mut generator = Generator::new(10);
        let mut across = [0; 2];
        let mut greatest = [0; 2];
        for _ in 0..50_000 {
            let mut chart = Chart::drawn(&mut generator);
            for (times, (setup, later)) in across.iter_mut().zip([(0, MOST_VALUE), (MOST_VALUE, 0)])
            {
                let all = chart.setup.iter().all(|&value| value == setup);
                *times += u32::from(all && chart.later.contains(&later));
            }
            chart.damage(&mut generator);
            let values = [chart.setup, chart.later].concat();
            let most = values.into_iter().max().unwrap_or(0);
            for (times, value) in greatest.iter_mut().zip(MOST_VALUE..) {
                *times += u32::from(most == value);
            }
        }
        assert!(across.iter().all(|&times| times > 100), "{across:?}");
        assert!(greatest.iter().all(|&times| times > 100), "{greatest:?}");
    }

    #[test]
    fn every_signal_word_occurs() {
        let mut generator = Generator::new(9);
        let mut times = [0; 16];
        for _ in 0..50_000 {
            let chart = Chart::drawn(&mut generator);
            for signal in signals(&chart.setup, &chart.later).into_iter().flatten() {
                times[signal as usize] += 1;
            }
        }
        assert!(times.iter().all(|&times| times > 0), "{times:?}");
    }
}
