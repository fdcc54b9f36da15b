//! The input of the listing program: a batch at its greatest, with as many
//! charts, values and samples as there may be, and with the longest text.

use super::batches::{batch, chart};
use super::bottle::{plausible, Bottle};
use super::generator::Generator;
use super::ranges::with_below;
use super::undecided::{undecided_balance, undecided_conductivity};
use crate::batch::Chart;
use crate::numbers::{
    reading_of, MOST_CHARTS, MOST_LATER, MOST_NUMBER, MOST_SAMPLES, MOST_SETUP, MOST_VALUE,
    NUMBER_DIGITS, READINGS, SOIL_WATER,
};
use crate::words::to_bytes;

/// The charts' elements, in mixed order.
const ELEMENTS: [u32; MOST_CHARTS as usize] = [4, 10, 1, 8, 3, 6, 9, 2, 7, 5];
/// The elements whose charts end with a signal.
const SIGNALLED: [u32; 3] = [8, 3, 10];
/// The element whose chart has no signal anywhere.
const CALM: u32 = 6;

pub fn peltquarry_input() -> Vec<u8> {
    let (charts, samples) = charts_and_samples();
    let charts: Vec<Vec<u32>> = charts
        .iter()
        .map(|whole| chart(whole.element, &whole.setup, &whole.later))
        .collect();
    to_bytes(&batch(&charts, &samples))
}

/// What the batch has.
pub fn charts_and_samples() -> (Vec<Chart>, Vec<Bottle>) {
    let mut generator = Generator::new(1_001);
    let charts: Vec<Chart> = ELEMENTS
        .into_iter()
        .map(|element| greatest_chart(&mut generator, element))
        .collect();
    let mut samples: Vec<Bottle> = (0..MOST_SAMPLES)
        .map(|index| sample(&mut generator, index))
        .collect();
    // Without below readings verdict 3 on the ion balance is so rare that it has
    // to be put in; on conductivity it is put in as well, once at whole pH.
    for (place, undecided) in [
        (123, undecided_balance()),
        (222, undecided_conductivity(600)),
        (321, undecided_conductivity(501)),
    ] {
        if let Some(bottle) = undecided {
            samples[place] = bottle.number(number_of(place as u32));
        }
    }
    (charts, samples)
}

fn greatest_chart(generator: &mut Generator, element: u32) -> Chart {
    let mut values = |count: usize, least: u32, spread: u32| -> Vec<u32> {
        (0..count)
            .map(|_| least + generator.below(spread))
            .collect()
    };
    let setup = values(MOST_SETUP, 9_000, 2_001);
    let mut later = values(MOST_LATER, 8_500, 3_001);
    if element == CALM {
        // Now a little above the mean, now a little below.
        later = (0..MOST_LATER as u32)
            .map(|index| 9_800 + 400 * (index % 2))
            .collect();
    } else if SIGNALLED.contains(&element) {
        later[MOST_LATER - 1] = [13_000, 0, MOST_VALUE][element as usize % 3];
    } else {
        // A signal earlier on, and a quiet end: the last seven go up and down.
        later[40] = 15_000;
        let quiet = [9_900, 10_100, 9_850, 10_200, 9_950, 10_050, 9_980];
        later[MOST_LATER - quiet.len()..].copy_from_slice(&quiet);
    }
    Chart {
        element,
        setup,
        later,
    }
}

/// Numbers in the order of the samples, all of them as long as there may be and
/// with a high word of their own; the last is the greatest.
fn number_of(index: u32) -> u64 {
    const LEAST: u64 = 10u64.pow(NUMBER_DIGITS as u32 - 1);
    const STEP: u64 = (MOST_NUMBER - LEAST) / (MOST_SAMPLES as u64 - 1);
    MOST_NUMBER - STEP * u64::from(MOST_SAMPLES - 1 - index)
}

/// Plausible samples of every kind; some lack all the elements whose charts
/// end with a signal, some all but one of these, some have one to ten readings
/// below their limits.
fn sample(generator: &mut Generator, index: u32) -> Bottle {
    let mut bottle = plausible(generator)
        .number(number_of(index))
        .kind(index % SOIL_WATER + 1);
    let spared = match index % 8 {
        0 => None,
        1 => Some(SIGNALLED[index as usize / 8 % 3]),
        2 | 3 => {
            let count = 1 + index as usize / 8 % READINGS;
            return with_below(&mut Generator::new(u64::from(index)), &bottle, count);
        }
        _ => return bottle,
    };
    for element in SIGNALLED {
        if spared != Some(element) {
            bottle = bottle.missing(reading_of(element));
        }
    }
    bottle
}

#[cfg(test)]
mod tests {
    use super::*;
    use crate::listing;
    use crate::numbers::{CHECKS, MOST_BYTES, MOST_TEXT};
    use crate::sample_number::parts_of;

    #[test]
    fn the_batch_is_at_its_greatest() {
        assert_eq!(peltquarry_input().len(), MOST_BYTES);
        assert_eq!(listing::text(&peltquarry_input()).len(), MOST_TEXT);
    }

    #[test]
    fn every_sample_has_a_high_word_of_its_own() {
        let highs: Vec<u32> = (0..MOST_SAMPLES)
            .map(|index| parts_of(number_of(index)).0)
            .collect();
        assert!(highs.windows(2).all(|pair| pair[0] < pair[1]));
        assert_eq!(number_of(MOST_SAMPLES - 1), MOST_NUMBER);
    }

    #[test]
    fn verdicts_and_flags_are_mixed() {
        let text = listing::text(&peltquarry_input());
        let rows: Vec<Vec<&str>> = text.lines().map(|line| line.split(' ').collect()).collect();
        let (count, rows) = rows.split_first().expect("a line");
        assert_eq!(count, &[MOST_SAMPLES.to_string()]);
        assert_eq!(rows.len(), MOST_SAMPLES as usize);
        // The number, then the verdicts and the flag.
        let values: [&str; CHECKS + 1] = ["01234", "1234", "01234", "01234", "01"];
        for (field, values) in (1..).zip(values) {
            for value in values.chars() {
                let value = value.to_string();
                let times = rows.iter().filter(|row| row[field] == value).count();
                assert!(times >= 4, "field {field} is {value} {times} times");
            }
        }
    }
}
