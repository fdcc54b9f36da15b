//! "Samples of the first come first too."

use super::Runs;
use crate::cases::batches::{batch, chart, flat, printed_with};
use crate::cases::bottle::{plausible, Bottle};
use crate::cases::generator::Generator;
use crate::cases::Cases;
use crate::numbers::{MOST_NUMBER, WORD_VALUES};

pub fn all(cases: &mut Cases) {
    numbers(cases);
    counts(cases);
    same_bottles(cases);
}

/// Numbers that rise, fall, are equal in both batches and within one: none is
/// sorted and none left out.
fn numbers(cases: &mut Cases) {
    let lists: [&[u64]; 9] = [
        &[],
        &[1],
        &[7],
        &[1, 2, 3],
        &[3, 2, 1],
        &[7, 7],
        &[2, 7, 2],
        &[MOST_NUMBER, WORD_VALUES, WORD_VALUES - 1],
        &[WORD_VALUES + 7, 7],
    ];
    for first in lists {
        for second in lists {
            let with = |numbers: &[u64]| batch(&[], &printed_with(numbers.to_vec()));
            Runs::new(&with(first), &with(second)).add(cases);
        }
    }
}

/// Bottles of all kinds, up to as many as the lent words have room for.
fn counts(cases: &mut Cases) {
    let mut generator = Generator::new(1_201);
    for (before, after) in [
        (0, 1),
        (1, 0),
        (1, 1),
        (2, 3),
        (3, 2),
        (6, 6),
        (0, 12),
        (12, 0),
        (1, 11),
        (11, 1),
    ] {
        let mut drawn =
            |count: u32| -> Vec<Bottle> { (0..count).map(|_| plausible(&mut generator)).collect() };
        let (first, second) = (drawn(before), drawn(after));
        Runs::new(&batch(&[], &first), &batch(&[], &second)).add(cases);
        if before + after < 12 {
            let charts = [chart(4, &flat(), &[1_000])];
            Runs::new(&batch(&charts, &first), &batch(&charts, &second)).add(cases);
            Runs::new(&batch(&[], &first), &batch(&charts, &second)).add(cases);
        }
    }
}

/// The very same samples in both batches, and samples that differ in one word.
fn same_bottles(cases: &mut Cases) {
    let printed = Bottle::printed();
    let other = printed.conductivity(151);
    for first in [&printed, &other] {
        for second in [&printed, &other] {
            let both = [first.clone(), second.clone()];
            Runs::new(&batch(&[], &both), &batch(&[], &both)).add(cases);
        }
    }
}
