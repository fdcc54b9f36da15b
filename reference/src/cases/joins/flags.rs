//! "its chart flag is the one for the joined charts": pairs whose flags change,
//! joined by call 17, and both batches and the joined one judged by call 12.

use super::Runs;
use crate::cases::batches::{batch, chart, flat};
use crate::cases::bottle::Bottle;
use crate::cases::charts::{every_sum, WIDE};
use crate::cases::Cases;
use crate::join::answer;
use crate::numbers::{answer_words, reading_of};

/// The element whose chart changes.
const ELEMENT: u32 = 3;

pub fn all(cases: &mut Cases) {
    calm_and_loud(cases);
    across_the_change(cases);
    two_elements(cases);
}

/// The pair joined, and three batches judged.
fn add(cases: &mut Cases, runs: &Runs) {
    runs.add(cases);
    let joined = answer(&runs.first, &runs.second).unwrap_or_default();
    for batch in [&runs.first, &runs.second, &joined] {
        // No batch here has more samples than four.
        let room = answer_words(4) as u32;
        cases.add(12, &[&[room], &batch[..]].concat());
    }
}

/// A sample that has the element and one that lacks it.
fn samples(number: u64) -> [Bottle; 2] {
    let has = Bottle::printed().number(number);
    let lacks = has.number(number + 1).missing(reading_of(ELEMENT));
    [has, lacks]
}

/// The batches before and after the change with these charts.
fn runs(first: &[Vec<u32>], second: &[Vec<u32>]) -> Runs {
    Runs::new(&batch(first, &samples(11)), &batch(second, &samples(21)))
}

/// No chart, one without later values, one whose last value is calm, one whose
/// last value signals: before the change and after it.
fn calm_and_loud(cases: &mut Cases) {
    let with = |later: &[u32]| vec![chart(ELEMENT, &flat(), later)];
    let sides = [
        vec![],
        with(&[]),
        with(&[1_001, 1_000]),
        with(&[1_000, 1_001]),
    ];
    for first in &sides {
        for second in &sides {
            add(cases, &runs(first, second));
        }
    }
}

/// Seven later values with every signal word, parted at every place: rules look
/// back over the change.
fn across_the_change(cases: &mut Cases) {
    for (_, later) in every_sum() {
        for place in [0, 1, 3, 5, 6, 7] {
            let (before, after) = later.split_at(place);
            let with = |later: &[u32]| [chart(ELEMENT, &WIDE, later)];
            add(cases, &runs(&with(before), &with(after)));
        }
    }
}

/// One element begins to signal while another one ends.
fn two_elements(cases: &mut Cases) {
    let calm = |element| chart(element, &flat(), &[1_000]);
    let loud = |element| chart(element, &flat(), &[1_001]);
    for other in [1, 10] {
        for (first, second) in [
            ([calm(ELEMENT), loud(other)], [calm(other), loud(ELEMENT)]),
            ([loud(ELEMENT), calm(other)], [loud(other), calm(ELEMENT)]),
            ([loud(ELEMENT), loud(other)], [calm(other), calm(ELEMENT)]),
            ([calm(ELEMENT), calm(other)], [loud(other), loud(ELEMENT)]),
        ] {
            add(cases, &runs(&first, &second));
            add(cases, &runs(&first[..1], &second[..1]));
        }
    }
}
