//! What the joined batch has, and in which order.

use super::super::*;
use crate::cases::batches::{batch, chart, flat, printed_with};
use crate::cases::bottle::Bottle;
use crate::cases::generator::Generator;
use crate::cases::joins::{drawn_batch, drawn_runs};
use crate::numbers::MOST_NUMBER;

/// A chart with the flat setup.
fn with_later(element: u32, later: &[u32]) -> Vec<u32> {
    chart(element, &flat(), later)
}

/// Batches of such charts alone, joined.
fn join_charts(first: &[Vec<u32>], second: &[Vec<u32>]) -> Result<Vec<u32>, Refusal> {
    answer(&batch(first, &[]), &batch(second, &[]))
}

#[test]
fn charts_of_the_first_come_first_then_those_found_only_in_the_second() {
    for (first, second, joined) in [
        (&[][..], &[][..], &[][..]),
        (&[3, 1], &[], &[3, 1]),
        (&[], &[3, 1], &[3, 1]),
        (&[3, 1], &[1, 3], &[3, 1]),
        (&[3, 1], &[2, 3], &[3, 1, 2]),
        (&[1], &[10, 1, 2], &[1, 10, 2]),
        (&[9, 8], &[2, 1], &[9, 8, 2, 1]),
        (
            &[10, 9, 8, 7, 6],
            &[1, 2, 3, 4, 5],
            &[10, 9, 8, 7, 6, 1, 2, 3, 4, 5],
        ),
    ] {
        let charts = |elements: &[u32]| -> Vec<Vec<u32>> {
            let chart = |&element: &u32| with_later(element, &[]);
            elements.iter().map(chart).collect()
        };
        let answer = join_charts(&charts(first), &charts(second));
        assert_eq!(
            answer,
            Ok(batch(&charts(joined), &[])),
            "{first:?} {second:?}"
        );
    }
}

#[test]
fn later_values_are_joined_first_batch_first() {
    for (first, second) in [
        (&[][..], &[][..]),
        (&[7], &[]),
        (&[], &[7]),
        (&[9, 8], &[1, 9]),
        (&[1, 2, 3], &[1, 2, 3]),
        (&[0; 64], &[]),
        (&[], &[1; 64]),
        (&[1; 32], &[2; 32]),
        (&[5; 63], &[6]),
    ] {
        let answer = join_charts(&[with_later(4, first)], &[with_later(4, second)]);
        let joined = with_later(4, &[first, second].concat());
        assert_eq!(answer, Ok(batch(&[joined], &[])));
    }
}

#[test]
fn each_chart_is_joined_with_its_own_element() {
    let first = [
        with_later(2, &[21]),
        with_later(7, &[71]),
        with_later(5, &[51]),
    ];
    let second = [
        with_later(5, &[52]),
        with_later(1, &[12]),
        with_later(2, &[22]),
    ];
    let joined = [
        with_later(2, &[21, 22]),
        with_later(7, &[71]),
        with_later(5, &[51, 52]),
        with_later(1, &[12]),
    ];
    assert_eq!(join_charts(&first, &second), Ok(batch(&joined, &[])));
}

#[test]
fn all_ten_elements_in_both_batches_make_ten_charts() {
    let charts = |later: &[u32]| -> Vec<Vec<u32>> {
        (1..=10).map(|element| with_later(element, later)).collect()
    };
    let mut second = charts(&[2]);
    second.reverse();
    let joined = batch(&charts(&[1, 2]), &[]);
    assert_eq!(join_charts(&charts(&[1]), &second), Ok(joined));
}

#[test]
fn samples_of_the_first_come_first_and_all_are_kept() {
    for (first, second) in [
        (vec![], vec![]),
        (vec![7], vec![]),
        (vec![], vec![7]),
        (vec![9, 5, 7], vec![8, 4]),
        (vec![1, 2, 3], vec![1, 2, 3]),
        (vec![7, 7], vec![7]),
        (vec![MOST_NUMBER], vec![1]),
    ] {
        let with = |numbers: &[u64]| batch(&[], &printed_with(numbers.to_vec()));
        let joined = with(&[&first[..], &second].concat());
        assert_eq!(answer(&with(&first), &with(&second)), Ok(joined));
    }
}

#[test]
fn a_sample_keeps_every_word() {
    let first = [Bottle::doubtful(), Bottle::printed().conductivity(1)];
    let second = [Bottle::without_ions(), Bottle::printed().ph(1_000)];
    let joined = batch(&[], &[first.clone(), second.clone()].concat());
    assert_eq!(
        answer(&batch(&[], &first), &batch(&[], &second)),
        Ok(joined)
    );
}

#[test]
fn an_empty_batch_leaves_the_other_as_it_is() {
    let mut generator = Generator::new(31);
    let empty = batch(&[], &[]);
    for day in 0..100 {
        let words = drawn_batch(&mut generator, day);
        assert_eq!(answer(&empty, &words), Ok(words.clone()));
        assert_eq!(answer(&words, &empty), Ok(words));
    }
}

#[test]
fn the_joined_batch_is_valid() {
    let mut generator = Generator::new(32);
    let mut joined = 0;
    for _ in 0..400 {
        let runs = drawn_runs(&mut generator);
        if let Ok(words) = answer(&runs.first, &runs.second) {
            assert_eq!(batch::test(&words), Ok(()));
            joined += 1;
        }
    }
    assert!(joined > 200, "{joined} joined");
}

#[test]
fn three_batches_may_be_joined_either_way() {
    let mut generator = Generator::new(33);
    let mut joined = 0;
    for day in 0..200 {
        let [a, b, c] = [(); 3].map(|()| drawn_batch(&mut generator, day));
        let left = answer(&a, &b).and_then(|both| answer(&both, &c));
        let right = answer(&b, &c).and_then(|both| answer(&a, &both));
        // Which refusal comes first may depend on the way, but not whether one
        // comes.
        assert_eq!(left.clone().ok(), right.ok());
        joined += usize::from(left.is_ok());
    }
    assert!(joined > 80, "{joined} joined");
}
