//! 14 and 15, and what comes before them.

use super::super::*;
use crate::cases::batches::{batch, chart, flat, printed_with};
use crate::cases::bottle::Bottle;
use crate::cases::joins::faulty_batches;
use crate::numbers::{LEAST_SETUP, MOST_SETUP};

/// A batch of one chart.
fn one_chart(element: u32, setup: &[u32], later: usize) -> Vec<u32> {
    batch(&[chart(element, setup, &vec![1_000; later])], &[])
}

/// The refusal of two batches.
fn refusal(first: &[u32], second: &[u32]) -> Option<Refusal> {
    answer(first, second).err()
}

fn rising(count: usize) -> Vec<u32> {
    (1_001..).take(count).collect()
}

#[test]
fn setup_values_differ_in_a_value_in_order_and_in_count() {
    let setup = rising(LEAST_SETUP);
    let refused = |other: &[u32]| {
        let (first, second) = (one_chart(3, &setup, 1), one_chart(3, other, 1));
        assert_eq!(refusal(&first, &second), refusal(&second, &first));
        refusal(&first, &second)
    };
    assert_eq!(refused(&setup), None);
    for place in 0..LEAST_SETUP {
        let mut other = setup.clone();
        other[place] += 1;
        assert_eq!(refused(&other), Some(14), "value {place}");
        let mut moved = setup.clone();
        moved.swap(place, (place + 1) % LEAST_SETUP);
        assert_eq!(refused(&moved), Some(14), "order {place}");
    }
    for count in LEAST_SETUP + 1..=MOST_SETUP {
        assert_eq!(refused(&rising(count)), Some(14), "{count} values");
    }
    // The same ten values and an eleventh that repeats the last of them.
    let repeated = [&setup[..], &setup[LEAST_SETUP - 1..]].concat();
    assert_eq!(refused(&repeated), Some(14));
}

#[test]
fn charts_of_different_elements_may_differ_in_setup() {
    let first = one_chart(3, &flat(), 64);
    assert_eq!(refusal(&first, &one_chart(4, &rising(20), 64)), None);
    assert_eq!(refusal(&first, &batch(&[], &[])), None);
    assert_eq!(refusal(&batch(&[], &[]), &first), None);
}

#[test]
fn joined_later_values_up_to_64() {
    for before in 0..=64 {
        for after in 0..=64 {
            let first = one_chart(3, &flat(), before);
            let second = one_chart(3, &flat(), after);
            let expected = (before + after > 64).then_some(15);
            assert_eq!(refusal(&first, &second), expected, "{before} {after}");
            let other = one_chart(3, &rising(LEAST_SETUP), after);
            assert_eq!(refusal(&first, &other), Some(14), "{before} {after}");
        }
    }
}

/// Two charts in joined order, each with its refusal or 0; the second batch has
/// them in either order.
#[test]
fn chart_by_chart_in_joined_order() {
    let before = |element| chart(element, &flat(), &[1_000; 40]);
    let after = |element, fate| match fate {
        0 => chart(element, &flat(), &[1_000; 24]),
        14 => chart(element, &rising(LEAST_SETUP), &[]),
        _ => chart(element, &flat(), &[1_000; 25]),
    };
    for first in [0, 14, 15] {
        for second in [0, 14, 15] {
            let expected = [first, second].into_iter().find(|&fate| fate != 0);
            for (one, other) in [(2, 9), (9, 2)] {
                let words = batch(&[before(one), before(other)], &[]);
                let mut charts = [after(one, first), after(other, second)];
                assert_eq!(refusal(&words, &batch(&charts, &[])), expected);
                charts.reverse();
                assert_eq!(refusal(&words, &batch(&charts, &[])), expected);
            }
        }
    }
}

#[test]
fn samples_come_last() {
    let with = |charts: &[Vec<u32>], count: u64| batch(charts, &printed_with(1..=count));
    for (before, after) in [(200, 201), (400, 1), (1, 400), (400, 400)] {
        let refused = |first: &[Vec<u32>], second: &[Vec<u32>]| {
            refusal(&with(first, before), &with(second, after))
        };
        assert_eq!(refused(&[], &[]), Some(15));
        let usual = [chart(3, &flat(), &[1_000])];
        let other = [chart(3, &rising(LEAST_SETUP), &[1_000])];
        assert_eq!(refused(&usual, &usual), Some(15));
        assert_eq!(refused(&usual, &other), Some(14));
    }
    for (before, after) in [(200, 200), (400, 0), (0, 400), (399, 1)] {
        assert_eq!(refusal(&with(&[], before), &with(&[], after)), None);
    }
}

#[test]
fn the_first_batch_then_the_second_passes_its_own_tests() {
    let faulty = faulty_batches();
    let own = |words: &[u32]| batch::test(words).err();
    let mut seen: Vec<Option<Refusal>> = faulty.iter().map(|words| own(words)).collect();
    let good = batch(&[chart(8, &rising(20), &[])], &[Bottle::printed()]);
    for first in &faulty {
        assert_eq!(refusal(first, &good), own(first));
        assert_eq!(refusal(&good, first), own(first));
        for second in &faulty {
            assert_eq!(refusal(first, second), own(first));
        }
    }
    seen.sort_unstable();
    seen.dedup();
    assert_eq!(seen, (2..=10).map(Some).collect::<Vec<_>>());
}

#[test]
fn own_tests_come_before_14_and_15() {
    let first = one_chart(8, &flat(), 64);
    for charts in [[chart(8, &rising(20), &[])], [chart(8, &flat(), &[1_000])]] {
        let fated = batch(&charts, &[]);
        assert!(refusal(&first, &fated) >= Some(14));
        let longer = [&fated[..], &[0]].concat();
        assert_eq!(refusal(&first, &longer), Some(8));
        assert_eq!(refusal(&longer, &first), Some(8));
        let kind = batch(&charts, &[Bottle::printed(), Bottle::printed().kind(0)]);
        assert_eq!(refusal(&first, &kind), Some(3));
        assert_eq!(refusal(&kind, &first), Some(3));
    }
}
