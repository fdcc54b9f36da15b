//! That each kind of pair does occur.

use super::*;
use crate::answers;
use crate::batches::{ChartParts, Layout};
use crate::numbers::{COUNT_WORDS, JOINED_COUNT, MOST_LATER, ROW_FLAG, ROW_WORDS, SETUP_DIFFERS};
use crate::sample_numbers::number_of;
use std::collections::HashMap;

/// Pairs of one seed, which nothing happened to.
fn pairs(seed: u64) -> impl Iterator<Item = [Vec<u32>; 2]> {
    let mut generator = Generator::new(seed);
    let days = (0..5_000).map(move |_| day(&mut generator, 2));
    days.map(|day| day.try_into().expect("two batches"))
}

fn assert_common(kinds: impl Iterator<Item = &'static str>, due: &[&str]) {
    let mut times: HashMap<&str, u32> = HashMap::new();
    for kind in kinds {
        *times.entry(kind).or_default() += 1;
    }
    for kind in due {
        assert!(times.get(kind) > Some(&50), "{kind} among {times:?}");
    }
}

fn sorted(values: &[u32]) -> Vec<u32> {
    let mut values = values.to_vec();
    values.sort();
    values
}

fn elements_of(words: &[u32]) -> Vec<u32> {
    let charts = ChartParts::all_of(words).into_iter();
    charts.map(|chart| chart.element).collect()
}

fn kind_of_elements(first: &[u32], second: &[u32]) -> &'static str {
    let is_shared = |element: &u32| second.contains(element);
    match (first.len(), second.len()) {
        (0, 0) => "none",
        (0, _) | (_, 0) => "of one alone",
        (MOST_CHARTS, MOST_CHARTS) => "all",
        _ if first == second => "the same",
        _ if sorted(first) == sorted(second) => "the same in another order",
        _ if first.iter().any(is_shared) => "in part the same",
        _ => "others",
    }
}

#[test]
fn elements_are_the_same_in_part_the_same_or_others() {
    let elements = pairs(35).map(|pair| pair.map(|words| elements_of(&words)));
    let kinds = elements.map(|[first, second]| kind_of_elements(&first, &second));
    let due = [
        "none",
        "of one alone",
        "all",
        "the same",
        "the same in another order",
        "in part the same",
        "others",
    ];
    assert_common(kinds, &due);
}

/// The charts that are in both, in the first's order.
fn shared<'a>(first: &'a [u32], second: &'a [u32]) -> Vec<[ChartParts<'a>; 2]> {
    let [charts, others] = [first, second].map(ChartParts::all_of);
    let with_other = |chart: ChartParts<'a>| {
        let mut others = others.iter().copied();
        let other = others.find(|other| other.element == chart.element)?;
        Some([chart, other])
    };
    charts.into_iter().filter_map(with_other).collect()
}

fn kind_of_setups(first: &[u32], second: &[u32]) -> &'static str {
    let (short, long) = match first.len() < second.len() {
        true => (first, second),
        false => (second, first),
    };
    let differing = || first.iter().zip(second).filter(|(one, other)| one != other);
    let reversed: Vec<u32> = second.iter().rev().copied().collect();
    match long.len() - short.len() {
        0 if first == second => "the same",
        0 if reversed == first => "reversed",
        0 if sorted(first) == sorted(second) && differing().count() == 2 => "two swapped",
        0 if sorted(first) == sorted(second) => "rotated",
        0 if differing().count() == 1 => "one value",
        1 if long.starts_with(short) => "one at the end",
        1 if long.ends_with(short) => "one at the front",
        1 => "one in between",
        _ => "other",
    }
}

#[test]
fn setups_differ_in_every_way() {
    let kinds = pairs(36).flat_map(|[first, second]| {
        let shared = shared(&first, &second).into_iter();
        let kinds = shared.map(|[one, other]| kind_of_setups(one.setup, other.setup));
        kinds.collect::<Vec<_>>()
    });
    let due = [
        "the same",
        "reversed",
        "two swapped",
        "rotated",
        "one value",
        "one at the end",
        "one at the front",
        "one in between",
    ];
    assert_common(kinds, &due);
}

/// What the charts that are in both have against a join: for each whether the
/// setups differ and whether the later values are too many.
fn against_a_join(first: &[u32], second: &[u32]) -> Vec<(bool, bool)> {
    let shared = shared(first, second).into_iter();
    let against = shared.map(|[one, other]| {
        let later = one.later.len() + other.later.len();
        (one.setup != other.setup, later > MOST_LATER)
    });
    against.filter(|&(setup, later)| setup || later).collect()
}

#[test]
fn refusals_compete_in_one_chart_and_across_charts() {
    let kinds = pairs(37).map(|[first, second]| {
        let refusal = answers::join(&first, &second).err();
        match (&against_a_join(&first, &second)[..], refusal) {
            ([], None) => "joined",
            ([(true, false)], Some(SETUP_DIFFERS)) => "setup",
            ([(false, true)], Some(JOINED_COUNT)) => "count",
            ([(true, true)], Some(SETUP_DIFFERS)) => "both in one chart",
            ([(true, false), (false, true), ..], Some(SETUP_DIFFERS)) => "setup, then count",
            ([(false, true), (true, false), ..], Some(JOINED_COUNT)) => "count, then setup",
            _ => "other",
        }
    });
    let due = [
        "joined",
        "setup",
        "count",
        "both in one chart",
        "setup, then count",
        "count, then setup",
    ];
    assert_common(kinds, &due);
}

#[test]
fn numbers_fall_or_are_in_both() {
    let kinds = pairs(38).map(|pair| {
        let [first, second] = pair.map(|words| {
            let samples = Layout::of(&words).samples.into_iter();
            samples
                .map(|part| number_of(&words[part]))
                .collect::<Vec<_>>()
        });
        let all = [&first[..], &second].concat();
        match (first.len(), second.len()) {
            (0, 0) => "no samples",
            (0, _) | (_, 0) => "samples of one alone",
            _ if all.windows(2).all(|two| two[0] > two[1]) => "falling",
            _ if first.iter().any(|number| second.contains(number)) => "in both",
            _ => "any",
        }
    });
    let due = [
        "no samples",
        "samples of one alone",
        "falling",
        "in both",
        "any",
    ];
    assert_common(kinds, &due);
}

/// The same batch twice, which the numbers of its samples tell.
#[test]
fn a_batch_is_joined_with_itself() {
    let same = |[first, second]: &[Vec<u32>; 2]| first == second && first.len() > 30;
    assert!(pairs(39).filter(same).count() > 50);
}

/// The refusal of the one that is damaged, or of the first where both are.
#[test]
fn every_refusal_of_a_batch_comes_in_the_first_and_in_the_second() {
    let mut generator = Generator::new(40);
    let mut times = [[0; 11]; 2];
    let mut both = [0; 2];
    for _ in 0..80_000 {
        let mut day = day(&mut generator, 2);
        damage_some(&mut generator, &mut day);
        let due = match [0, 1].map(|place| answers::batch(&day[place]).err()) {
            [None, None] => continue,
            [Some(first), None] => (first, &mut times[0][first as usize]),
            [None, Some(second)] => (second, &mut times[1][second as usize]),
            [Some(first), Some(second)] => (first, &mut both[usize::from(first < second)]),
        };
        let (refusal, times) = due;
        assert_eq!(answers::join(&day[0], &day[1]), Err(refusal));
        *times += 1;
    }
    for times in times {
        assert!(times[2..].iter().all(|&times| times > 5), "{times:?}");
    }
    assert!(both.iter().all(|&times| times > 500), "{both:?}");
}

/// A signal that only the joined later values have, and one that the first
/// batch's had before others came.
#[test]
fn flags_rise_and_fall_by_a_join() {
    let flags = |words: &[u32]| -> Vec<u32> {
        let answer = answers::batch(words).expect("an answer");
        let rows = answer[COUNT_WORDS..].chunks(ROW_WORDS);
        rows.map(|row| row[ROW_FLAG]).collect()
    };
    let joined = pairs(41).filter_map(|[first, second]| {
        let after = flags(&answers::join(&first, &second).ok()?);
        let before = [flags(&first), flags(&second)].concat();
        Some(before.into_iter().zip(after).collect::<Vec<_>>())
    });
    let kinds = joined.flatten().map(|flags| match flags {
        (0, 1) => "raised",
        (1, 0) => "taken back",
        _ => "kept",
    });
    assert_common(kinds, &["raised", "taken back", "kept"]);
}

#[test]
fn a_third_batch_is_joined_to_two() {
    let mut generator = Generator::new(42);
    let days = (0..2_000).map(|_| day(&mut generator, 3));
    let kinds = days.filter_map(|day| {
        let so_far = answers::join(&day[0], &day[1]).ok()?;
        Some(match answers::join(&so_far, &day[2]) {
            Ok(_) => "joined",
            Err(SETUP_DIFFERS) => "setup",
            Err(JOINED_COUNT) => "count",
            Err(_) => "other",
        })
    });
    assert_common(kinds, &["joined", "setup", "count"]);
}
