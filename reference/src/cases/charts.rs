//! Calls 10 and 11: control charts alone.

use super::generator::Generator;
use super::Cases;
use crate::numbers::{LEAST_SETUP, MOST_LATER, MOST_SETUP, MOST_VALUE};

/// Mean 1,000; two deviations are 4 exactly, three are 6 exactly.
const SETUP: [u32; LEAST_SETUP] = [1003, 997, 1003, 997, 1000, 1000, 1000, 1000, 1000, 1000];
/// The same with deviations ten times as wide.
pub const WIDE: [u32; LEAST_SETUP] = [1030, 970, 1030, 970, 1000, 1000, 1000, 1000, 1000, 1000];
/// The greatest of the later values that go with `WIDE`.
const TOP: u32 = 1061;
/// Mean 1,000 and no variance.
const FLAT: [u32; LEAST_SETUP] = [1000; LEAST_SETUP];
/// Mean 100, a deviation of 1.49.
const AROUND_HUNDRED: [u32; LEAST_SETUP] = [98, 99, 100, 101, 102, 98, 99, 100, 101, 102];
/// Mean 100 and no variance.
const ALL_HUNDRED: [u32; LEAST_SETUP] = [100; LEAST_SETUP];

/// A value that is in its range, and would not be if values were whole µg/L.
pub const BEYOND_WHOLE: u32 = MOST_VALUE / 10 + 1;

/// A chart worked by hand: its setup values, its later values and their signal
/// words.
pub type Worked = ([u32; LEAST_SETUP], &'static [u32], &'static [u32]);

/// 103 is beyond 2 and 105 beyond 3; the seventh value ends seven that rise,
/// the eighth also seven above the mean.
pub const RISING_THROUGH_THE_LIMITS: Worked = (
    AROUND_HUNDRED,
    &[100, 101, 102, 103, 104, 105, 106, 107],
    &[0, 0, 0, 0, 2, 3, 11, 15],
);
/// Beyond 2 on one side and then on the other is no pair; two places before it
/// is near enough, three are not.
pub const PAIRS_BEYOND_TWO: Worked = (
    AROUND_HUNDRED,
    &[103, 97, 103, 100, 100, 103, 97, 97],
    &[0, 0, 2, 0, 0, 0, 0, 2],
);
/// Without variance every value off the mean is beyond; a value on the mean
/// has no side.
pub const WITHOUT_VARIANCE: Worked = (ALL_HUNDRED, &[100, 101, 99, 100, 99], &[0, 1, 1, 0, 3]);

pub fn all(cases: &mut Cases) {
    counts(cases);
    values(cases);
    rooms(cases);
    competing(cases);
    beyond(cases);
    exactly_three_deviations(cases);
    two_beyond(cases);
    seven_on_one_side(cases);
    seven_in_one_direction(cases);
    worked(cases);
    near_the_greatest(cases);
    for (_, later) in every_sum() {
        add(cases, &WIDE, &later);
        let mirrored: Vec<u32> = later.iter().map(|value| 2_000 - value).collect();
        add(cases, &WIDE, &mirrored);
    }
    scattered(cases);
}

/// A chart with room for its answer, and its last signal.
fn add(cases: &mut Cases, setup: &[u32], later: &[u32]) {
    add_with_room(cases, setup, later, later.len().min(128));
    cases.add(11, &[&[setup.len() as u32], setup, later].concat());
}

fn add_with_room(cases: &mut Cases, setup: &[u32], later: &[u32], room: usize) {
    let head = [setup.len() as u32, room as u32];
    cases.add(10, &[&head, setup, later].concat());
}

fn counts(cases: &mut Cases) {
    let (least, most) = (LEAST_SETUP, MOST_SETUP);
    for setup in [0, 1, least - 1, least, least + 1, most, most + 1] {
        for later in [0, 1, 6, 7, MOST_LATER, MOST_LATER + 1] {
            let setup: Vec<u32> = (0..setup as u32).map(|index| 500 + index % 7).collect();
            let later = (0..later as u32).map(|index| 498 + 5 * (index % 3));
            add(cases, &setup, &later.collect::<Vec<u32>>());
        }
    }
}

fn values(cases: &mut Cases) {
    for value in [
        0,
        BEYOND_WHOLE,
        MOST_VALUE - 1,
        MOST_VALUE,
        MOST_VALUE + 1,
        u32::MAX,
    ] {
        for place in [0, LEAST_SETUP - 1] {
            let mut setup = SETUP;
            setup[place] = value;
            add(cases, &setup, &[1000, 1001]);
        }
        for place in 0..3 {
            let mut later = [1000; 3];
            later[place] = value;
            add(cases, &SETUP, &later);
        }
    }
    add(cases, &[MOST_VALUE; MOST_SETUP], &[MOST_VALUE; MOST_LATER]);
    add(cases, &[MOST_VALUE; MOST_SETUP], &[0; MOST_LATER]);
    add(cases, &[0; MOST_SETUP], &[MOST_VALUE; MOST_LATER]);
    let halves: Vec<u32> = [0, MOST_VALUE].repeat(MOST_SETUP / 2);
    add(cases, &halves, &halves);
}

/// Output of no words, one too short, exact and longer.
fn rooms(cases: &mut Cases) {
    for length in [0usize, 1, 6, 7, MOST_LATER] {
        let later: Vec<u32> = (0..length).map(|index| 1000 + index as u32 % 9).collect();
        for room in [0, length.saturating_sub(1), length, length + 1, 128] {
            add_with_room(cases, &SETUP, &later, room);
        }
    }
}

/// Each pair of the refusals 9, 10 and 13 in one chart.
fn competing(cases: &mut Cases) {
    const BAD: u32 = MOST_VALUE + 1;
    const FEW: usize = LEAST_SETUP - 1;
    const MANY: usize = MOST_LATER + 1;
    let bad = [BAD; 3];
    add_with_room(cases, &SETUP[..FEW], &bad, 3);
    add_with_room(cases, &[BAD; FEW], &[1000], 1);
    add_with_room(cases, &SETUP[..FEW], &[1000; 3], 2);
    add_with_room(cases, &SETUP, &bad, 2);
    add_with_room(cases, &[BAD; LEAST_SETUP], &[1000], 0);
    add_with_room(cases, &[BAD; MOST_SETUP + 1], &[BAD; MANY], 0);
    add_with_room(cases, &SETUP, &[BAD; MANY], MOST_LATER);
    add_with_room(cases, &SETUP, &[1000; MANY], MOST_LATER);
    cases.add(11, &[&[FEW as u32], &SETUP[..FEW], &bad[..]].concat());
    cases.add(11, &[0]);
    cases.add(11, &[&[LEAST_SETUP as u32], &[0; LEAST_SETUP][..]].concat());
}

/// Values on two and three deviations and beside, and charts without variance.
fn beyond(cases: &mut Cases) {
    for value in [993, 994, 995, 996, 997, 1000, 1003, 1004, 1005, 1006, 1007] {
        add(cases, &SETUP, &[value]);
        add(cases, &SETUP, &[value, value]);
    }
    for value in [0, 999, 1000, 1001, MOST_VALUE] {
        add(cases, &FLAT, &[value]);
        add(cases, &FLAT, &[value, value, 1000, value]);
    }
}

/// The value exactly `k` deviations above the mean, where it is whole.
fn whole_deviations(setup: &[u32], k: i64) -> Option<u32> {
    let n = setup.len() as i64;
    let sum: i64 = setup.iter().map(|&value| i64::from(value)).sum();
    let squares: i64 = setup.iter().map(|&value| i64::from(value).pow(2)).sum();
    let right = k * k * n * (n * squares - sum * sum);
    (0..=2_000)
        .find(|&value| n * value > sum && (n * value - sum).pow(2) * (n - 1) == right)
        .and_then(|value| u32::try_from(value).ok())
}

/// Setups drawn until a value lies exactly on three, or two, deviations.
fn exactly_three_deviations(cases: &mut Cases) {
    let mut generator = Generator::new(701);
    let mut found = 0;
    while found < 24 {
        let n = generator.pick(&[LEAST_SETUP, LEAST_SETUP, 11, 17, 19, 26, 37, 50, MOST_SETUP]);
        let spread = generator.between(1, 12);
        let setup: Vec<u32> = (0..n).map(|_| 500 + generator.below(spread)).collect();
        let k = if found % 2 == 0 { 3 } else { 2 };
        if let Some(value) = whole_deviations(&setup, k) {
            found += 1;
            add(cases, &setup, &[value - 1, value, value + 1]);
            add(cases, &setup, &[value + 1, value, value + 1]);
        }
    }
}

/// All lists of up to four values that are beyond 2 above, beyond 2 below, or
/// on two deviations: one, two and three places before, on the same side and
/// on the other.
fn two_beyond(cases: &mut Cases) {
    for length in 1..=4u32 {
        for list in 0..3u32.pow(length) {
            let digit = |place| list / 3u32.pow(place) % 3;
            let value = |place| [1005, 995, 1004][digit(place) as usize];
            let later: Vec<u32> = (0..length).map(value).collect();
            add(cases, &SETUP, &later);
        }
    }
    add(cases, &SETUP, &[1007, 993, 1007, 1000, 1007]);
    add(cases, &FLAT, &[1001, 1000, 1001, 999, 999]);
}

/// Seven above, seven below; one of them on the mean or on the other side.
fn seven_on_one_side(cases: &mut Cases) {
    for (near, far, opposite) in [(1001, 1002, 999), (999, 998, 1001)] {
        let seven = [near, far, near, far, near, far, near];
        add(cases, &SETUP, &seven);
        add(cases, &SETUP, &seven[..6]);
        for place in 0..7 {
            for other in [1000, opposite] {
                let mut later = seven;
                later[place] = other;
                add(cases, &SETUP, &later);
            }
        }
        let eight = [&[opposite], &seven[..]].concat();
        add(cases, &SETUP, &eight);
        add(cases, &SETUP, &[&seven[..], &[opposite]].concat());
    }
    // A mean that isn't whole: 1,000.5 lies between its two neighbours.
    let halves: Vec<u32> = (0..10).map(|index| 1000 + index % 2).collect();
    add(cases, &halves, &[1000; 8]);
    add(cases, &halves, &[1001; 8]);
}

/// Seven rising, seven falling; a tie or a step back at every place.
fn seven_in_one_direction(cases: &mut Cases) {
    let rising = [997, 998, 999, 1000, 1001, 1002, 1003];
    let mut falling = rising;
    falling.reverse();
    for seven in [rising, falling] {
        add(cases, &SETUP, &seven);
        add(cases, &SETUP, &seven[..6]);
        add(cases, &SETUP, &[&[1000], &seven[..]].concat());
        add(cases, &SETUP, &[&seven[..], &[1000]].concat());
        for place in 1..7 {
            let mut tie = seven;
            tie[place] = tie[place - 1];
            add(cases, &SETUP, &tie);
            let mut swapped = seven;
            swapped.swap(place - 1, place);
            add(cases, &SETUP, &swapped);
        }
    }
    let above: Vec<u32> = (1001..1009).collect();
    add(cases, &SETUP, &above);
    let below: Vec<u32> = (992..1000).rev().collect();
    add(cases, &SETUP, &below);
}

fn worked(cases: &mut Cases) {
    for (setup, later, _) in [
        RISING_THROUGH_THE_LIMITS,
        PAIRS_BEYOND_TWO,
        WITHOUT_VARIANCE,
    ] {
        add(cases, &setup, later);
    }
}

/// Values of `WIDE` or that go with it, moved up so far that the greatest of
/// them becomes the greatest there is. Signals stay what they were.
pub fn moved_up(values: &[u32]) -> Vec<u32> {
    let by = MOST_VALUE - TOP;
    values.iter().map(|value| value + by).collect()
}

/// Charts moved up to the greatest value, and one stretched up to it: there a
/// step of one is small against two or three deviations.
fn near_the_greatest(cases: &mut Cases) {
    for (_, later) in every_sum() {
        add(cases, &moved_up(&WIDE), &moved_up(&later));
    }
    let stretch = MOST_VALUE / TOP;
    let setup = WIDE.map(|value| stretch * value);
    for value in [940, 960, 1040, 1060] {
        let on = stretch * value;
        add(cases, &setup, &[on - 1, on, on + 1]);
        add(cases, &setup, &[on + 1, on, on - 1]);
    }
}

/// Every signal word from 0 to 15 with seven later values that end with it.
pub fn every_sum() -> Vec<(u32, Vec<u32>)> {
    let starts = [
        (0, [1001, 999, 1001, 999, 1001]),
        (4, [1001, 1002, 1001, 1002, 1001]),
        (8, [997, 998, 999, 1000, 1001]),
        (12, [1001, 1002, 1003, 1004, 1005]),
    ];
    let ends = [
        (0, [1006, 1007]),
        (1, [1006, 1061]),
        (2, [1041, 1042]),
        (3, [1041, 1061]),
    ];
    let mut sums = Vec::new();
    for (first, start) in starts {
        for (second, end) in ends {
            sums.push((first + second, [&start[..], &end[..]].concat()));
        }
    }
    sums
}

fn scattered(cases: &mut Cases) {
    let mut generator = Generator::new(702);
    for _ in 0..220 {
        let n = generator.pick(&[LEAST_SETUP, 11, 20, 40, MOST_SETUP]);
        let spread = generator.pick(&[2, 10, 100, 2_000]);
        let setup: Vec<u32> = (0..n).map(|_| 3_000 + generator.below(spread)).collect();
        let drift = generator.below(spread);
        let length = generator.pick(&[3, 8, 12, 20, MOST_LATER as u32]);
        let later: Vec<u32> = (0..length)
            .map(|index| 2_900 + drift * index / 4 + generator.below(2 * spread))
            .collect();
        add_with_room(cases, &setup, &later, length as usize);
    }
}
