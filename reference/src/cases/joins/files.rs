//! Call 19: files joined, with the tests on bytes.

use super::{drawn_runs, faulty_batches, Runs};
use crate::cases::batches::{batch, chart, flat, printed_with};
use crate::cases::generator::Generator;
use crate::cases::Cases;
use crate::numbers::{LEAST_SETUP, MOST_CHARTS, MOST_LATER, REPLAY_TEXT, WORD_BYTES};

pub fn all(cases: &mut Cases) {
    lengths_of_empty_batches(cases);
    lengths_of_refused_batches(cases);
    lengths_of_usual_batches(cases);
    rooms(cases);
    refused(cases);
    drawn(cases);
}

/// Files of so many bytes and so many, one after another in these words.
fn add(cases: &mut Cases, room: usize, lengths: (usize, usize), words: &[u32]) {
    let head = [room as u32, lengths.0 as u32, lengths.1 as u32];
    cases.add(19, &[&head, words].concat());
}

/// How many bytes the files of two batches have.
fn lengths_of(runs: &Runs) -> (usize, usize) {
    (
        WORD_BYTES * runs.first.len(),
        WORD_BYTES * runs.second.len(),
    )
}

/// The whole files of two batches.
fn add_whole(cases: &mut Cases, room: usize, runs: &Runs) {
    let words = [&runs.first[..], &runs.second].concat();
    add(cases, room, lengths_of(runs), &words);
}

/// Every length of up to eleven bytes for each of the files; all bytes are 0.
fn lengths_of_empty_batches(cases: &mut Cases) {
    for first in 0..12 {
        for second in 0..12 {
            add(cases, 8, (first, second), &[0; 6]);
        }
    }
}

/// A first file refused 9, a good one and one that is cut, each with a second
/// file refused 9: the bytes decide which is answered.
fn lengths_of_refused_batches(cases: &mut Cases) {
    let nine = MOST_CHARTS + 1;
    for first in 3..=9 {
        for second in 3..=5 {
            add(cases, 3, (first, second), &[nine, nine, nine, nine]);
            add(cases, 3, (first, second), &[0, 0, nine, nine]);
        }
    }
}

fn usual() -> Runs {
    let first = batch(&[chart(2, &flat(), &[1_000])], &printed_with([4]));
    let second = batch(&[chart(2, &flat(), &[1_001])], &printed_with([3]));
    Runs::new(&first, &second)
}

/// Both files about their whole lengths, by up to five bytes.
fn lengths_of_usual_batches(cases: &mut Cases) {
    let runs = usual();
    let (first, second) = lengths_of(&runs);
    // Two words of the second file may become the first's.
    let words = [&runs.first[..], &runs.second, &[0, 0]].concat();
    for moved in 0..=10 {
        add(cases, 4, (first - 5 + moved, second), &words);
        add(
            cases,
            WORD_BYTES * runs.room(),
            (first, second - 5 + moved),
            &words,
        );
    }
    for (shorter, longer) in [(1, 1), (4, 1), (1, 4), (4, 4)] {
        add(cases, 4, (first - shorter, second - shorter), &words);
        add(cases, 4, (first - shorter, second + longer), &words);
        add(cases, 4, (first + shorter, second - longer), &words);
    }
}

/// Lent bytes about the answer's; their count need be no multiple of 4.
fn rooms(cases: &mut Cases) {
    let empty = Runs::new(&batch(&[], &[]), &batch(&[], &[]));
    for runs in [empty, usual()] {
        let exact = WORD_BYTES * runs.room();
        for room in (exact - 5..=exact + 5).chain([0, 1, REPLAY_TEXT as usize]) {
            add_whole(cases, room, &runs);
        }
    }
}

/// 2 to 10 in the first, the second and both; 14, 15 and both.
fn refused(cases: &mut Cases) {
    let good = usual().first;
    let faulty = faulty_batches();
    for (batch, other) in faulty.iter().zip(faulty.iter().rev()) {
        add_whole(cases, 3, &Runs::new(batch, &good));
        add_whole(cases, 3, &Runs::new(&good, batch));
        add_whole(cases, 3, &Runs::new(batch, other));
    }
    let with = |setup: &[u32], later: usize| {
        let charts = [chart(2, setup, &vec![1_000; later])];
        batch(&charts, &[])
    };
    let other = [1_001; LEAST_SETUP];
    for (setup, before, after) in [
        (&other, 1, 1),
        (&flat(), MOST_LATER, 1),
        (&flat(), 1, MOST_LATER),
        (&other, MOST_LATER, 1),
    ] {
        let runs = Runs::new(&with(&flat(), before), &with(setup, after));
        add_whole(cases, 0, &runs);
        add_whole(cases, 3, &runs.swapped());
    }
}

/// Drawn pairs whose answers fit, some with a byte or two more or less.
fn drawn(cases: &mut Cases) {
    let mut generator = Generator::new(1_501);
    for _ in 0..80 {
        let runs = drawn_runs(&mut generator);
        let words = [&runs.first[..], &runs.second, &[0]].concat();
        let (first, mut second) = lengths_of(&runs);
        if generator.once_in(4) {
            second = second - 2 + generator.below(5) as usize;
        }
        let room = (WORD_BYTES * runs.room()).min(REPLAY_TEXT as usize);
        add(cases, room, (first, second), &words);
    }
}
