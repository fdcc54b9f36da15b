//! Part 4: control charts alone.

mod case;
mod drawn;

pub use case::smaller_charts;
pub use drawn::Chart;

use crate::case::{Mismatch, Run};
use crate::numbers::{LEAST_SETUP, MOST_LATER, MOST_SETUP};
use crate::random::Draw;
use case::ChartCase;

const DRAWN: u32 = 1_000_000;
/// Edges of the counts: each setup length with each later length.
const SETUP_LENGTHS: [usize; 7] = [
    0,
    1,
    LEAST_SETUP - 1,
    LEAST_SETUP,
    LEAST_SETUP + 1,
    MOST_SETUP,
    MOST_SETUP + 1,
];
const LATER_LENGTHS: [usize; 8] = [0, 1, 2, 6, 7, MOST_LATER - 1, MOST_LATER, MOST_LATER + 1];

pub fn run(run: &mut Run) -> Result<(), Mismatch> {
    every_length(run)?;
    for _ in 0..DRAWN {
        let mut chart = Chart::drawn(&mut run.generator);
        if run.generator.once_in(12) {
            chart.damage(&mut run.generator);
        }
        check(run, chart)?;
    }
    Ok(())
}

/// Every pair of lengths with every room about its answer.
fn every_length(run: &mut Run) -> Result<(), Mismatch> {
    for setup in SETUP_LENGTHS {
        for later in LATER_LENGTHS {
            for room in 0..=later + 2 {
                let value = |place: usize| 1_000 + place as u32 % 7;
                run.check(ChartCase {
                    setup: (0..setup).map(value).collect(),
                    later: (0..later).map(value).collect(),
                    room,
                })?;
            }
        }
    }
    Ok(())
}

fn check(run: &mut Run, chart: Chart) -> Result<(), Mismatch> {
    let exact = chart.later.len();
    let room = match run.generator.below(8) {
        0 => run.generator.place(exact + 1),
        1..=3 => run.generator.about(exact, 2),
        4 => exact + run.generator.place(40),
        _ => exact,
    };
    let Chart { setup, later } = chart;
    run.check(ChartCase { setup, later, room })
}
