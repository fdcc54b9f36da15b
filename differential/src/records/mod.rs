//! Part 1: records. Drawn ones, ones on a limit or a step beside it, where below
//! readings are at an end of their ranges, ones whose strength is on a square or
//! beside it, and damaged ones.

mod case;
mod damage;
mod flips;
mod written;

pub use case::{describe_record, smaller_records};
pub use damage::damaged;
pub use flips::{beside_a_flip, last_before_a_change};

use crate::bottles::any_bottle;
use crate::case::{Mismatch, Run};
use crate::floats::{any_limit_with, any_reading, ends};
use crate::numbers::{
    ALKALINITY, BULK, CARBON_LINE, CHECKS, CONDUCTIVITY, LEAST_LIMIT, LEAST_PH, MOST_ALKALINITY,
    MOST_AMOUNT, MOST_CONDUCTIVITY, MOST_PH, ORGANIC_CARBON, PH, READINGS, RUNOFF, SOIL_WATER,
    WET_ONLY,
};
use crate::on_a_range::bottle_on_a_range;
use crate::on_an_edge::bottle_on_an_edge;
use crate::on_the_limit::bottle_on_a_limit;
use crate::random::Draw;
use crate::strength::bottle_of_strength;
use case::RecordCase;
use reference::cases::bottle::Bottle;
use reference::cases::conducting::tenths_at_edges;
use reference::cases::generator::Generator;
use reference::readings::Reading;

/// All draws take turns, so that none has to wait for all of another.
const ROUNDS: u32 = 50;
/// In each round.
const DRAWN: u32 = 20_000;
const FLIPS: u32 = 6_000;
const SOLVED: u32 = 300;
const NEIGHBOURS: u32 = 25;
const STRENGTHS: u32 = 1_000;
const RANGES: u32 = 1_500;
const DAMAGED: u32 = 20_000;

pub fn run(run: &mut Run) -> Result<(), Mismatch> {
    for words in written::all() {
        check(run, &words)?;
    }
    for _ in 0..ROUNDS {
        round(run)?;
    }
    Ok(())
}

fn round(run: &mut Run) -> Result<(), Mismatch> {
    for _ in 0..DRAWN {
        let bottle = any_bottle(&mut run.generator);
        check(run, bottle.words())?;
    }
    flips(run)?;
    for solved in [bottle_on_a_limit, bottle_on_an_edge] {
        and_neighbours(run, solved)?;
    }
    strengths(run)?;
    for _ in 0..RANGES {
        let bottle = bottle_on_a_range(&mut run.generator);
        check(run, bottle.words())?;
    }
    for _ in 0..DAMAGED {
        let words = damaged(&mut run.generator);
        check(run, &words)?;
    }
    Ok(())
}

/// Judges with a lent slice of up to twice the verdicts, mostly long enough.
fn check(run: &mut Run, words: &[u32]) -> Result<(), Mismatch> {
    let room = match run.generator.below(10) {
        0 => run.generator.place(CHECKS),
        _ => CHECKS + run.generator.place(CHECKS + 1),
    };
    run.check(RecordCase::new(words, room))
}

/// A verdict that changes from one value of a word to the next: both, and one
/// step further on each side.
fn flips(run: &mut Run) -> Result<(), Mismatch> {
    for _ in 0..FLIPS {
        let bottle = any_bottle(&mut run.generator);
        for bottle in beside_a_flip(&mut run.generator, &bottle) {
            check(run, bottle.words())?;
        }
    }
    Ok(())
}

/// What a bottle is solved for, where that is found.
type Solved = fn(&mut Generator) -> Option<Bottle>;

/// Solved bottles and others a step off.
fn and_neighbours(run: &mut Run, solved: Solved) -> Result<(), Mismatch> {
    for _ in 0..SOLVED {
        let Some(bottle) = solved(&mut run.generator) else {
            continue;
        };
        let kinds = [WET_ONLY, BULK, BULK, SOIL_WATER];
        let bottle = bottle.kind(run.generator.pick(&kinds));
        check(run, bottle.words())?;
        for _ in 0..NEIGHBOURS {
            let neighbour = neighbour(&mut run.generator, &bottle);
            check(run, neighbour.words())?;
        }
    }
    Ok(())
}

/// A bottle of some strength at each measured conductivity that lies next to an
/// end of its bracket, and at one a step further.
fn strengths(run: &mut Run) -> Result<(), Mismatch> {
    for _ in 0..STRENGTHS {
        let Some(bottle) = bottle_of_strength(&mut run.generator) else {
            continue;
        };
        for tenths in tenths_at_edges(&bottle) {
            check(run, bottle.conductivity(tenths).words())?;
            let beside = tenths + run.generator.pick(&[0, 2]) - 1;
            let beside = beside.clamp(1, MOST_CONDUCTIVITY);
            check(run, bottle.conductivity(beside).words())?;
        }
    }
    Ok(())
}

/// The bottle with one word a step off, with another float of the same amount
/// or of the next one, or as runoff about the line of organic carbon.
fn neighbour(generator: &mut Generator, bottle: &Bottle) -> Bottle {
    let words = bottle.words();
    let step =
        |generator: &mut Generator, value: u32| (value + generator.below(3)).saturating_sub(1);
    match generator.below(8) {
        0 => bottle.ph(step(generator, words[PH]).clamp(LEAST_PH, MOST_PH)),
        1 => {
            let tenths = step(generator, words[CONDUCTIVITY]);
            bottle.conductivity(tenths.clamp(1, MOST_CONDUCTIVITY))
        }
        2 => bottle.alkalinity(step(generator, words[ALKALINITY]).min(MOST_ALKALINITY)),
        3 => {
            let carbon = generator.between(CARBON_LINE - 2, CARBON_LINE + 1);
            let (mark, bits) = any_reading(generator, carbon);
            bottle.kind(RUNOFF).reading(ORGANIC_CARBON, mark, bits)
        }
        _ => {
            let place = generator.place(READINGS);
            other_float(generator, bottle, place)
        }
    }
}

/// Another float for a reading: of the same amount, or the next bits after the
/// ends of that amount's floats. A limit mostly stays one, of the same amount or
/// of the next.
fn other_float(generator: &mut Generator, bottle: &Bottle, place: usize) -> Bottle {
    let (mark, bits) = bottle.mark_and_bits(place);
    let reading = Reading::from_words(mark, bits);
    if let (Ok(Reading::Below(_)), false) = (reading, generator.once_in(4)) {
        let range = reading.ok().and_then(Reading::range);
        let limit = range.map_or(LEAST_LIMIT, |range| range.greatest);
        let beside = limit + generator.pick(&[0, 1, 2]) - 1;
        let beside = beside.clamp(LEAST_LIMIT, MOST_AMOUNT);
        return bottle.below(place, any_limit_with(generator, beside));
    }
    let Some(amount) = reading.ok().and_then(Reading::amount) else {
        return bottle.amount(place, generator.below(90_000));
    };
    let (first, last) = ends(amount);
    match generator.below(6) {
        0 => bottle.reading(place, 1, first.saturating_sub(1)),
        1 if amount < MOST_AMOUNT => bottle.reading(place, 1, last + 1),
        _ => {
            let (mark, bits) = any_reading(generator, amount);
            bottle.reading(place, mark, bits)
        }
    }
}
