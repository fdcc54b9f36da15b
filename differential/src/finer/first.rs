//! The bottle that a chain begins with: some of its readings are below their
//! limits, and many verdicts hang on these.

use super::steps::may_become_finer;
use crate::below::some_below;
use crate::bottles::{everyday, scattered};
use crate::floats::any_reading;
use crate::numbers::{CARBON_LINE, ORGANIC_CARBON, SOIL_WATER, WET_ONLY};
use crate::on_a_range::bottle_on_a_range;
use crate::on_an_edge::bottle_on_an_edge;
use crate::on_the_limit::bottle_on_a_limit;
use crate::records::beside_a_flip;
use crate::strength::bottle_of_strength;
use reference::cases::bottle::Bottle;
use reference::cases::conducting::tenths_at_edges;
use reference::cases::generator::Generator;

/// A reading other than DOC is below its limit.
pub fn first_bottle(generator: &mut Generator) -> Bottle {
    loop {
        if let Some(bottle) = drawn(generator) {
            if !may_become_finer(&bottle).is_empty() {
                return bottle;
            }
        }
    }
}

/// As from the field or anything, on an end of a range, next to a change of a
/// verdict, or solved for a limit.
fn drawn(generator: &mut Generator) -> Option<Bottle> {
    match generator.below(20) {
        0..=7 => Some(drawn_below(generator)),
        8..=11 => Some(bottle_on_a_range(generator)),
        12..=14 => next_to_a_change(generator),
        15 => {
            let bottle = scattered(generator);
            Some(some_below(generator, &bottle))
        }
        16 | 17 => bottle_on_a_limit(generator).map(|bottle| of_any_kind(generator, &bottle)),
        18 => bottle_on_an_edge(generator).map(|bottle| of_any_kind(generator, &bottle)),
        _ => of_a_strength(generator),
    }
}

fn drawn_below(generator: &mut Generator) -> Bottle {
    let bottle = everyday(generator);
    some_below(generator, &bottle)
}

/// A word on one side of a change of some verdict.
fn next_to_a_change(generator: &mut Generator) -> Option<Bottle> {
    let bottle = drawn_below(generator);
    let bottles = beside_a_flip(generator, &bottle);
    let place = generator.below(bottles.len().max(1) as u32);
    bottles.into_iter().nth(place as usize)
}

/// A strength on a square or beside it, measured next to an end of its bracket.
fn of_a_strength(generator: &mut Generator) -> Option<Bottle> {
    let bottle = bottle_of_strength(generator)?;
    let bottle = of_any_kind(generator, &bottle);
    match tenths_at_edges(&bottle).as_slice() {
        [] => None,
        tenths => Some(bottle.conductivity(generator.pick(tenths))),
    }
}

/// Of any kind, with little organic carbon, so that runoff has an ion balance.
fn of_any_kind(generator: &mut Generator, bottle: &Bottle) -> Bottle {
    let carbon = generator.below(CARBON_LINE);
    let (mark, bits) = any_reading(generator, carbon);
    let kind = generator.between(WET_ONLY, SOIL_WATER);
    bottle.kind(kind).reading(ORGANIC_CARBON, mark, bits)
}
