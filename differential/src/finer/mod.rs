//! Part 7: finer readings. A record and up to five finer ones of it, each of the
//! one before: no verdict is overturned, and all are the other implementation's.

mod case;
mod chain;
mod changes;
mod first;
mod readings;
mod smaller;
mod steps;

use crate::case::{Mismatch, Run};
#[cfg(all(test, feature = "stand-in"))]
use crate::library::Library;
use case::{ChainCase, HeldTo};
use chain::Chain;
use changes::Changes;
use first::first_bottle;
use reference::cases::generator::Generator;
use steps::refined;

const ROUNDS: u32 = 100;
/// In each round.
const CHAINS: u32 = 1_000;
const MOST_STEPS: u32 = 5;

/// In each round the rule comes first, for all its chains: what is overturned is
/// told as a pair of records.
pub fn run(run: &mut Run) -> Result<(), Mismatch> {
    let mut changes = Changes::default();
    for _ in 0..ROUNDS {
        let drawn = (0..CHAINS).map(|_| drawn(&mut run.generator));
        let chains: Vec<Chain> = drawn.collect();
        for held_to in [HeldTo::TheRule, HeldTo::TheOthers] {
            for chain in chains.iter().cloned() {
                run.check(ChainCase { chain, held_to })?;
            }
        }
        for chain in &chains {
            changes.add(&chain.verdicts(run.library));
        }
    }
    run.notes = changes.notes();
    Ok(())
}

/// One to five steps, fewer where no reading is left that may become finer.
fn drawn(generator: &mut Generator) -> Chain {
    let steps = generator.between(1, MOST_STEPS);
    let mut last = first_bottle(generator);
    let mut records = vec![last.words().to_vec()];
    for _ in 0..steps {
        let Some(finer) = refined(generator, &last) else {
            break;
        };
        records.push(finer.words().to_vec());
        last = finer;
    }
    Chain { records }
}

/// Whether one of so many chains shows the library overturning a verdict, by its
/// answers alone.
#[cfg(all(test, feature = "stand-in"))]
pub fn is_overturned(library: &dyn Library, chains: u32) -> bool {
    let mut generator = Generator::new(71);
    (0..chains).any(|_| {
        let chain = drawn(&mut generator);
        chain.overturned(&chain.verdicts(library)).is_some()
    })
}

#[cfg(test)]
mod tests;
