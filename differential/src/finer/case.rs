//! A chain of records to be judged.

use super::chain::Chain;
use super::smaller::smaller_chains;
use crate::answers;
use crate::canary::Lent;
use crate::case::{Case, Difference};
use crate::library::Library;
use crate::numbers::CHECKS;
use crate::outcome::Outcome;

/// What the library's verdicts are held to. A chain that fails by the one is made
/// smaller by the same: else nothing but a single record would be left of it.
#[derive(Clone, Copy, Debug, PartialEq, Eq)]
pub enum HeldTo {
    /// No verdict is overturned by a finer reading.
    TheRule,
    /// Each is the other implementation's.
    TheOthers,
}

pub struct ChainCase {
    pub chain: Chain,
    pub held_to: HeldTo,
}

impl Case for ChainCase {
    fn difference(&self, library: &dyn Library) -> Option<Difference> {
        match self.held_to {
            HeldTo::TheRule => overturned(&self.chain, library),
            HeldTo::TheOthers => other_verdicts(&self.chain, library),
        }
    }

    fn smaller(&self) -> impl Iterator<Item = ChainCase> {
        let held_to = self.held_to;
        smaller_chains(&self.chain.records)
            .map(|records| Chain { records })
            .filter(Chain::is_one)
            .map(move |chain| ChainCase { chain, held_to })
    }

    fn describe(&self) -> String {
        let records = self.chain.describe();
        format!("judge, records from 0 on, each a finer one of that before\n{records}")
    }
}

fn overturned(chain: &Chain, library: &dyn Library) -> Option<Difference> {
    let verdicts = chain.verdicts(library);
    let (old, new) = chain.overturned(&verdicts)?;
    let told = |before, after| format!("record {old} {before:?}, record {new} {after:?}");
    let [before, after] = [old, new].map(|place| answers::judge(&chain.records[place]));
    Some(Difference {
        library: told(Ok(verdicts[old]), Ok(verdicts[new])) + ", which may not follow",
        reference: told(before, after),
    })
}

fn other_verdicts(chain: &Chain, library: &dyn Library) -> Option<Difference> {
    let judged = chain.judged(library);
    let mut places = chain.records.iter().zip(judged).enumerate();
    places.find_map(|(place, (words, found))| {
        let lent = Lent::of_length(CHECKS);
        let due = Outcome::due(lent.content(), answers::judge(words));
        let difference = found.against(&due)?;
        let named = |answer: String| format!("record {place} {answer}");
        Some(Difference {
            library: named(difference.library),
            reference: named(difference.reference),
        })
    })
}
