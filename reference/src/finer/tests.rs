//! Request (vii) sentence by sentence: the relation, the rule, and verdicts of
//! records that are finer ones.

mod examples;
mod needed;
mod relation;
mod rule;

use crate::cases::bottle::Bottle;
use crate::checks::{verdicts, Verdict};
use crate::finer::{is_finer, may_follow};
use crate::numbers::CHECKS;
use crate::record::Record;

fn record(bottle: &Bottle) -> Record {
    Record::read(bottle.words()).expect("a record")
}

fn numbers(bottle: &Bottle) -> [u32; CHECKS] {
    verdicts(&record(bottle)).map(Verdict::number)
}

fn finer(old: &Bottle, new: &Bottle) -> bool {
    is_finer(old.words(), new.words())
}

/// The verdicts of one check, of a bottle and of a finer one of it, which the
/// rule lets pass.
fn from_to(check: usize, old: &Bottle, new: &Bottle) -> [u32; 2] {
    assert!(finer(old, new));
    let (before, after) = (numbers(old), numbers(new));
    assert!(may_follow(&record(old), &before, &after));
    [before[check], after[check]]
}
