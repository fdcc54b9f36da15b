//! Faults in calculated conductivity where below readings are ranges: in the
//! strength, in the bracket, and in which of its ends go together.

use super::ranges::{both, halves, hydrogen, ions};
use super::Fault::{self, *};
use crate::numbers::CONDUCTIVITY_CHECK;
use reference::activity::{weighed_with, Bracket};
use reference::checks::{ends_of_hydrogen, Calculated, Conductivity, Verdict};
use reference::ranges::Ends;
use reference::record::Record;

/// Conductivity as a judge with this fault has it.
pub fn conductivity(fault: Fault, record: &Record) -> Option<Verdict> {
    let mut check = Conductivity::with(record, ions(fault, CONDUCTIVITY_CHECK, record)?);
    let by_half = Conductivity::with(record, halves(record)?);
    let (h, is_whole) = hydrogen(record);
    check.weighed = weighed(fault, check.weighed, by_half.weighed);
    let verdict = check.verdict(h, is_whole);
    Some(match fault {
        DecidedAtWholePh if is_whole && verdict == Verdict::Undecided => {
            by_half.verdict(h, is_whole)
        }
        BracketForEachEnd | SquareAgainstTheSum | OnlyCornersTried => {
            by_its_ends(fault, &check, h, is_whole)
        }
        _ => verdict,
    })
}

/// The strengths without hydrogen, the least and the greatest.
fn weighed(fault: Fault, right: Ends<i128>, by_half: Ends<i128>) -> Ends<i128> {
    let Ends { least, greatest } = right;
    let (least, greatest) = match fault {
        GreatestStrengthAtZero => (least, least),
        LeastStrengthAtTheLimit => (greatest, greatest),
        LeastStrengthAtTheHalf => (by_half.least, greatest),
        GreatestStrengthAtTheHalf => (least, by_half.greatest),
        _ => (least, greatest),
    };
    Ends { least, greatest }
}

/// The least and the greatest CE put together otherwise.
fn by_its_ends(fault: Fault, check: &Conductivity, h: i128, is_whole: bool) -> Verdict {
    let (bracket, sums) = (check.bracket(h, is_whole), check.sums(h, is_whole));
    let judge = |one: i128, other: i128| {
        check.judge(Calculated {
            least: one.min(other),
            greatest: one.max(other),
            ends_are_reached: is_whole,
        })
    };
    let (least, greatest) = (bracket.least * sums.least, bracket.greatest * sums.greatest);
    match fault {
        // A bracket for the least of all amounts and one for the greatest.
        BracketForEachEnd => {
            let hydrogen = ends_of_hydrogen(h, is_whole);
            let low = weighed_with(hydrogen.least, check.weighed.least);
            let high = weighed_with(hydrogen.greatest, check.weighed.greatest);
            judge(
                Bracket::of(low, low).least * sums.least,
                Bracket::of(high, high).greatest * sums.greatest,
            )
        }
        // Less y² where there is more of everything.
        SquareAgainstTheSum => judge(bracket.greatest * sums.least, bracket.least * sums.greatest),
        _ => both(judge(least, least), judge(greatest, greatest)),
    }
}
