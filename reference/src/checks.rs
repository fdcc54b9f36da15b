//! "The four checks".

mod amounts;
mod balance;
mod conductivity;
mod spans;

pub use amounts::{nitrogen, ratio, sodium_chloride, sum};
pub use balance::{ion_balance, ChosenBalance, IonBalance};
pub use conductivity::{
    conductivity, conductivity_limit, ends_of_hydrogen, plain_conductivity, Calculated,
    Conductivity, PlainConductivity,
};
pub use spans::{Fraction, Inequality, Span, Spans};

use crate::numbers::CHECKS;
use crate::record::Record;

/// "Verdicts: 0 not applicable, 1 within, 2 outside, 3 undecided, 4 a needed
/// reading is missing."
#[derive(Clone, Copy, Debug, PartialEq, Eq)]
pub enum Verdict {
    NotApplicable = 0,
    Within = 1,
    Outside = 2,
    Undecided = 3,
    ReadingMissing = 4,
}

impl Verdict {
    pub fn number(self) -> u32 {
        self as u32
    }

    fn within_if(condition: bool) -> Verdict {
        if condition {
            Verdict::Within
        } else {
            Verdict::Outside
        }
    }

    /// "Within means that the inequality holds for every choice ..; outside means
    /// for none; else undecided" (document 02 (vi)).
    pub fn of_choices(every: bool, none: bool) -> Verdict {
        match (every, none) {
            (true, _) => Verdict::Within,
            (_, true) => Verdict::Outside,
            _ => Verdict::Undecided,
        }
    }
}

/// The four verdicts in the document's order.
pub fn verdicts(record: &Record) -> [Verdict; CHECKS] {
    [
        ion_balance(record),
        conductivity(record),
        sodium_chloride(record),
        nitrogen(record),
    ]
}

/// "If every check is 0 or 1": what makes a docket consistent.
pub fn is_consistent(record: &Record) -> bool {
    let lets_pass = |verdict| matches!(verdict, Verdict::NotApplicable | Verdict::Within);
    verdicts(record).into_iter().all(lets_pass)
}

#[cfg(test)]
mod tests;
