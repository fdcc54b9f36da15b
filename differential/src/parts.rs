//! The eight parts, and a part's run from a seed.

use crate::case::{Mismatch, Run};
use crate::library::Library;
use crate::{batches, charts, finer, joins, offers, readings, records, validation};
use reference::cases::generator::Generator;
use std::time::{Duration, Instant};

pub struct Part {
    pub name: &'static str,
    run: fn(&mut Run) -> Result<(), Mismatch>,
}

/// What came of a part.
pub struct Report {
    pub cases: u64,
    pub time: Duration,
    pub notes: Vec<String>,
    pub mismatch: Option<Mismatch>,
}

const fn named(name: &'static str, run: fn(&mut Run) -> Result<(), Mismatch>) -> Part {
    Part { name, run }
}

pub const PARTS: [Part; 8] = [
    named("records", records::run),
    named("readings", readings::run),
    named("offers", offers::run),
    named("charts", charts::run),
    named("batches", batches::run),
    named("joins", joins::run),
    named("finer", finer::run),
    named("validation", validation::run),
];

pub fn part(name: &str) -> Option<&'static Part> {
    const ALL: &[Part] = &PARTS;
    ALL.iter().find(|part| part.name == name)
}

impl Part {
    /// The same seed draws the same cases, whichever other parts run.
    pub fn run(&self, library: &dyn Library, seed: u32) -> Report {
        let start = Instant::now();
        let own = self.name.bytes().map(u64::from).sum::<u64>();
        let generator = Generator::new((u64::from(seed) << 16) + own);
        let mut run = Run::new(library, generator);
        let mismatch = (self.run)(&mut run).err();
        Report {
            cases: run.cases,
            time: start.elapsed(),
            notes: run.notes,
            mismatch,
        }
    }
}

#[cfg(all(test, feature = "stand-in"))]
mod tests {
    use super::*;
    use crate::stand_in::StandIn;

    #[test]
    fn the_stand_in_differs_nowhere_on_its_sheet() {
        let report = part("validation").map(|part| part.run(&StandIn, 0));
        let cases = report.map(|report| (report.cases, report.mismatch.is_none()));
        assert_eq!(cases, Some((24, true)));
    }
}
