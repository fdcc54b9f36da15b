//! How often verdicts change from a record to a finer one of it.

use crate::numbers::{BALANCE_CHECK, CHECKS, CONDUCTIVITY_CHECK, NITROGEN_CHECK, RATIO_CHECK};

/// Verdicts are 0 to 4.
const VERDICTS: usize = 5;

/// From one verdict to another.
type Change = (usize, usize);

/// The checks by their names, with the changes that may happen.
const ALLOWED: [(&str, usize, &[Change]); CHECKS] = [
    ("ion balance", BALANCE_CHECK, &[(3, 1), (3, 2)]),
    ("conductivity", CONDUCTIVITY_CHECK, &[(3, 1), (3, 2)]),
    (
        "Na/Cl",
        RATIO_CHECK,
        &[(3, 1), (3, 2), (0, 1), (0, 2), (0, 3), (0, 4)],
    ),
    ("nitrogen", NITROGEN_CHECK, &[(3, 1), (3, 2)]),
];

#[derive(Debug, Default)]
pub struct Changes {
    chains: u64,
    steps: u64,
    /// By check, the verdict before and the verdict after.
    times: [[[u64; VERDICTS]; VERDICTS]; CHECKS],
}

impl Changes {
    /// The verdicts of a chain's records in turn.
    pub fn add(&mut self, verdicts: &[[u32; CHECKS]]) {
        self.chains += 1;
        for pair in verdicts.windows(2) {
            self.steps += 1;
            for (check, times) in self.times.iter_mut().enumerate() {
                let [before, after] = [pair[0][check], pair[1][check]].map(|v| v as usize);
                if before < VERDICTS && after < VERDICTS {
                    times[before][after] += 1;
                }
            }
        }
    }

    /// A line for chains and steps and one for each check.
    pub fn notes(&self) -> Vec<String> {
        let of_checks = ALLOWED.map(|(name, check, changes)| {
            let times = |&(before, after): &Change| {
                let times = self.times[check][before][after];
                format!("{before} to {after}: {times}")
            };
            let changes: Vec<String> = changes.iter().map(times).collect();
            format!("{name} {}", changes.join(", "))
        });
        let Changes { chains, steps, .. } = self;
        let tried = format!("{chains} chains, {steps} steps to a finer record in all");
        [tried].into_iter().chain(of_checks).collect()
    }

    #[cfg(test)]
    pub fn of_allowed(&self) -> Vec<u64> {
        let changes = ALLOWED.into_iter().flat_map(|(_, check, changes)| {
            let changes = changes.iter();
            changes.map(move |&(before, after)| self.times[check][before][after])
        });
        changes.collect()
    }

    /// How often each verdict stayed, by check.
    #[cfg(test)]
    pub fn stayed(&self) -> [[u64; VERDICTS]; CHECKS] {
        self.times
            .map(|times| std::array::from_fn(|verdict| times[verdict][verdict]))
    }
}
