//! The stored inputs: what the four test programs are run with.

pub mod agreement;
pub mod batches;
pub mod bottle;
pub mod charts;
pub mod conducting;
pub mod floats;
pub mod generator;
pub mod greatest_batch;
pub mod hydrogen;
pub mod joins;
pub mod limits;
pub mod listings;
pub mod offers;
pub mod one_bottle;
pub mod pairs;
pub mod questions;
pub mod ranges;
pub mod readings;
pub mod records;
pub mod sample_numbers;
pub mod solver;
pub mod strength;
pub mod undecided;

use crate::numbers::{ALKALINITY, RECORD_WORDS};
use bottle::Bottle;

/// Cases for `replay`, one after another: the number of a call, a count, and
/// that many words.
#[derive(Default)]
pub struct Cases {
    words: Vec<u32>,
}

impl Cases {
    pub fn add(&mut self, call: u32, words: &[u32]) {
        self.begin(call, words.len(), words);
    }

    /// A case whose count may be more than the words that follow.
    fn begin(&mut self, call: u32, count: usize, words: &[u32]) {
        self.words.extend([call, count as u32]);
        self.words.extend(words);
    }

    /// The words of each case of a call.
    pub fn of_call(&self, call: u32) -> Vec<&[u32]> {
        let mut found = Vec::new();
        let mut rest = self.words.as_slice();
        while let Some((&[number, count], after)) = rest.split_first_chunk() {
            let (words, later) = after.split_at(after.len().min(count as usize));
            if number == call {
                found.push(words);
            }
            rest = later;
        }
        found
    }

    /// Call 7: a record judged.
    pub fn judge(&mut self, bottle: &Bottle) {
        self.add(7, bottle.words());
    }
}

/// The input of `replay`. Its very last case is malformed: the input ends in
/// the middle of it.
pub fn replay_input() -> Vec<u8> {
    crate::words::to_bytes(&replay_cases().words)
}

/// The cases of `replay`, subject by subject.
pub fn replay_cases() -> Cases {
    let mut cases = Cases::default();
    let subjects: [fn(&mut Cases); 15] = [
        hydrogen::all,
        readings::all,
        questions::all,
        records::all,
        limits::all,
        undecided::all,
        strength::all,
        ranges::all,
        agreement::all,
        offers::all,
        charts::all,
        batches::all,
        listings::all,
        joins::all,
        |cases| cases.begin(7, RECORD_WORDS, &Bottle::printed().words()[..ALKALINITY]),
    ];
    for subject in subjects {
        subject(&mut cases);
    }
    cases
}

#[cfg(test)]
mod tests {
    use crate::replay;

    #[test]
    fn only_the_last_case_is_malformed() {
        let input = super::replay_input();
        assert!(input.len() < 4_250_000, "{} bytes", input.len());
        let text = replay::text(&input);
        let malformed = text.lines().filter(|line| *line == "malformed").count();
        assert_eq!(malformed, 1);
        assert_eq!(text.lines().last(), Some("malformed"));
    }

    #[test]
    fn every_verdict_of_every_check_occurs() {
        let text = replay::text(&super::replay_input());
        let judged: Vec<&str> = text
            .lines()
            .filter(|line| line.starts_with("judged"))
            .collect();
        for (check, verdicts) in [(1, "01234"), (2, "1234"), (3, "01234"), (4, "01234")] {
            for verdict in verdicts.chars() {
                let occurs = judged.iter().any(|line| {
                    let field = line.split(' ').nth(check);
                    field == Some(verdict.to_string().as_str())
                });
                assert!(occurs, "check {check} verdict {verdict}");
            }
        }
    }
}
