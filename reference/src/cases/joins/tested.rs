//! Call 18: a batch's own tests.

use super::drawn::damage_batch;
use super::{drawn_batch, drawn_runs, faulty_batches};
use crate::cases::batches;
use crate::cases::generator::Generator;
use crate::cases::Cases;
use crate::join::answer;

/// Longer batches of call 12 are left out.
const MOST_WORDS: usize = 160;

pub fn all(cases: &mut Cases) {
    of_call_12(cases);
    for words in faulty_batches() {
        cases.add(18, &words);
    }
    joined(cases);
    drawn(cases);
}

/// Every batch that call 12 has, once.
fn of_call_12(cases: &mut Cases) {
    let mut judged = Cases::default();
    batches::all(&mut judged);
    let mut seen: Vec<&[u32]> = Vec::new();
    for words in judged.of_call(12) {
        // The first word is what call 12 lends.
        let batch = &words[1..];
        if batch.len() <= MOST_WORDS && !seen.contains(&batch) {
            cases.add(18, batch);
            seen.push(batch);
        }
    }
}

/// "The answer is the joined batch .., and it is valid."
fn joined(cases: &mut Cases) {
    let mut generator = Generator::new(1_401);
    for _ in 0..80 {
        let runs = drawn_runs(&mut generator);
        if let Ok(words) = answer(&runs.first, &runs.second) {
            cases.add(18, &words);
        }
    }
}

/// Drawn batches as they are, and damaged twice.
fn drawn(cases: &mut Cases) {
    let mut generator = Generator::new(1_402);
    for day in 0..110 {
        let mut words = drawn_batch(&mut generator, day);
        cases.add(18, &words);
        for _ in 0..2 {
            damage_batch(&mut generator, &mut words);
            cases.add(18, &words);
            if words.is_empty() {
                break;
            }
        }
    }
}
