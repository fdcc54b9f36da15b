//! The answers of the other implementation, in the words of the C interface.

use crate::numbers::{
    CHECKS, DOCKET_COUNT, DOCKET_RECORD, DOCKET_STATE, DOCKET_WORDS, READING_WORDS, RECORD_WORDS,
};
use reference::checks::{verdicts, Verdict};
use reference::docket::{self, State};
use reference::readings::Reading;
use reference::record::Record;
use reference::refusals::{Refusal, DOCKET, OUTPUT};
use reference::{batch, charts, join, listing};

/// The states in the order of their numbers.
const STATES: [State; 4] = [
    State::Open,
    State::Consistent,
    State::Confirmed,
    State::Unsettled,
];

pub fn judge(words: &[u32]) -> Result<[u32; CHECKS], Refusal> {
    Record::read(words).map(|record| verdicts(&record).map(Verdict::number))
}

pub fn reading(value_bits: u32, limit_bits: u32) -> Result<[u32; READING_WORDS], Refusal> {
    Reading::from_analyser(value_bits, limit_bits).map(|reading| reading.words().into())
}

/// An offer to a docket that is handed in: the record's own tests, then 13 for
/// a docket that is too short, then 11, where a state word above 3 is one more
/// that no offers produce, then 12.
pub fn offer(docket: &[u32], words: &[u32]) -> Result<[u32; DOCKET_WORDS], Refusal> {
    Record::read(words)?;
    let docket = docket.first_chunk::<DOCKET_WORDS>().ok_or(OUTPUT)?;
    let state = *STATES.get(docket[DOCKET_STATE] as usize).ok_or(DOCKET)?;
    let mut held = [0; RECORD_WORDS];
    held.copy_from_slice(&docket[DOCKET_RECORD..]);
    let (state, count, held) = docket::offer(state, docket[DOCKET_COUNT], &held, words)?;
    Ok(docket_words(state.number(), count, &held))
}

/// A docket's words: state, count, last record.
pub fn docket_words(state: u32, count: u32, held: &[u32; RECORD_WORDS]) -> [u32; DOCKET_WORDS] {
    let mut words = [0; DOCKET_WORDS];
    words[DOCKET_STATE] = state;
    words[DOCKET_COUNT] = count;
    words[DOCKET_RECORD..].copy_from_slice(held);
    words
}

pub fn signals(setup: &[u32], later: &[u32]) -> Result<Vec<u32>, Refusal> {
    let mut signals = vec![0; later.len()];
    charts::signals(setup, later, &mut signals)?;
    Ok(signals)
}

pub fn batch(words: &[u32]) -> Result<Vec<u32>, Refusal> {
    batch::answer(words)
}

pub fn join(first: &[u32], second: &[u32]) -> Result<Vec<u32>, Refusal> {
    join::answer(first, second)
}

pub fn list(bytes: &[u8]) -> Vec<u8> {
    listing::text(bytes).into_bytes()
}
