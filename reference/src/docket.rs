//! "The docket".

use crate::checks::is_consistent;
use crate::numbers::{IONS, RECORD_WORDS};
use crate::record::{is_same_sample, Record};
use crate::refusals::{require, Refusal, DOCKET, OTHER_SAMPLE};

/// "It is open, consistent, confirmed or unsettled."
#[derive(Clone, Copy, Debug, PartialEq, Eq)]
pub enum State {
    Open = 0,
    Consistent = 1,
    Confirmed = 2,
    Unsettled = 3,
}

impl State {
    pub fn number(self) -> u32 {
        self as u32
    }

    pub fn name(self) -> &'static str {
        match self {
            State::Open => "open",
            State::Consistent => "consistent",
            State::Confirmed => "confirmed",
            State::Unsettled => "unsettled",
        }
    }
}

/// "Two records agree when p differs by at most 10 and conductivity, alkalinity
/// and each of the eight ions' amounts differ by at most a tenth of the
/// larger." Total nitrogen and organic carbon aren't compared.
pub fn agree(first: &Record, second: &Record) -> bool {
    first.ph.hundredths().abs_diff(second.ph.hundredths()) <= 10
        && within_a_tenth(first.conductivity, second.conductivity)
        && within_a_tenth(first.alkalinity, second.alkalinity)
        && (0..IONS).all(|ion| amounts_agree(first.amount(ion), second.amount(ion)))
}

/// "ten times the difference is at most the larger"
fn within_a_tenth(first: u32, second: u32) -> bool {
    10 * u64::from(first.abs_diff(second)) <= u64::from(first.max(second))
}

/// "missing agrees only with missing"
fn amounts_agree(first: Option<u32>, second: Option<u32>) -> bool {
    match (first, second) {
        (None, None) => true,
        (Some(first), Some(second)) => within_a_tenth(first, second),
        _ => false,
    }
}

/// "The plain docket is fed the offered slices in turn. All it has is the list
/// of records it took, empty at first."
#[derive(Clone, Debug, Default)]
pub struct PlainDocket {
    taken: Vec<Record>,
}

impl PlainDocket {
    pub fn new() -> PlainDocket {
        PlainDocket::default()
    }

    /// "While that is empty it is open. Otherwise it is consistent where the
    /// last of them has every check 0 or 1; else confirmed where it took two or
    /// more and the last two agree; else unsettled where it took three; else
    /// open."
    pub fn state(&self) -> State {
        match self.taken.as_slice() {
            [] => State::Open,
            [.., last] if is_consistent(last) => State::Consistent,
            [.., before, last] if agree(before, last) => State::Confirmed,
            [_, _, _] => State::Unsettled,
            _ => State::Open,
        }
    }

    pub fn count(&self) -> usize {
        self.taken.len()
    }

    /// The words of the last record taken.
    pub fn last(&self) -> Option<&[u32; RECORD_WORDS]> {
        self.taken.last().map(|record| &record.words)
    }

    /// "A slice that the record's own tests refuse is answered with their
    /// number. Else, where it isn't open, the answer is 11. Else, where it took
    /// any and the slice differs from the last of them in what 12 compares, it
    /// is 12. Else the slice is taken and put at the end."
    pub fn offer(&mut self, slice: &[u32]) -> Result<(), Refusal> {
        let record = Record::read(slice)?;
        require(self.state() == State::Open, DOCKET)?;
        if let Some(last) = self.last() {
            require(is_same_sample(last, slice), OTHER_SAMPLE)?;
        }
        self.taken.push(record);
        Ok(())
    }
}

/// A docket as it is handed in and returned: state, count and held record.
pub type Docket = (State, u32, [u32; RECORD_WORDS]);

/// An offer to any docket that is handed in, also one that no offers produce.
pub fn offer(
    state: State,
    count: u32,
    held: &[u32; RECORD_WORDS],
    slice: &[u32],
) -> Result<Docket, Refusal> {
    let record = Record::read(slice)?;
    require(state == State::Open, DOCKET)?;
    let before = record_before(count, held)?;
    if let Some(before) = &before {
        require(is_same_sample(&before.words, slice), OTHER_SAMPLE)?;
    }
    let state = state_after(count, before.as_ref(), &record);
    Ok((state, count + 1, record.words))
}

/// The record held by an open docket. "A docket handed in as open with a count
/// above 2, or with a count of 1 or 2 and a held record that the record's own
/// tests refuse, which no offers produce, is refused 11." "A fresh docket is
/// open with count 0, whatever record it holds."
fn record_before(count: u32, held: &[u32; RECORD_WORDS]) -> Result<Option<Record>, Refusal> {
    match count {
        0 => Ok(None),
        1 | 2 => Record::read(held).map(Some).map_err(|_| DOCKET),
        _ => Err(DOCKET),
    }
}

/// "If every check is 0 or 1, it closes as consistent. Else, if it is the
/// second or third and agrees with the one before, it closes as confirmed.
/// Else, if it is the third, it closes as unsettled. Else it stays open."
fn state_after(count_before: u32, before: Option<&Record>, record: &Record) -> State {
    if is_consistent(record) {
        State::Consistent
    } else if before.is_some_and(|before| agree(before, record)) {
        State::Confirmed
    } else if count_before == 2 {
        State::Unsettled
    } else {
        State::Open
    }
}

#[cfg(test)]
mod tests;
