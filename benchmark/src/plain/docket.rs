//! The docket.

use super::record::Record;
use super::{checks, Floors, Refusal};
use crate::numbers::{IONS, RECORD_WORDS};

#[derive(Clone, Copy, PartialEq, Eq)]
pub enum State {
    Open,
    Consistent,
    Confirmed,
    Unsettled,
}

pub struct Docket {
    pub state: State,
    pub count: u32,
    pub held: [u32; RECORD_WORDS],
}

fn tenth(x: u64, y: u64) -> bool {
    10 * x.abs_diff(y) <= x.max(y)
}

fn agree(a: &Record, b: &Record) -> bool {
    a.p.abs_diff(b.p) <= 10
        && tenth(a.conductivity, b.conductivity)
        && tenth(a.alkalinity, b.alkalinity)
        && (0..IONS).all(|i| match (a.amounts[i], b.amounts[i]) {
            (Some(x), Some(y)) => tenth(x.into(), y.into()),
            (None, None) => true,
            _ => false,
        })
}

impl Docket {
    pub fn fresh() -> Docket {
        Docket {
            state: State::Open,
            count: 0,
            held: [0; RECORD_WORDS],
        }
    }

    pub fn offer(&mut self, words: &[u32], floors: &Floors) -> Result<(), Refusal> {
        let record = Record::read(words)?;
        if self.state != State::Open || self.count > 2 {
            return Err(11);
        }
        let mut agrees = false;
        if self.count > 0 {
            let held = Record::read(&self.held).map_err(|_| 11u32)?;
            if held.number != record.number || held.kind != record.kind {
                return Err(12);
            }
            agrees = agree(&held, &record);
        }
        let passed = checks::verdicts(&record, floors).iter().all(|&v| v <= 1);
        self.count += 1;
        self.held.copy_from_slice(words);
        self.state = match (passed, agrees, self.count) {
            (true, _, _) => State::Consistent,
            (_, true, _) => State::Confirmed,
            (_, _, 3) => State::Unsettled,
            _ => State::Open,
        };
        Ok(())
    }
}
