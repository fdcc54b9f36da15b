//! Faults in the floor of hydrogen, made from those for p from 200 to 299 by
//! divisions by ten (document 02 (iv)).

use super::verdicts_at;
use super::Fault::{
    self, DividedToTheNearest, NextNumberDivided, OneDivisionTooFew, WrongFloorAt253,
};
use crate::numbers::LEAST_PH;
use reference::hydrogen::Ph;
use reference::record::Record;

/// One unit of pH in p.
const UNIT: u32 = 100;

/// The two verdicts that go by hydrogen, where a fault gives it another floor.
pub fn judge_by_another_floor(fault: Fault, record: &Record, verdicts: &mut [u32]) {
    let Some(h) = another_floor(fault, record.ph.hundredths()).map(i128::from) else {
        return;
    };
    let is_whole = record.ph.has_whole_hydrogen();
    for (place, verdict) in verdicts_at(record, h, is_whole).into_iter().flatten() {
        if matches!(verdicts[place], 1..=3) {
            verdicts[place] = verdict;
        }
    }
}

/// The floor at p with a fault of the floor's own.
fn another_floor(fault: Fault, p: u32) -> Option<u64> {
    let beyond = p - LEAST_PH;
    let entry = LEAST_PH + beyond % UNIT;
    let first = Ph::new(entry).ok()?.floor();
    let hundreds = beyond / UNIT;
    let divided = |times: u32, from: u64, by_ten: fn(u64) -> u64| {
        (0..times).fold(from, |floor, _| by_ten(floor))
    };
    match fault {
        OneDivisionTooFew => Some(divided(hundreds.saturating_sub(1), first, |h| h / 10)),
        DividedToTheNearest => Some(divided(hundreds, first, |h| (h + 5) / 10)),
        NextNumberDivided => Some(divided(hundreds, first, |h| (h + 1) / 10)),
        WrongFloorAt253 if entry == 253 => Some(divided(hundreds, first + 1, |h| h / 10)),
        _ => None,
    }
}

#[cfg(test)]
mod tests {
    use super::*;
    use crate::faults::FAULTS;
    use crate::numbers::MOST_PH;

    #[test]
    fn a_fault_of_the_floor_changes_some_floor() {
        let floor = |p: u32| Ph::new(p).map(Ph::floor).ok();
        let differs = |fault: Fault| {
            let mut every = LEAST_PH..=MOST_PH;
            every.any(|p| another_floor(fault, p).is_some_and(|other| floor(p) != Some(other)))
        };
        let found: Vec<Fault> = FAULTS
            .iter()
            .map(|&(fault, _)| fault)
            .filter(|&fault| differs(fault))
            .collect();
        assert_eq!(
            found,
            [
                OneDivisionTooFew,
                DividedToTheNearest,
                NextNumberDivided,
                WrongFloorAt253
            ]
        );
    }
}
