//! Two batches of one day, and the call that joins them.

use crate::cases::Cases;
use crate::join::answer;
use crate::numbers::REPLAY_ROOM;

/// The words of two batches, which their own tests may refuse.
#[derive(Clone, Debug)]
pub struct Runs {
    pub first: Vec<u32>,
    pub second: Vec<u32>,
}

impl Runs {
    pub fn new(first: &[u32], second: &[u32]) -> Runs {
        Runs {
            first: first.to_vec(),
            second: second.to_vec(),
        }
    }

    /// The second batch before the first.
    pub fn swapped(&self) -> Runs {
        Runs::new(&self.second, &self.first)
    }

    /// How many words the answer has; where there is none, two, which stay.
    pub fn room(&self) -> usize {
        answer(&self.first, &self.second).map_or(2, |words| words.len())
    }

    /// Call 17, with so many words lent.
    pub fn add_with_room(&self, cases: &mut Cases, room: usize) {
        let head = [room as u32, self.first.len() as u32];
        cases.add(17, &[&head, &self.first[..], &self.second].concat());
    }

    /// Call 17, with as many words lent as the answer has.
    pub fn add(&self, cases: &mut Cases) {
        self.add_with_room(cases, self.room().min(REPLAY_ROOM as usize));
    }

    /// The same in both orders.
    pub fn add_both(&self, cases: &mut Cases) {
        self.add(cases);
        self.swapped().add(cases);
    }
}
