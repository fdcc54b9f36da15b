//! A record and finer ones of it, one after the other.

use crate::canary::Lent;
use crate::library::Library;
use crate::numbers::{bits_of, mark_of, CHECKS};
use crate::outcome::Outcome;
use crate::records::describe_record;
use reference::finer::{is_finer, may_follow};
use reference::record::Record;

/// Each is a finer one of the record before it, and so the last of the first.
#[derive(Clone, Debug, PartialEq, Eq)]
pub struct Chain {
    pub records: Vec<Vec<u32>>,
}

/// The places of two records, the old one first.
pub type Pair = (usize, usize);

/// The mark and the bits of a reading.
pub fn reading(words: &[u32], place: usize) -> (u32, u32) {
    (words[mark_of(place)], words[bits_of(place)])
}

impl Chain {
    pub fn is_one(&self) -> bool {
        let mut pairs = self.records.windows(2);
        pairs.all(|pair| is_finer(&pair[0], &pair[1]))
    }

    /// What the library makes of each record.
    pub fn judged(&self, library: &dyn Library) -> Vec<Outcome<u32>> {
        let judged = self.records.iter().map(|words| {
            let mut lent = Lent::of_length(CHECKS);
            let answer = library.judge(words, lent.slice());
            Outcome::found(answer, &lent)
        });
        judged.collect()
    }

    /// The library's verdicts of each record, up to the first that it refuses.
    pub fn verdicts(&self, library: &dyn Library) -> Vec<[u32; CHECKS]> {
        let judged = self.judged(library).into_iter();
        let answered = judged.take_while(|outcome| outcome.answer == 0);
        answered
            .map_while(|outcome| outcome.after.try_into().ok())
            .collect()
    }

    /// Every record with the next one, and the first with the last.
    fn pairs(&self) -> impl Iterator<Item = Pair> {
        let last = self.records.len().saturating_sub(1);
        let neighbours = (0..last).map(|place| (place, place + 1));
        neighbours.chain((last > 1).then_some((0, last)))
    }

    /// The first pair whose verdicts, among these, the request doesn't let follow
    /// each other.
    pub fn overturned(&self, verdicts: &[[u32; CHECKS]]) -> Option<Pair> {
        self.pairs().find(|&(old, new)| {
            let (Some(before), Some(after)) = (verdicts.get(old), verdicts.get(new)) else {
                return false;
            };
            let record = Record::read(&self.records[old]);
            is_finer(&self.records[old], &self.records[new])
                && !record.is_ok_and(|record| may_follow(&record, before, after))
        })
    }

    pub fn describe(&self) -> String {
        let records = self.records.iter().map(|words| describe_record(words));
        records.collect::<Vec<String>>().join("\n")
    }
}
