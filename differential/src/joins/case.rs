//! Two batches to be joined.

use super::further;
use super::smaller::smaller_pairs;
use crate::answers;
use crate::batches::describe_batch;
use crate::canary::Lent;
use crate::case::{Case, Difference};
use crate::library::Library;
use crate::outcome::{Outcome, OLD_LENGTH};
use crate::shrink::simpler_room;

#[derive(Clone)]
pub struct JoinCase {
    pub first: Vec<u32>,
    pub second: Vec<u32>,
    pub room: usize,
}

impl Case for JoinCase {
    fn difference(&self, library: &dyn Library) -> Option<Difference> {
        let mut lent = Lent::of_length(self.room);
        let joined = answers::join(&self.first, &self.second);
        let joined = joined.as_deref().map_err(|refusal| *refusal);
        let due = Outcome::due_telling(lent.content(), joined);
        let mut length = OLD_LENGTH;
        let answer = library.join(&self.first, &self.second, lent.slice(), &mut length);
        let found = Outcome::found(answer, &lent).telling(length);
        found.against(&due).or_else(|| {
            // Nothing differs so far: the length told is within the lent slice.
            let joined = (answer == 0).then(|| &lent.content()[..length])?;
            further::difference(library, [&self.first, &self.second], joined)
        })
    }

    fn smaller(&self) -> impl Iterator<Item = JoinCase> {
        let exact = super::joined_length(&self.first, &self.second);
        let rooms = simpler_room(self.room, exact).map(|room| JoinCase {
            room,
            ..self.clone()
        });
        // A smaller pair has a smaller answer: its room is made exact first.
        let pairs = smaller_pairs(&self.first, &self.second).flat_map(|[first, second]| {
            let exact = super::joined_length(&first, &second);
            [exact, self.room].map(|room| JoinCase {
                first: first.clone(),
                second: second.clone(),
                room,
            })
        });
        pairs.chain(rooms)
    }

    fn describe(&self) -> String {
        let [first, second] = [&self.first, &self.second].map(|words| describe_batch(words));
        let room = self.room;
        format!("join, {room} words lent for the joined batch\nfirst\n{first}\nsecond\n{second}")
    }
}
