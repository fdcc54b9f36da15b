//! A batch as bytes, to be listed.

use super::case::{describe_batch, smaller_batches};
use crate::answers;
use crate::canary::Lent;
use crate::case::{Case, Difference};
use crate::library::Library;
use crate::numbers::{MOST_BYTES, WORD_BYTES};
use crate::outcome::{Outcome, OLD_LENGTH};
use crate::random::Draw;
use crate::shrink::simpler_room;
use reference::cases::generator::Generator;
use reference::words::{to_bytes, whole_words};

pub struct ListCase {
    words: Vec<u32>,
    /// Up to three bytes that are no word.
    rest: Vec<u8>,
    room: usize,
}

impl ListCase {
    pub fn new(bytes: &[u8], room: usize) -> ListCase {
        let words = whole_words(bytes);
        let rest = bytes[WORD_BYTES * words.len()..].to_vec();
        ListCase { words, rest, room }
    }

    fn bytes(&self) -> Vec<u8> {
        [to_bytes(&self.words), self.rest.clone()].concat()
    }

    /// Other words, with room for their text or with the room as it is.
    fn with_words(&self, words: Vec<u32>) -> [ListCase; 2] {
        let same_room = ListCase {
            words,
            rest: self.rest.clone(),
            room: self.room,
        };
        let bytes = same_room.bytes();
        [ListCase::new(&bytes, text_length(&bytes)), same_room]
    }
}

/// Bytes cut or lengthened so that they aren't whole words, or made more than
/// the listing takes; mostly left as they are.
pub fn damaged_bytes(generator: &mut Generator, mut bytes: Vec<u8>) -> Vec<u8> {
    match generator.below(16) {
        0 => bytes.truncate(bytes.len().saturating_sub(generator.place(WORD_BYTES))),
        1 => bytes.extend(vec![0; generator.place(WORD_BYTES)]),
        2 => bytes.resize(generator.about(MOST_BYTES, 6), 0),
        3 => bytes.truncate(generator.place(bytes.len() + 1)),
        _ => {}
    }
    bytes
}

pub fn text_length(bytes: &[u8]) -> usize {
    answers::list(bytes).len()
}

impl Case for ListCase {
    fn difference(&self, library: &dyn Library) -> Option<Difference> {
        let mut lent = Lent::of_length(self.room);
        let bytes = self.bytes();
        let text = answers::list(&bytes);
        let due = Outcome::due_telling(lent.content(), Ok(&text));
        let mut length = OLD_LENGTH;
        let answer = library.list(&bytes, lent.slice(), &mut length);
        let found = Outcome::found(answer, &lent).telling(length);
        (found != due).then(|| Difference {
            library: describe_text(&found),
            reference: describe_text(&due),
        })
    }

    fn smaller(&self) -> impl Iterator<Item = ListCase> {
        let batches = smaller_batches(&self.words).flat_map(|words| self.with_words(words));
        let rests = (0..self.rest.len()).map(|length| ListCase {
            words: self.words.clone(),
            rest: self.rest[..length].to_vec(),
            room: self.room,
        });
        let rooms = simpler_room(self.room, text_length(&self.bytes())).map(|room| ListCase {
            words: self.words.clone(),
            rest: self.rest.clone(),
            room,
        });
        batches.chain(rests).chain(rooms)
    }

    fn describe(&self) -> String {
        format!(
            "list, {} bytes lent for the text, {} bytes after the last word of\n{}",
            self.room,
            self.rest.len(),
            describe_batch(&self.words)
        )
    }
}

fn describe_text(outcome: &Outcome<u8>) -> String {
    let answer = outcome.describe_answer();
    let canaries = if outcome.canaries_stand {
        ""
    } else {
        ", bytes outside it changed"
    };
    let text = String::from_utf8_lossy(&outcome.after);
    format!("{answer}, the lent text then {text:?}{canaries}")
}
