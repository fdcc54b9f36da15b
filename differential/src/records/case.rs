//! A record to be judged.

use crate::answers;
use crate::canary::Lent;
use crate::case::{Case, Difference};
use crate::library::Library;
use crate::numbers::{
    bits_of, mark_of, CHECKS, FIRST_READING, READINGS, READINGS_END, READING_WORDS, RECORD_WORDS,
};
use crate::outcome::Outcome;
use crate::shrink::{simpler_room, simpler_words};
use reference::cases::bottle::Bottle;

pub struct RecordCase {
    words: Vec<u32>,
    room: usize,
}

impl RecordCase {
    pub fn new(words: &[u32], room: usize) -> RecordCase {
        RecordCase {
            words: words.to_vec(),
            room,
        }
    }
}

impl Case for RecordCase {
    fn difference(&self, library: &dyn Library) -> Option<Difference> {
        let mut lent = Lent::of_length(self.room);
        let due = Outcome::due(lent.content(), answers::judge(&self.words));
        let answer = library.judge(&self.words, lent.slice());
        Outcome::found(answer, &lent).against(&due)
    }

    fn smaller(&self) -> impl Iterator<Item = RecordCase> {
        let rooms = simpler_room(self.room, CHECKS).map(|room| RecordCase::new(&self.words, room));
        let records = smaller_records(&self.words);
        rooms.chain(records.map(|words| RecordCase::new(&words, self.room)))
    }

    fn describe(&self) -> String {
        let (record, room) = (describe_record(&self.words), self.room);
        format!("judge, {room} words lent for the verdicts, the record\n{record}")
    }
}

/// Simpler records: shorter where they aren't as long as a record, readings
/// plain or missing, single words plain.
pub fn smaller_records(words: &[u32]) -> impl Iterator<Item = Vec<u32>> + '_ {
    let lengths = simpler_room(words.len(), RECORD_WORDS)
        .filter(|&length| length < words.len())
        .map(|length| words[..length].to_vec());
    let printed = Bottle::printed().words().to_vec();
    let plain = move |place: usize| printed.get(place).copied().unwrap_or(0);
    lengths
        .chain(simpler_readings(words))
        .chain(simpler_words(words, plain))
}

/// The mark and the bits of a reading changed together, which no single word
/// can: to the printed sample's, else to missing.
fn simpler_readings(words: &[u32]) -> impl Iterator<Item = Vec<u32>> + '_ {
    let printed = Bottle::printed();
    let whole = (0..READINGS).take_while(|&place| bits_of(place) < words.len());
    whole.flat_map(move |place| {
        let (mark, bits) = (mark_of(place), bits_of(place));
        let plain = printed.mark_and_bits(place);
        let found = (words[mark], words[bits]);
        let is_plain = found == plain;
        let missing = (!is_plain && found != (0, 0)).then_some((0, 0));
        let to_plain = (!is_plain).then_some(plain);
        to_plain.into_iter().chain(missing).map(move |reading| {
            let mut words = words.to_vec();
            (words[mark], words[bits]) = reading;
            words
        })
    })
}

/// The words before the readings in base ten, each reading as its mark and its
/// float's bits, and the words after them, if any, in base ten.
pub fn describe_record(words: &[u32]) -> String {
    let (words_to_end, tail) = words.split_at(words.len().min(READINGS_END));
    let (head, readings) = words_to_end.split_at(words_to_end.len().min(FIRST_READING));
    let readings: Vec<String> = readings
        .chunks(READING_WORDS)
        .map(|reading| match reading {
            [mark, bits] => format!("({mark}, 0x{bits:08X})"),
            rest => format!("{rest:?}"),
        })
        .collect();
    let mut text = format!("  {} words: {head:?} {}", words.len(), readings.join(" "));
    if !tail.is_empty() {
        text += &format!(" {tail:?}");
    }
    text
}
