//! Faults in the sample number: its two words misread in a record, compared by
//! a part alone, or written wrongly into rows and text.

use super::Fault::{
    self, GreatestWordsTaken, HighDroppedInARow, RangeByTheLowPart, SwappedInARow,
    SwappedInTheRecord, TenToTheFifteenTaken,
};
use crate::library::Library;
use crate::numbers::{
    of_parts, parts_of, COUNT_WORDS, DOCKET_RECORD, MOST_NUMBER, NUMBER_HIGH, NUMBER_LOW,
    RECORD_WORDS, ROW_NUMBER_HIGH, ROW_NUMBER_LOW, ROW_WORDS,
};
use crate::stand_in::StandIn;
use reference::refusals::OTHER_SAMPLE;

/// A record's words as a judge with this fault reads them: under another
/// number, where the fault is in that. Words that are no record stay.
pub fn misnumbered(fault: Fault, mut words: Vec<u32>) -> Vec<u32> {
    if words.len() != RECORD_WORDS {
        return words;
    }
    let (high, low) = (words[NUMBER_HIGH], words[NUMBER_LOW]);
    let number = of_parts(high, low);
    let read = match fault {
        SwappedInTheRecord => of_parts(low, high),
        TenToTheFifteenTaken if number == MOST_NUMBER + 1 => MOST_NUMBER,
        // One more than the number is compared with 10^15: of the last number
        // that two words make, that is 0 in 64 bits.
        GreatestWordsTaken if number == u64::MAX => MOST_NUMBER,
        RangeByTheLowPart => u64::from(low),
        _ => number,
    };
    (words[NUMBER_HIGH], words[NUMBER_LOW]) = parts_of(read);
    words
}

/// An offer that was refused 12, to a docket that knows its sample by the low
/// word and the kind: the high word held is taken to be the offered one.
pub fn offer_by_the_low_part(docket: &mut [u32], words: &[u32]) -> u32 {
    let [high, low] = [NUMBER_HIGH, NUMBER_LOW].map(|place| DOCKET_RECORD + place);
    if docket[low] != words[NUMBER_LOW] {
        return OTHER_SAMPLE;
    }
    let held = std::mem::replace(&mut docket[high], words[NUMBER_HIGH]);
    let answer = StandIn.offer(docket, words);
    if answer != 0 {
        docket[high] = held;
    }
    answer
}

/// The answer to a batch with this fault in the first two words of each row.
pub fn misnumbered_rows(fault: Fault, mut answer: Vec<u32>) -> Vec<u32> {
    for row in answer[COUNT_WORDS..].chunks_mut(ROW_WORDS) {
        match fault {
            HighDroppedInARow => row[ROW_NUMBER_HIGH] = 0,
            SwappedInARow => row.swap(ROW_NUMBER_HIGH, ROW_NUMBER_LOW),
            _ => {}
        }
    }
    answer
}

/// The text with the low part of each number in its place.
pub fn text_of_low_parts(text: &[u8]) -> Vec<u8> {
    let text = String::from_utf8_lossy(text);
    let lines = text.lines().map(|line| line_of_low_part(line) + "\n");
    lines.collect::<String>().into_bytes()
}

/// A row's line begins with its number; the count's has no other field, and a
/// refusal's begins with a word.
fn line_of_low_part(line: &str) -> String {
    let row = line.split_once(' ');
    let number = row.and_then(|(number, others)| Some((number.parse().ok()?, others)));
    match number {
        Some((number, others)) => format!("{} {others}", parts_of(number).1),
        None => line.to_string(),
    }
}

#[cfg(test)]
mod tests {
    use super::super::tests::smallest_input;
    use super::super::Fault::{HighDroppedInTheText, SampleByTheLowPart};
    use super::*;
    use crate::sample_numbers::{LIMIT_HIGH, LIMIT_LOW};

    /// The printed sample's words between its number and its readings.
    const PRINTED: &str = "2, 500, 150, 0]";

    #[test]
    fn a_limit_shrinks_to_the_printed_sample_under_that_number() {
        let limit = (LIMIT_HIGH, LIMIT_LOW);
        for (fault, (high, low)) in [
            (TenToTheFifteenTaken, limit),
            (GreatestWordsTaken, (u32::MAX, u32::MAX)),
        ] {
            let input = smallest_input(fault);
            let record = format!("[{high}, {low}, {PRINTED}");
            assert!(input.contains(&record), "{input}");
        }
    }

    /// The least number with a high part and nothing else.
    #[test]
    fn a_dropped_high_word_shrinks_to_one() {
        for fault in [HighDroppedInARow, HighDroppedInTheText] {
            let input = smallest_input(fault);
            let samples = input.matches("words: [1, ").count();
            assert_eq!(samples, 1, "{input}");
        }
    }

    #[test]
    fn twelve_shrinks_to_two_offers_that_differ_in_the_high_word() {
        let input = smallest_input(SampleByTheLowPart);
        let numbers = ["words: [0, 7, ", "words: [1, 7, "];
        let found = numbers.map(|number| input.matches(number).count());
        assert_eq!(found, [1, 1], "{input}");
    }

    #[test]
    fn only_numbers_lose_their_high_part() {
        let text = b"2\n4294967303 1 1 1 1 0\n999999999999999 1 1 1 1 0\n";
        let dropped = b"2\n7 1 1 1 1 0\n2764472319 1 1 1 1 0\n";
        assert_eq!(text_of_low_parts(text), dropped);
        assert_eq!(text_of_low_parts(b"refused 8\n"), b"refused 8\n");
    }
}
