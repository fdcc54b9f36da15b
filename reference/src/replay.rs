//! The program `replay`: many cases one after another, a line of text each.

use crate::docket::{agree, PlainDocket};
use crate::hydrogen::Ph;
use crate::numbers::{RECORD_WORDS, REPLAY_ROOM, REPLAY_TEXT, REPLAY_WORDS, WORD_BYTES};
use crate::readings::Reading;
use crate::record::{is_present, is_same_sample, Record};
use crate::refusals::{self, Refusal};
use crate::words::whole_words;
use crate::{batch, charts, checks, listing};

mod joins;

/// The line of a case, or nothing where the case is malformed.
type Line = Option<String>;

/// One line of text per case. "At a case that is malformed it prints the line
/// `malformed` and stops."
pub fn text(bytes: &[u8]) -> String {
    let words = whole_words(bytes);
    let mut rest = words.as_slice();
    let mut text = String::new();
    while !rest.is_empty() {
        let Some((line, after)) = next_case(rest) else {
            return text + "malformed\n";
        };
        text += &line;
        text += "\n";
        rest = after;
    }
    if bytes.len() % WORD_BYTES != 0 {
        // The input ends in the middle of a case, in the middle of a word.
        text += "malformed\n";
    }
    text
}

/// "A case is the number of a call, a count, and that many words"; "a count
/// above 1,024" is malformed.
fn next_case(input: &[u32]) -> Option<(String, &[u32])> {
    let (&[call, count], rest) = input.split_first_chunk()?;
    let count = count as usize;
    if count > REPLAY_WORDS {
        return None;
    }
    let (words, after) = rest.split_at_checked(count)?;
    answer(call, words).map(|line| (line, after))
}

fn answer(call: u32, words: &[u32]) -> Line {
    match call {
        1 => floor(words),
        2 => reading(words),
        3 => analysis(words),
        4 => amount(words),
        5 => reading_words(words),
        6 => refusal_number(words),
        7 => Some(judged(words)),
        8 => agreement(words),
        9 => Some(offers(words)),
        10 => signals(words),
        11 => last_signal(words),
        12 => judged_batch(words),
        13 => listed(words),
        14 => presence(words),
        15 => sample(words),
        16 => Some(followed(words)),
        17 => joins::joined(words),
        18 => Some(joins::tested(words)),
        19 => joins::joined_files(words),
        _ => None,
    }
}

/// The line of a result, or `refused N`.
fn or_refused(result: Result<String, Refusal>) -> String {
    result.unwrap_or_else(|refusal| format!("refused {refusal}"))
}

/// Call 1: the floor of hydrogen.
fn floor(words: &[u32]) -> Line {
    let &[p] = words else { return None };
    let floor = Ph::new(p).map(Ph::floor);
    Some(or_refused(floor.map(|h| format!("floor {h}"))))
}

fn reading_line(reading: Result<Reading, Refusal>) -> Line {
    Some(or_refused(reading.map(|reading| match reading {
        Reading::Missing => "missing".to_string(),
        Reading::Measured(float) => format!("measured {}", float.bits()),
        Reading::Below(limit) => format!("below {}", limit.bits()),
    })))
}

/// Call 2: the reading that two words of a record are.
fn reading(words: &[u32]) -> Line {
    let &[mark, bits] = words else { return None };
    reading_line(Reading::from_words(mark, bits))
}

/// Call 3: the analyser's value and limit made into a reading.
fn analysis(words: &[u32]) -> Line {
    let &[value, limit] = words else { return None };
    reading_line(Reading::from_analyser(value, limit))
}

/// "mark 0 is a missing reading whatever the bits; mark 1 measured with the
/// float of these bits; any other mark below with it."
fn made_by_hand(mark: u32, bits: u32) -> Result<Reading, Refusal> {
    match mark {
        0 => Ok(Reading::Missing),
        1 => Reading::measured(bits),
        _ => Reading::below(bits),
    }
}

/// Call 4: the amount of a reading made by hand.
fn amount(words: &[u32]) -> Line {
    let &[mark, bits] = words else { return None };
    let amount = made_by_hand(mark, bits).map(Reading::amount);
    Some(or_refused(amount.map(|amount| match amount {
        None => "missing".to_string(),
        Some(amount) => format!("amount {amount}"),
    })))
}

/// Call 5: the words of a reading made by hand.
fn reading_words(words: &[u32]) -> Line {
    let &[mark, bits] = words else { return None };
    let pair = made_by_hand(mark, bits).map(Reading::words);
    Some(or_refused(
        pair.map(|(mark, bits)| format!("words {mark} {bits}")),
    ))
}

/// Call 6: the number of a refusal.
fn refusal_number(words: &[u32]) -> Line {
    let &[place] = words else { return None };
    let index = (place as usize).checked_sub(1)?;
    let number = refusals::ALL.get(index)?;
    Some(format!("number {number}"))
}

/// Call 7: a record judged.
fn judged(words: &[u32]) -> String {
    or_refused(Record::read(words).map(|record| {
        let numbers = checks::verdicts(&record).map(checks::Verdict::number);
        "judged".to_string() + &spaced(&numbers)
    }))
}

/// Each number with a space before it.
fn spaced<T: std::fmt::Display>(numbers: &[T]) -> String {
    numbers.iter().map(|number| format!(" {number}")).collect()
}

/// A count, that many words, and the words after these.
fn two_slices(words: &[u32]) -> Option<(&[u32], &[u32])> {
    let (&count, rest) = words.split_first()?;
    rest.split_at_checked(count as usize)
}

/// Call 8: whether two records agree.
fn agreement(words: &[u32]) -> Line {
    let (first, second) = two_slices(words)?;
    let compared = || -> Result<bool, Refusal> {
        let first = Record::read(first)?;
        let second = Record::read(second)?;
        Ok(agree(&first, &second))
    };
    Some(or_refused(compared().map(|agree| {
        let word = if agree { "agree" } else { "differ" };
        word.to_string()
    })))
}

/// Call 9: offers of any length to a fresh docket.
fn offers(words: &[u32]) -> String {
    let mut docket = PlainDocket::new();
    let mut line = "offers".to_string();
    let mut rest = words;
    while let Some((&count, after)) = rest.split_first() {
        let (offer, later) = after.split_at(after.len().min(count as usize));
        let answer = docket.offer(offer).err().unwrap_or(0);
        line += &spaced(&[answer, docket.state().number(), docket.count() as u32]);
        rest = later;
    }
    line
}

/// The lent words of a call before it.
fn lent_words(room: u32) -> Option<Vec<u32>> {
    let old = |index| 900_000_000 + index;
    (room <= REPLAY_ROOM).then(|| (0..room).map(old).collect())
}

/// The lent bytes of a call before it.
fn lent_bytes(room: u32) -> Option<Vec<u8>> {
    (room <= REPLAY_TEXT).then(|| vec![126; room as usize])
}

/// The line of a call with lent output: its answer, then what was lent.
fn lent_line<T: std::fmt::Display>(
    name: &str,
    result: Result<usize, Refusal>,
    lent: &[T],
) -> String {
    or_refused(result.map(|length| format!("{name} {length}"))) + &spaced(lent)
}

/// Call 10: the signals of a chart alone.
fn signals(words: &[u32]) -> Line {
    let (&[setup_count, room], values) = words.split_first_chunk()?;
    let (setup, later) = values.split_at_checked(setup_count as usize)?;
    let mut lent = lent_words(room)?;
    let result = charts::signals(setup, later, &mut lent);
    Some(lent_line("signals", result, &lent))
}

/// Call 11: the signal word of the last later value.
fn last_signal(words: &[u32]) -> Line {
    let (setup, later) = two_slices(words)?;
    let signal = charts::last_signal(setup, later);
    Some(or_refused(signal.map(|signal| format!("signal {signal}"))))
}

/// Call 12: a batch.
fn judged_batch(words: &[u32]) -> Line {
    let (&room, batch) = words.split_first()?;
    let mut lent = lent_words(room)?;
    let result = batch::judge(batch, &mut lent);
    Some(lent_line("written", result, &lent))
}

/// Call 13: the listing's text.
fn listed(words: &[u32]) -> Line {
    let (&[room, length], rest) = words.split_first_chunk()?;
    let bytes = crate::words::to_bytes(rest);
    let bytes = bytes.get(..length as usize)?;
    let mut lent = lent_bytes(room)?;
    let result = listing::list(bytes, &mut lent);
    Some(lent_line("listed", result, &lent))
}

/// Call 14: whether a reading of a record is present.
fn presence(words: &[u32]) -> Line {
    let (&element, record) = words.split_first()?;
    let present = is_present(record, element);
    Some(if present { "present" } else { "absent" }.to_string())
}

/// Call 15: whether two slices are of the same sample.
fn sample(words: &[u32]) -> Line {
    let (first, second) = two_slices(words)?;
    let same = is_same_sample(first, second);
    Some(if same { "same" } else { "other" }.to_string())
}

/// Call 16: records one after another to a fresh docket, and what it holds.
fn followed(words: &[u32]) -> String {
    let mut docket = PlainDocket::new();
    for offer in words.chunks(RECORD_WORDS) {
        // The answers are call 9's; here only what they leave is printed.
        let _ = docket.offer(offer);
    }
    let mut line = format!("followed {} {}", docket.state().number(), docket.count());
    if let Some(held) = docket.last() {
        line += &spaced(held);
    }
    line
}

#[cfg(test)]
mod tests {
    use super::*;
    use crate::cases::batches::{batch, printed_with};
    use crate::cases::bottle::Bottle;
    use crate::numbers::{text_bytes, MOST_NUMBER, REPLAY_SAMPLES};
    use crate::words::to_bytes;

    fn run(words: &[u32]) -> String {
        text(&to_bytes(words))
    }

    #[test]
    fn cases_follow_one_another() {
        assert_eq!(run(&[]), "");
        assert_eq!(run(&[1, 1, 600, 6, 1, 13]), "floor 1000000000\nnumber 13\n");
        assert_eq!(run(&[9, 0, 9, 1, 0]), "offers\noffers 1 0 0\n");
        assert_eq!(run(&[9, 3, 7, 1, 2]), "offers 1 0 0\n");
        assert_eq!(run(&[16, 0]), "followed 0 0\n");
        assert_eq!(run(&[6, 1, 14, 6, 1, 15]), "number 14\nnumber 15\n");
    }

    /// The line of one case: the call, what it is lent, and a batch or records.
    fn run_one(call: u32, head: &[u32], rest: &[u32]) -> String {
        let count = (head.len() + rest.len()) as u32;
        run(&[&[call, count], head, rest].concat())
    }

    /// A whole batch listed.
    fn list_one(room: u32, batch: &[u32]) -> String {
        let bytes = WORD_BYTES * batch.len();
        run_one(13, &[room, bytes as u32], batch)
    }

    #[test]
    fn lent_and_held_words_show_high_and_low_apart() {
        let bottle = Bottle::doubtful().parts((1, 41));
        let held = run_one(16, &[], bottle.words());
        assert!(held.starts_with("followed 0 1 1 41 3 500 400 300 1 "));
        let words = batch(&[], &[Bottle::printed().parts((2, 3))]);
        let lent = run_one(12, &[9], &words);
        assert_eq!(lent, "written 8 1 2 3 1 1 1 1 0 900000008\n");
    }

    #[test]
    fn a_listing_shows_the_whole_number() {
        let words = batch(&[], &[Bottle::printed().parts((2, 3))]);
        let text = "1\n8589934595 1 1 1 1 0\n";
        let (length, bytes) = (text.len(), spaced(text.as_bytes()));
        let listed = list_one(length as u32, &words);
        assert_eq!(listed, format!("listed {length}{bytes}\n"));
    }

    #[test]
    fn as_many_samples_as_a_case_has_words_for_are_answered() {
        let words = batch(&[], &printed_with(vec![MOST_NUMBER; REPLAY_SAMPLES]));
        let written = run_one(12, &[REPLAY_ROOM], &words);
        assert!(written.starts_with("written 274 39 232830 2764472319 1 1 1 1 0 "));
        assert!(written.ends_with(" 900000318 900000319\n"));
        let listed = list_one(REPLAY_TEXT, &words);
        let beginning = format!("listed {} 51 57 10 57 ", text_bytes(REPLAY_SAMPLES));
        assert!(listed.starts_with(&beginning));
    }

    #[test]
    fn it_stops_at_a_malformed_case() {
        for malformed in [
            vec![0, 0],
            vec![20, 0],
            vec![7, REPLAY_WORDS as u32 + 1],
            vec![7, 2, 0],
            vec![7],
            vec![1, 0],
            vec![6, 1, 0],
            vec![6, 1, 16],
            vec![8, 0],
            vec![8, 1, 1],
            vec![10, 2, 1, 0],
            vec![10, 2, 0, REPLAY_ROOM + 1],
            vec![12, 1, REPLAY_ROOM + 1],
            vec![13, 2, 0, 1],
            vec![13, 2, REPLAY_TEXT + 1, 0],
        ] {
            let words = [vec![6, 1, 1], malformed].concat();
            assert_eq!(run(&words), "number 1\nmalformed\n", "{words:?}");
        }
        assert_eq!(run(&[20, 0, 6, 1, 1]), "malformed\n");
        assert_eq!(text(&[0]), "malformed\n");
    }
}
