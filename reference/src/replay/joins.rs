//! Calls 17 to 19: batches joined, a batch's own tests, and files joined.

use super::{lent_bytes, lent_line, lent_words, or_refused, Line};
use crate::numbers::REPLAY_BYTES;
use crate::words::to_bytes;
use crate::{batch, join};

/// Call 17: two batches, the first of them so many words long.
pub fn joined(words: &[u32]) -> Line {
    let (&[room, length], rest) = words.split_first_chunk()?;
    let mut lent = lent_words(room)?;
    let (first, second) = rest.split_at_checked(length as usize)?;
    let result = join::join(first, second, &mut lent);
    Some(lent_line("joined", result, &lent))
}

/// Call 18: a batch's own tests.
pub fn tested(words: &[u32]) -> String {
    or_refused(batch::test(words).map(|()| "passed".to_string()))
}

/// Call 19: two files, so many bytes and so many. The second begins where the
/// first ends, also in the middle of a word.
pub fn joined_files(words: &[u32]) -> Line {
    let (&[room, first, second], rest) = words.split_first_chunk()?;
    let mut lent = lent_bytes(room)?;
    let (first, second) = (first as usize, second as usize);
    let both = first.checked_add(second)?;
    if both > REPLAY_BYTES {
        return None;
    }
    let bytes = to_bytes(rest);
    let (first, second) = bytes.get(..both)?.split_at(first);
    let result = join::join_bytes(first, second, &mut lent);
    Some(lent_line("joined", result, &lent))
}

#[cfg(test)]
mod tests {
    use super::super::text;
    use crate::cases::batches::{batch, chart, flat};
    use crate::cases::bottle::Bottle;
    use crate::numbers::{REPLAY_BYTES, REPLAY_ROOM, REPLAY_TEXT, WORD_BYTES};
    use crate::words::to_bytes;

    /// The line of one case.
    fn run(call: u32, head: &[u32], rest: &[u32]) -> String {
        let count = (head.len() + rest.len()) as u32;
        text(&to_bytes(&[&[call, count], head, rest].concat()))
    }

    #[test]
    fn call_17_lends_words() {
        assert_eq!(run(17, &[3, 2], &[0; 4]), "joined 2 0 0 900000002\n");
        assert_eq!(run(17, &[1, 2], &[0; 4]), "refused 13 900000000\n");
        assert_eq!(run(17, &[0, 1], &[0; 4]), "refused 8\n");
        assert_eq!(run(17, &[0, 0], &[]), "refused 8\n");
        let first = chart(3, &flat(), &[7]);
        let second = chart(3, &flat(), &[8, 9]);
        let pair = [batch(&[first], &[]), batch(&[second], &[])].concat();
        let values = "1000 ".repeat(flat().len());
        let joined = format!("joined 18 1 3 10 3 {values}7 8 9 0\n");
        assert_eq!(run(17, &[18, 16], &pair), joined);
    }

    #[test]
    fn call_18_tests_a_batch() {
        assert_eq!(run(18, &[], &[0, 0]), "passed\n");
        assert_eq!(run(18, &[], &[]), "refused 8\n");
        assert_eq!(run(18, &[], &[11]), "refused 9\n");
        let with = |bottle: Bottle| batch(&[], &[bottle]);
        let printed = Bottle::printed();
        assert_eq!(run(18, &[], &with(printed.ph(0))), "refused 4\n");
        assert_eq!(run(18, &[], &with(printed)), "passed\n");
    }

    #[test]
    fn call_19_lends_bytes() {
        let zeros = "0 0 0 0 0 0 0 0";
        assert_eq!(
            run(19, &[9, 8, 8], &[0; 4]),
            format!("joined 8 {zeros} 126\n")
        );
        assert_eq!(run(19, &[1, 8, 8], &[0; 5]), "refused 13 126\n");
        assert_eq!(run(19, &[0, 7, 8], &[0; 4]), "refused 8\n");
        assert_eq!(run(19, &[0, 8, 7], &[0; 4]), "refused 8\n");
        assert_eq!(run(19, &[0, 0, 0], &[]), "refused 8\n");
    }

    #[test]
    fn the_second_file_begins_in_the_middle_of_a_word() {
        // The second file is the word 11 at byte 5, but the first is refused 8;
        // at byte 4 it is another word, and the first is refused 9.
        let words = [11, 11 << 8, 0];
        assert_eq!(run(19, &[0, 5, 4], &words), "refused 8\n");
        assert_eq!(run(19, &[0, 4, 5], &words), "refused 9\n");
        // After a good first file the second's bytes are those that follow.
        assert_eq!(run(19, &[0, 8, 4], &[0, 0, 11]), "refused 9\n");
        assert_eq!(run(19, &[0, 8, 3], &[0, 0, 11]), "refused 8\n");
    }

    #[test]
    fn malformed_cases() {
        let text = |call, head: &[u32], rest: &[u32]| run(call, head, rest);
        for (call, head, rest) in [
            (17, &[][..], &[][..]),
            (17, &[0], &[]),
            (17, &[REPLAY_ROOM + 1, 2], &[0; 4]),
            (17, &[2, 5], &[0; 4]),
            (17, &[2, u32::MAX], &[0; 4]),
            (19, &[], &[]),
            (19, &[0, 0], &[]),
            (19, &[REPLAY_TEXT + 1, 8, 8], &[0; 4]),
            (19, &[8, 8, 9], &[0; 4]),
            (19, &[8, 17, 0], &[0; 4]),
            (19, &[8, 0, 17], &[0; 4]),
            (19, &[8, u32::MAX, u32::MAX], &[0; 4]),
            (19, &[8, u32::MAX, 1], &[0; 4]),
            (19, &[8, REPLAY_BYTES as u32, 1], &[0; 1_021]),
        ] {
            assert_eq!(text(call, head, rest), "malformed\n", "{call} {head:?}");
        }
    }

    #[test]
    fn a_case_may_lend_its_most_and_use_all_its_words() {
        let lent = run(17, &[REPLAY_ROOM, 2], &[0; 4]);
        assert!(lent.ends_with(" 900000318 900000319\n"), "{lent}");
        let rest = [0; 1_021];
        let both = (WORD_BYTES * rest.len()) as u32;
        let lent = run(19, &[REPLAY_TEXT, 8, both - 8], &rest);
        assert!(lent.starts_with("refused 8 126 126 "), "{lent}");
        assert_eq!(lent.matches(" 126").count(), REPLAY_TEXT as usize);
    }
}
