//! What becomes of a joined batch: it is answered like any other, and its rows
//! are those of the two batches.

use crate::batches::{answer_length, BatchCase};
use crate::case::{Case, Difference};
use crate::library::Library;
use crate::numbers::{answer_words, COUNT_WORDS, RECORD_WORDS, ROW_FLAG, ROW_WORDS};
use reference::refusals::Refusal;

/// The words of a row that a join leaves as they are, for each row.
type Kept = Vec<Vec<u32>>;

/// The answer to the joined batch against the other implementation's; then, of
/// the library alone, its rows against those of the two batches.
pub fn difference(library: &dyn Library, pair: [&[u32]; 2], joined: &[u32]) -> Option<Difference> {
    let as_a_batch = BatchCase {
        words: joined.to_vec(),
        room: answer_length(joined),
    };
    let differs = as_a_batch.difference(library).map(of_the_joined_batch);
    differs.or_else(|| {
        let before = pair.map(|words| kept(library, words));
        kept_otherwise(before, kept(library, joined))
    })
}

fn of_the_joined_batch(difference: Difference) -> Difference {
    let named = |answer: String| format!("the joined batch {answer}");
    Difference {
        library: named(difference.library),
        reference: named(difference.reference),
    }
}

/// "Samples of the first come first too", and "each sample keeps its verdicts":
/// number and verdicts of each row are the first's and then the second's. The
/// flags are those of the joined charts and may differ.
fn kept_otherwise(
    before: [Result<Kept, Refusal>; 2],
    after: Result<Kept, Refusal>,
) -> Option<Difference> {
    let [first, second] = before;
    let due = first.and_then(|first| Ok([first, second?].concat()));
    (after != due).then(|| Difference {
        library: format!("the joined batch's rows without flags {after:?}"),
        reference: format!("the library's own for the two batches {due:?}"),
    })
}

/// The number and the verdicts in each row of the library's answer to a batch.
fn kept(library: &dyn Library, words: &[u32]) -> Result<Kept, Refusal> {
    // A batch has no more samples than there are records in its words.
    let mut answer = vec![0; answer_words(words.len() / RECORD_WORDS)];
    match library.batch(words, &mut answer) {
        0 => Ok(kept_of(&answer)),
        refusal => Err(refusal),
    }
}

fn kept_of(answer: &[u32]) -> Kept {
    let (count, rows) = answer.split_at(COUNT_WORDS);
    let rows = rows.chunks(ROW_WORDS).take(count[0] as usize);
    rows.map(|row| row[..ROW_FLAG].to_vec()).collect()
}

#[cfg(test)]
mod tests {
    use super::*;
    use crate::numbers::{ROW_NUMBER_HIGH, ROW_NUMBER_LOW};

    /// Two rows, whatever number and verdicts they have.
    fn answer() -> Vec<u32> {
        let rows = (0..2 * ROW_WORDS as u32).map(|word| word % 5);
        [2].into_iter().chain(rows).collect()
    }

    fn half(answer: &[u32], row: usize) -> Kept {
        vec![kept_of(answer)[row].clone()]
    }

    fn differs(after: &[u32]) -> bool {
        let before = [0, 1].map(|row| Ok(half(&answer(), row)));
        kept_otherwise(before, Ok(kept_of(after))).is_some()
    }

    #[test]
    fn only_flags_may_differ() {
        assert_eq!((ROW_NUMBER_HIGH, ROW_NUMBER_LOW, ROW_FLAG), (0, 1, 6));
        assert!(!differs(&answer()));
        for place in 0..2 * ROW_WORDS {
            let mut after = answer();
            after[COUNT_WORDS + place] += 1;
            assert_eq!(differs(&after), place % ROW_WORDS != ROW_FLAG, "{place}");
        }
    }

    #[test]
    fn a_row_less_a_row_more_or_rows_in_another_order_differ() {
        let rows = answer()[COUNT_WORDS..].to_vec();
        let (first, second) = rows.split_at(ROW_WORDS);
        for rows in [vec![first], vec![second, first], vec![first, second, first]] {
            let count = vec![rows.len() as u32];
            assert!(differs(&[count, rows.concat()].concat()));
        }
    }

    #[test]
    fn a_refusal_differs() {
        let rows = || Ok(half(&answer(), 0));
        assert!(kept_otherwise([rows(), rows()], Err(9)).is_some());
        assert!(kept_otherwise([rows(), Err(9)], rows()).is_some());
    }
}
