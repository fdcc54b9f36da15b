//! What a call answers, and what stands in the lent slice and in the length after
//! it.

use crate::canary::{Cell, Lent};
use crate::case::Difference;
use reference::refusals::{Refusal, OUTPUT};
use std::fmt::Debug;

/// Of a longer slice so many words are told, from the first that differs on.
const MOST_TOLD: usize = 600;

/// What stands in the length before the call; no answer is so long.
pub const OLD_LENGTH: usize = usize::MAX / 3;

#[derive(Clone, Debug, PartialEq, Eq)]
pub struct Outcome<T> {
    /// 0 or the refusal's number.
    pub answer: u32,
    pub after: Vec<T>,
    pub canaries_stand: bool,
    /// What stands in the length, after a call that tells one.
    pub length: Option<usize>,
}

impl<T: Cell + Debug> Outcome<T> {
    /// What the library did to a lent slice.
    pub fn found(answer: u32, lent: &Lent<T>) -> Outcome<T> {
        Outcome {
            answer,
            after: lent.content().to_vec(),
            canaries_stand: lent.canaries_stand(),
            length: None,
        }
    }

    /// The same of a call that tells a length, which is this one.
    pub fn telling(self, length: usize) -> Outcome<T> {
        Outcome {
            length: Some(length),
            ..self
        }
    }

    /// "A refusal returns its number, nothing else changes."
    pub fn refused(refusal: Refusal, before: &[T]) -> Outcome<T> {
        Outcome {
            answer: refusal,
            after: before.to_vec(),
            canaries_stand: true,
            length: None,
        }
    }

    /// What is due where the lent slice held `before`: the answer in its first
    /// words, or a refusal. "Last 13."
    pub fn due(before: &[T], answer: Result<impl AsRef<[T]>, Refusal>) -> Outcome<T> {
        match answer {
            Err(refusal) => Outcome::refused(refusal, before),
            Ok(answer) => Outcome::written(answer.as_ref(), before),
        }
    }

    /// What is due of a call that tells the answer's length: after a refusal the
    /// old one stands.
    pub fn due_telling(before: &[T], answer: Result<&[T], Refusal>) -> Outcome<T> {
        let due = Outcome::due(before, answer);
        let length = match (due.answer, answer) {
            (0, Ok(answer)) => answer.len(),
            _ => OLD_LENGTH,
        };
        due.telling(length)
    }

    fn written(answer: &[T], before: &[T]) -> Outcome<T> {
        let Some(beyond) = before.get(answer.len()..) else {
            return Outcome::refused(OUTPUT, before);
        };
        Outcome {
            answer: 0,
            after: [answer, beyond].concat(),
            canaries_stand: true,
            length: None,
        }
    }

    /// Both outcomes in words, where they differ.
    pub fn against(&self, due: &Outcome<T>) -> Option<Difference> {
        let mut words = self.after.iter().zip(&due.after);
        let same = words.position(|(one, other)| one != other).unwrap_or(0);
        (self != due).then(|| Difference {
            library: self.describe(same),
            reference: due.describe(same),
        })
    }

    /// The answer in words, and the length that was told.
    pub fn describe_answer(&self) -> String {
        let answer = match self.answer {
            0 => "answered".to_string(),
            refusal => format!("refused {refusal}"),
        };
        match self.length {
            None => answer,
            Some(OLD_LENGTH) => format!("{answer}, length unchanged"),
            Some(length) => format!("{answer}, length {length}"),
        }
    }

    /// In words; `same` of the lent slice's are as they should be.
    fn describe(&self, same: usize) -> String {
        let answer = self.describe_answer();
        let canaries = if self.canaries_stand {
            ""
        } else {
            ", words outside it changed"
        };
        let after = match &self.after[..] {
            all if all.len() <= MOST_TOLD => format!("{all:?}"),
            all => {
                let told = &all[same..(same + MOST_TOLD).min(all.len())];
                format!("{} words, after {same} of them {told:?}", all.len())
            }
        };
        format!("{answer}, the lent slice then {after}{canaries}")
    }
}

#[cfg(test)]
mod tests {
    use super::*;

    #[test]
    fn an_answer_stands_in_the_first_words() {
        let due = Outcome::<u32>::due(&[7, 8, 9], Ok([1, 2]));
        assert_eq!((due.answer, due.after), (0, vec![1, 2, 9]));
    }

    #[test]
    fn a_refusal_leaves_the_slice() {
        for (answer, number) in [(Err(4), 4), (Ok([1, 2, 3]), 13)] {
            let due = Outcome::<u32>::due(&[7, 8], answer);
            assert_eq!((due.answer, due.after), (number, vec![7, 8]));
        }
    }

    #[test]
    fn of_a_long_slice_the_first_difference_is_told() {
        let due = Outcome::<u32>::due(&[7; 5_000], Ok([]));
        let mut found = due.clone();
        found.after[4_000] = 1_234_567;
        let difference = found.against(&due).expect("a difference");
        let told = "5000 words, after 4000 of them [1234567, 7, ";
        assert!(difference.library.contains(told));
        assert!(difference.reference.len() < 4 * MOST_TOLD);
    }

    #[test]
    fn a_length_is_the_answer_s_or_stays() {
        for (answer, length) in [
            (Ok(&[1, 2][..]), 2),
            (Ok(&[]), 0),
            (Ok(&[1, 2, 3]), OLD_LENGTH),
            (Err(4), OLD_LENGTH),
        ] {
            let due = Outcome::<u32>::due_telling(&[7, 8], answer);
            assert_eq!(due.length, Some(length));
        }
    }

    #[test]
    fn another_length_is_a_difference() {
        let due = Outcome::<u32>::due_telling(&[7, 8], Ok(&[1]));
        let found = due.clone().telling(OLD_LENGTH);
        let difference = found.against(&due).expect("a difference");
        assert!(difference
            .library
            .starts_with("answered, length unchanged,"));
        assert!(difference.reference.starts_with("answered, length 1,"));
        assert!(due.clone().telling(1).against(&due).is_none());
    }

    #[test]
    fn a_changed_canary_is_a_difference() {
        let due = Outcome::<u32>::due(&[7, 8], Ok([1]));
        let mut found = due.clone();
        assert!(found.against(&due).is_none());
        found.canaries_stand = false;
        assert!(found.against(&due).is_some());
    }
}
