//! Words at which a verdict changes, found by halving.

use crate::answers::judge;
use crate::numbers::{
    bits_of, FIRST_READING, LEAST_LIMIT_BITS, MOST_BITS, PH, RANGES, READINGS_END, READING_WORDS,
};
use crate::random::Draw;
use reference::cases::bottle::Bottle;
use reference::cases::generator::Generator;

/// A word that may change, from its least to its greatest value.
#[derive(Clone, Copy)]
struct Word {
    place: usize,
    least: u32,
    greatest: u32,
}

impl Word {
    /// Any word that a verdict may depend on, with the range that keeps the
    /// record valid. Nothing for a missing reading.
    fn drawn(generator: &mut Generator, bottle: &Bottle) -> Option<Word> {
        let place = PH + generator.place(READINGS_END - PH);
        if place >= FIRST_READING {
            return Word::of_a_reading(bottle, (place - FIRST_READING) / READING_WORDS);
        }
        let range = RANGES.into_iter().find(|&(word, _, _)| word == place);
        range.map(|(place, least, greatest)| Word {
            place,
            least,
            greatest,
        })
    }

    fn of_a_reading(bottle: &Bottle, reading: usize) -> Option<Word> {
        let (mark, _) = bottle.mark_and_bits(reading);
        let least = match mark {
            0 => return None,
            1 => 0,
            _ => LEAST_LIMIT_BITS,
        };
        Some(Word {
            place: bits_of(reading),
            least,
            greatest: MOST_BITS,
        })
    }

    fn contains(self, value: u32) -> bool {
        (self.least..=self.greatest).contains(&value)
    }
}

/// The bottle with a word at which some verdict changes: the last value before
/// the change, the first after it, and one more on each side. Empty where the
/// verdicts are the same all over the word's range.
pub fn beside_a_flip(generator: &mut Generator, bottle: &Bottle) -> Vec<Bottle> {
    let Some(word) = Word::drawn(generator, bottle) else {
        return Vec::new();
    };
    let verdicts_at = |value: u32| judge(bottle.word(word.place, value).words());
    let here = bottle.words()[word.place];
    let others = [
        word.least,
        word.greatest,
        generator.between(word.least, word.greatest),
    ];
    let other = others
        .into_iter()
        .find(|&other| verdicts_at(other) != verdicts_at(here));
    let Some(other) = other else {
        return Vec::new();
    };
    let before = last_before_a_change(here.min(other), here.max(other), verdicts_at);
    (before.saturating_sub(1)..=before + 2)
        .filter(|&value| word.contains(value))
        .map(|value| bottle.word(word.place, value))
        .collect()
}

/// From two values with different answers, the first of two neighbours with
/// different answers.
pub fn last_before_a_change<A: PartialEq>(
    mut from: u32,
    mut to: u32,
    answer: impl Fn(u32) -> A,
) -> u32 {
    let at_first = answer(from);
    while to - from > 1 {
        let middle = from + (to - from) / 2;
        if answer(middle) == at_first {
            from = middle;
        } else {
            to = middle;
        }
    }
    from
}

#[cfg(test)]
mod tests {
    use super::*;

    #[test]
    fn the_change_is_found() {
        assert_eq!(last_before_a_change(3, 1_000, |n| n >= 77), 76);
        assert_eq!(last_before_a_change(3, 4, |n| n), 3);
    }

    #[test]
    fn verdicts_differ_among_the_found_ones() {
        let mut generator = Generator::new(6);
        let mut found = 0;
        for _ in 0..500 {
            let bottle = crate::bottles::everyday(&mut generator);
            let bottles = beside_a_flip(&mut generator, &bottle);
            let answers: Vec<_> = bottles.iter().map(|bottle| judge(bottle.words())).collect();
            assert!(answers.iter().all(Result::is_ok));
            found += u32::from(answers.windows(2).any(|pair| pair[0] != pair[1]));
        }
        assert!(found > 200, "{found} found");
    }
}
