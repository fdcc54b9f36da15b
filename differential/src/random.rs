//! Draws that the other implementation's generator doesn't have itself.

use reference::cases::generator::Generator;
#[cfg(test)]
use std::ops::RangeInclusive;

pub trait Draw {
    /// Any word.
    fn word(&mut self) -> u32;

    /// A place in a list of this length, which isn't 0.
    fn place(&mut self, length: usize) -> usize;

    /// A number from 0 to `most`, small ones as often as great ones.
    fn of_any_size(&mut self, most: u32) -> u32;

    /// A length within `reach` of this one.
    fn about(&mut self, length: usize, reach: u32) -> usize;

    /// The same items in another order.
    fn shuffle<T>(&mut self, items: &mut [T]);

    /// One bit of one of the words turned over.
    fn flip_bit(&mut self, words: &mut [u32]);
}

impl Draw for Generator {
    fn word(&mut self) -> u32 {
        (self.below(1 << 16) << 16) | self.below(1 << 16)
    }

    fn place(&mut self, length: usize) -> usize {
        self.below(length as u32) as usize
    }

    fn of_any_size(&mut self, most: u32) -> u32 {
        let bits = self.below(33 - most.leading_zeros());
        self.below(1 << bits).min(most)
    }

    fn about(&mut self, length: usize, reach: u32) -> usize {
        (length + self.below(2 * reach + 1) as usize).saturating_sub(reach as usize)
    }

    fn shuffle<T>(&mut self, items: &mut [T]) {
        for end in (2..=items.len()).rev() {
            let place = self.place(end);
            items.swap(place, end - 1);
        }
    }

    fn flip_bit(&mut self, words: &mut [u32]) {
        if !words.is_empty() {
            let place = self.place(words.len());
            words[place] ^= 1 << self.below(32);
        }
    }
}

/// How often each length of a range comes among these.
#[cfg(test)]
pub fn times_of(about: RangeInclusive<usize>, lengths: impl Iterator<Item = usize>) -> Vec<u32> {
    let mut times = vec![0; about.clone().count()];
    for length in lengths.filter(|length| about.contains(length)) {
        times[length - about.start()] += 1;
    }
    times
}
