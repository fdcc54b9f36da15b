//! Records that something happened to.

use crate::bottles::any_bottle;
use crate::numbers::{bits_of, mark_of, LONGEST_RECORD, RANGES, READINGS, RECORD_WORDS};
use crate::random::Draw;
use crate::sample_numbers::damage_number;
use reference::cases::generator::Generator;
use reference::cases::readings::EDGES;

/// A drawn record with one to three damages, which may yet leave it valid.
pub fn damaged(generator: &mut Generator) -> Vec<u32> {
    let mut words = any_bottle(generator).words().to_vec();
    for _ in 0..generator.between(1, 3) {
        damage(generator, &mut words);
    }
    words
}

fn damage(generator: &mut Generator, words: &mut Vec<u32>) {
    if words.len() < RECORD_WORDS {
        return generator.flip_bit(words);
    }
    match generator.below(14) {
        0 => words[generator.place(RECORD_WORDS)] = generator.word(),
        1 => words[generator.place(RECORD_WORDS)] = generator.pick(&[0, 1, 2, 3, u32::MAX]),
        2 => words.swap(generator.place(RECORD_WORDS), generator.place(RECORD_WORDS)),
        3 => words.resize(generator.place(LONGEST_RECORD + 1), 0),
        4 => {
            let beside = [RECORD_WORDS - 1, RECORD_WORDS + 1];
            words.resize(generator.pick(&beside), generator.below(3));
        }
        5 | 6 => end_of_a_range(generator, words),
        7..=9 => edge_of_a_reading(generator, words),
        10 | 11 => damage_number(generator, words),
        _ => generator.flip_bit(words),
    }
}

/// A word with a range of its own on an end of that or one beside.
fn end_of_a_range(generator: &mut Generator, words: &mut [u32]) {
    let (place, least, greatest) = generator.pick(&RANGES);
    let beside = generator.below(3);
    words[place] = if generator.once_in(2) {
        (least + beside).wrapping_sub(1)
    } else {
        greatest + beside - 1
    };
}

/// A float at which something ends, under any mark.
fn edge_of_a_reading(generator: &mut Generator, words: &mut [u32]) {
    let place = generator.place(READINGS);
    if generator.once_in(2) {
        let marks = [0, 1, 1, 1, 2, 2, 2, 3, 4, 256, u32::MAX];
        words[mark_of(place)] = generator.pick(&marks);
    }
    words[bits_of(place)] = generator.pick(&EDGES);
}

#[cfg(test)]
mod tests {
    use super::*;
    use crate::answers::judge;
    use crate::random::times_of;

    #[test]
    fn every_refusal_of_a_record_is_common() {
        let mut generator = Generator::new(12);
        let mut times = [0; 8];
        for _ in 0..20_000 {
            let refusal = judge(&damaged(&mut generator)).err().unwrap_or(0);
            times[refusal as usize] += 1;
        }
        assert!(times.iter().all(|&times| times > 100), "{times:?}");
    }

    /// A word short, exact and a word over.
    #[test]
    fn lengths_beside_a_record_s_are_common() {
        let mut generator = Generator::new(15);
        let lengths = (0..20_000).map(|_| damaged(&mut generator).len());
        let times = times_of(RECORD_WORDS - 1..=RECORD_WORDS + 1, lengths);
        assert!(times.iter().all(|&times| times > 500), "{times:?}");
    }
}
