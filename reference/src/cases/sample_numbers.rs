//! The sample numbers of the stored inputs: at the ends of their range and of
//! their words, of every count of digits, and drawn at random.

use super::generator::Generator;
use crate::numbers::{MOST_NUMBER, NUMBER_DIGITS, WORD_VALUES};
use crate::sample_number::{of_parts, parts_of};

/// A high and a low word, whatever number they make.
pub type Parts = (u32, u32);

/// The words of the greatest number.
pub const MOST_PARTS: Parts = parts_of(MOST_NUMBER);
const MOST_HIGH: u32 = MOST_PARTS.0;
const MOST_LOW: u32 = MOST_PARTS.1;
/// The first high word that makes no number, whatever the low one.
pub const TOO_HIGH: u32 = MOST_HIGH + 1;

/// Numbers at the ends of their range and about 2^32; the first of them and the
/// last two are refused.
pub const EDGES: [u64; 11] = [
    0,
    1,
    2,
    7,
    WORD_VALUES - 1,
    WORD_VALUES,
    WORD_VALUES + 1,
    MOST_NUMBER - 1,
    MOST_NUMBER,
    MOST_NUMBER + 1,
    MOST_NUMBER + 2,
];

/// Words at the ends of the range, at the ends of 32 bits, and where a sign
/// would be.
const HIGHS: [u32; 8] = [
    0,
    1,
    MOST_HIGH - 1,
    MOST_HIGH,
    TOO_HIGH,
    0x7FFF_FFFF,
    0x8000_0000,
    u32::MAX,
];
const LOWS: [u32; 9] = [
    0,
    1,
    MOST_LOW - 1,
    MOST_LOW,
    MOST_LOW + 1,
    MOST_LOW + 2,
    0x7FFF_FFFF,
    0x8000_0000,
    u32::MAX,
];

/// Each of these high words with each of these low ones.
pub fn edge_parts() -> impl Iterator<Item = Parts> {
    HIGHS
        .into_iter()
        .flat_map(|high| LOWS.map(|low| (high, low)))
}

/// Words that make no number: too small, too great by one, too great whatever
/// the low word, with the bit where a sign would be, and the greatest of all.
pub const REFUSED: [Parts; 5] = [
    (0, 0),
    (MOST_HIGH, MOST_LOW + 1),
    (TOO_HIGH, 0),
    (0x8000_0000, 7),
    (u32::MAX, u32::MAX),
];

/// Words that the other way round make another number or, the last three, none.
pub const ORDERED: [Parts; 8] = [
    (0, 1),
    (1, 2),
    (7, 41),
    (0, MOST_HIGH),
    (MOST_HIGH - 2, MOST_HIGH),
    (0, u32::MAX),
    (1, u32::MAX),
    MOST_PARTS,
];

pub fn swapped((high, low): Parts) -> Parts {
    (low, high)
}

/// Words of another bottle: only the high word differs, or only the low one, by
/// the bit that keeps every pair of `ORDERED` a number; or they are swapped.
pub fn others(parts: Parts) -> [Parts; 3] {
    let (high, low) = parts;
    [(high ^ 2, low), (high, low ^ 2), swapped(parts)]
}

/// One number of every count of digits: the beginnings of the last of them.
pub fn of_every_count() -> [u64; NUMBER_DIGITS] {
    let mut numbers = [123_456_789_012_345; NUMBER_DIGITS];
    for place in (1..NUMBER_DIGITS).rev() {
        numbers[place - 1] = numbers[place] / 10;
    }
    numbers
}

/// The least and the greatest number of every count of digits.
pub fn ends_of_every_count() -> impl Iterator<Item = u64> {
    (1..=NUMBER_DIGITS as u32).flat_map(|digits| {
        let (least, greatest) = ends_of_count(digits);
        [least, greatest]
    })
}

fn ends_of_count(digits: u32) -> (u64, u64) {
    (10u64.pow(digits - 1), 10u64.pow(digits) - 1)
}

/// Words whose low one is 0 or has fewer digits in base ten than a word may
/// have: next to the digits of the high word it would need leading zeros.
pub const SHORT_LOWS: [Parts; 11] = [
    (1, 0),
    (2, 0),
    (10, 0),
    (MOST_HIGH, 0),
    (1, 7),
    (10, 10),
    (1, 99_999),
    (100_000, 42),
    (1, 999_999_999),
    (MOST_HIGH, 1),
    (MOST_HIGH, 100_000_000),
];

/// All the numbers of a batch with many: every count of digits, short low words
/// and the edges that aren't refused.
pub fn mixed() -> Vec<u64> {
    let mut numbers = of_every_count().to_vec();
    numbers.extend(SHORT_LOWS.map(|(high, low)| of_parts(high, low)));
    numbers.extend(&EDGES[1..EDGES.len() - 2]);
    numbers
}

/// A number of any size: every count of digits is as likely as any other, and
/// about one number in eight lies where the high word changes.
pub fn drawn(generator: &mut Generator) -> u64 {
    if generator.once_in(8) {
        return beside_a_high_step(generator);
    }
    let (least, greatest) = ends_of_count(generator.between(1, NUMBER_DIGITS as u32));
    generator.wide_between(least, greatest)
}

/// A multiple of 2^32, or the number before or after it.
fn beside_a_high_step(generator: &mut Generator) -> u64 {
    let most = generator.pick(&[1, 9, 1_000, MOST_HIGH]);
    let multiple = of_parts(generator.between(1, most), 0);
    generator.wide_between(multiple - 1, multiple + 1)
}

#[cfg(test)]
mod tests {
    use super::*;

    fn is_number((high, low): Parts) -> bool {
        (1..=MOST_NUMBER).contains(&of_parts(high, low))
    }

    #[test]
    fn the_greatest_number_has_its_words() {
        let (high, low) = (232_830u64, 2_764_472_320u64);
        assert_eq!(high * 4_294_967_296 + low, 1_000_000_000_000_000);
        assert_eq!(MOST_PARTS, (232_830, 2_764_472_319));
        assert_eq!(&HIGHS[2..5], [232_829, 232_830, 232_831]);
        let about = [2_764_472_318, 2_764_472_319, 2_764_472_320, 2_764_472_321];
        assert_eq!(&LOWS[2..6], about);
        assert_eq!(edge_parts().count(), 72);
    }

    #[test]
    fn words_are_numbers_or_refused_as_they_say() {
        assert!(!REFUSED.into_iter().any(is_number));
        assert!(SHORT_LOWS.into_iter().all(is_number));
        for (place, parts) in ORDERED.into_iter().enumerate() {
            let [other_high, other_low, swapped] = others(parts).map(is_number);
            assert!(is_number(parts) && other_high && other_low, "{parts:?}");
            assert_eq!(swapped, place < ORDERED.len() - 3, "{parts:?}");
        }
    }

    #[test]
    fn every_count_of_digits_occurs() {
        let digits = |number: u64| number.to_string().len();
        let counts: Vec<usize> = of_every_count().map(digits).to_vec();
        assert_eq!(counts, (1..=NUMBER_DIGITS).collect::<Vec<usize>>());
        let ends: Vec<usize> = ends_of_every_count().map(digits).collect();
        let twice: Vec<usize> = counts.iter().flat_map(|&count| [count, count]).collect();
        assert_eq!(ends, twice);
    }

    #[test]
    fn drawn_numbers_are_of_all_sizes() {
        let mut generator = Generator::new(17);
        let numbers: Vec<u64> = (0..8_000).map(|_| drawn(&mut generator)).collect();
        assert!(numbers.iter().all(|&number| is_number(parts_of(number))));
        // Of 7,000 numbers a fifteenth is 467.
        for digits in 1..=NUMBER_DIGITS {
            let has_digits = |number: &&u64| number.to_string().len() == digits;
            assert!(numbers.iter().filter(has_digits).count() > 350);
        }
        let is_beside = |number: &&u64| **number > 2 && (**number + 1) % WORD_VALUES <= 2;
        let beside = numbers.iter().filter(is_beside).count();
        assert!((850..1_150).contains(&beside), "{beside}");
    }
}
