//! The number of a sample: a high and a low part in words, one whole number
//! everywhere else. Only here is it put together and taken apart.

use crate::numbers::WORD_VALUES;

/// "number = high × 2^32 + low" (document 02 (ii)). In 64 bits no pair of words
/// wraps: the greatest of them make 2^64 − 1.
pub const fn of_parts(high: u32, low: u32) -> u64 {
    high as u64 * WORD_VALUES + low as u64
}

/// The high and the low part of a number. Every number of 64 bits has these two
/// and no others.
pub const fn parts_of(number: u64) -> (u32, u32) {
    ((number / WORD_VALUES) as u32, (number % WORD_VALUES) as u32)
}

#[cfg(test)]
mod tests {
    use super::*;
    use crate::cases::generator::Generator;
    use crate::cases::sample_numbers::{drawn, edge_parts, EDGES};
    use crate::numbers::MOST_NUMBER;

    /// Numbers and their parts, worked out by hand:
    /// 232,830 × 4,294,967,296 is 999,997,235,527,680.
    const WORKED: [(u64, (u32, u32)); 11] = [
        (0, (0, 0)),
        (1, (0, 1)),
        (7, (0, 7)),
        (4_294_967_295, (0, u32::MAX)),
        (4_294_967_296, (1, 0)),
        (4_294_967_297, (1, 1)),
        (999_997_235_527_679, (232_829, u32::MAX)),
        (999_997_235_527_680, (232_830, 0)),
        (MOST_NUMBER, (232_830, 2_764_472_319)),
        (MOST_NUMBER + 1, (232_830, 2_764_472_320)),
        (u64::MAX, (u32::MAX, u32::MAX)),
    ];

    #[test]
    fn worked_numbers_have_their_parts() {
        for (number, (high, low)) in WORKED {
            assert_eq!(of_parts(high, low), number);
            assert_eq!(parts_of(number), (high, low));
        }
    }

    #[test]
    fn parts_and_numbers_come_back() {
        for (high, low) in edge_parts() {
            assert_eq!(parts_of(of_parts(high, low)), (high, low));
        }
        let mut generator = Generator::new(13);
        let numbers = (0..1_000).map(|_| drawn(&mut generator));
        for number in numbers.chain(EDGES) {
            let (high, low) = parts_of(number);
            assert_eq!(of_parts(high, low), number);
        }
    }

    #[test]
    fn no_pair_of_words_wraps() {
        for (high, low) in edge_parts() {
            let wide = (u128::from(high) << 32) + u128::from(low);
            assert_eq!(u128::from(of_parts(high, low)), wide);
        }
    }
}
