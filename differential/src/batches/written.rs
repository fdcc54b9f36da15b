//! Batches written down: sample numbers of every count of digits, alike in one
//! word and at their limits, and as many bytes as the listing takes.

use crate::numbers::{
    of_parts, MOST_BYTES, MOST_CHARTS, MOST_DIGITS, MOST_NUMBER, MOST_SAMPLES, WORD_BYTES,
};
use crate::sample_numbers::{self, of_width, LIMIT_HIGH};
use reference::cases::batches::{batch, charts_counted};
use reference::cases::bottle::Bottle;
use reference::words::to_bytes;

pub fn all() -> Vec<Vec<u32>> {
    let numbers = every_width()
        .into_iter()
        .chain(alike())
        .chain(at_the_limits());
    numbers.map(|numbers| samples(&numbers)).collect()
}

/// The printed sample under each of these numbers.
fn samples(numbers: &[u64]) -> Vec<u32> {
    let samples = numbers
        .iter()
        .map(|&number| Bottle::printed().number(number));
    batch(&[], &samples.collect::<Vec<_>>())
}

/// The least and the greatest number of each count of digits, one by one and
/// all together; and as often as can be the greatest of all, which makes the
/// longest text.
fn every_width() -> Vec<Vec<u64>> {
    let ends = (1..=MOST_DIGITS).flat_map(of_width);
    let together: Vec<u64> = ends.clone().collect();
    let longest = vec![MOST_NUMBER; MOST_SAMPLES as usize];
    ends.map(|end| vec![end])
        .chain([together, longest])
        .collect()
}

/// Numbers with the same low word, with the same high word, and pairs with the
/// same words in either order.
fn alike() -> [Vec<u64>; 3] {
    let words = [0, 1, 9, 4_096, LIMIT_HIGH - 1];
    let both_orders = |(high, low)| [of_parts(high, low), of_parts(low, high)];
    let pairs = [(0, 7), (3, 4), (1, LIMIT_HIGH - 1)];
    [
        words.map(|high| of_parts(high, 7)).to_vec(),
        words.map(|low| of_parts(7, low)).to_vec(),
        pairs.map(both_orders).concat(),
    ]
}

/// Every number that is written down, taken or not, in the second sample.
fn at_the_limits() -> Vec<Vec<u64>> {
    let numbers = sample_numbers::written().into_iter();
    numbers.map(|number| vec![MOST_NUMBER, number]).collect()
}

/// As many bytes as the listing takes, up to a word less and a word more. The
/// very first count is beyond its range, so bytes that are taken are refused 9,
/// and too many of them 8.
pub fn about_the_most_bytes() -> impl Iterator<Item = Vec<u8>> {
    (MOST_BYTES - WORD_BYTES..=MOST_BYTES + WORD_BYTES).map(|length| {
        let mut bytes = to_bytes(&charts_counted(MOST_CHARTS as u32 + 1, &[]));
        bytes.resize(length, 0);
        bytes
    })
}

#[cfg(test)]
mod tests {
    use super::*;
    use crate::answers;
    use crate::numbers::{COUNT_WORDS, ROW_FIELDS, ROW_NUMBER_HIGH, ROW_NUMBER_LOW, ROW_WORDS};

    fn text(numbers: &[u64]) -> String {
        let bytes = to_bytes(&samples(numbers));
        String::from_utf8(answers::list(&bytes)).expect("digits")
    }

    /// The numbers that a batch's answer has in its rows, and those that its
    /// text has in the first of six fields.
    fn listed(numbers: &[u64]) -> [Vec<u64>; 2] {
        let answer = answers::batch(&samples(numbers)).expect("an answer");
        let rows = answer[COUNT_WORDS..].chunks(ROW_WORDS);
        let of_row = |row: &[u32]| of_parts(row[ROW_NUMBER_HIGH], row[ROW_NUMBER_LOW]);
        let text = text(numbers);
        let of_line = |line: &str| {
            let fields: Vec<&str> = line.split(' ').collect();
            assert_eq!(fields.len(), ROW_FIELDS, "{line}");
            fields[0].parse().expect("a number")
        };
        [
            rows.map(of_row).collect(),
            text.lines().skip(1).map(of_line).collect(),
        ]
    }

    #[test]
    fn every_count_of_digits_stands_in_rows_and_text() {
        for numbers in every_width().into_iter().chain(alike()) {
            assert_eq!(listed(&numbers), [numbers.clone(), numbers]);
        }
        let ends: Vec<u64> = (1..=MOST_DIGITS).flat_map(of_width).collect();
        let widths: Vec<usize> = text(&ends)
            .lines()
            .skip(1)
            .map(|line| line.find(' ').expect("fields"))
            .collect();
        let due: Vec<usize> = (1..=MOST_DIGITS as usize).flat_map(|n| [n, n]).collect();
        assert_eq!(widths, due);
    }

    /// The count's three digits and its line's end, then 15 digits, five times
    /// a space and a digit, and a line's end for each sample.
    #[test]
    fn the_longest_text_is_among_them() {
        let lengths = every_width()
            .into_iter()
            .map(|numbers| text(&numbers).len());
        assert_eq!(lengths.max(), Some(4 + 400 * 26));
    }

    #[test]
    fn bytes_are_refused_by_their_count_from_one_more_on() {
        let answers = about_the_most_bytes().map(|bytes| answers::list(&bytes));
        let refusals: Vec<u8> = answers.map(|text| text["refused ".len()]).collect();
        assert_eq!(refusals, *b"988898888");
    }
}
