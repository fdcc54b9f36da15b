//! The listing program: bytes in, text out.

use crate::batch::answer;
use crate::numbers::{COUNT_WORDS, ROW_NUMBER_HIGH, ROW_NUMBER_LOW, ROW_VERDICTS, ROW_WORDS};
use crate::refusals::{refused_line, Refusal};
use crate::sample_number::of_parts;
use crate::{file, lent};

fn answer_to_bytes(bytes: &[u8]) -> Result<Vec<u32>, Refusal> {
    answer(&file::words(bytes)?)
}

/// "reads a batch as little-endian words from standard input and prints these,
/// count on the first line, a row a line, fields parted by a space; or
/// `refused N`." Every line ends with a newline.
pub fn text(bytes: &[u8]) -> String {
    match answer_to_bytes(bytes) {
        Err(refusal) => refused_line(refusal),
        Ok(words) => lines(&words),
    }
}

fn lines(words: &[u32]) -> String {
    let (count, rows) = words.split_at(COUNT_WORDS);
    let mut text = line(count);
    for row in rows.chunks(ROW_WORDS) {
        text += &line(&fields(row));
    }
    text
}

/// "The program prints the whole number as one field" (document 02 (ii)), then
/// the other words of the row.
fn fields(row: &[u32]) -> Vec<u64> {
    let number = of_parts(row[ROW_NUMBER_HIGH], row[ROW_NUMBER_LOW]);
    let others = row[ROW_VERDICTS..].iter().map(|&word| u64::from(word));
    [number].into_iter().chain(others).collect()
}

fn line(fields: &[impl ToString]) -> String {
    let fields: Vec<String> = fields.iter().map(ToString::to_string).collect();
    fields.join(" ") + "\n"
}

/// The text, into lent bytes. A refused batch is an answer, too; only a lent
/// text shorter than the answer is refused.
pub fn list(bytes: &[u8], lent: &mut [u8]) -> Result<usize, Refusal> {
    lent::write(text(bytes).as_bytes(), lent)
}

#[cfg(test)]
mod tests {
    use super::*;
    use crate::cases::batches::{batch, charts_counted, printed_with, samples_counted};
    use crate::cases::bottle::Bottle;
    use crate::cases::sample_numbers::{edge_parts, mixed};
    use crate::numbers::{
        MOST_BATCH, MOST_CHARTS, MOST_LINE, MOST_NUMBER, MOST_SAMPLES, MOST_TEXT, ROW_FIELDS,
        WORD_BYTES,
    };
    use crate::words::to_bytes;

    fn printed() -> Vec<u8> {
        to_bytes(&batch(&[], &[Bottle::printed()]))
    }

    #[test]
    fn the_printed_example() {
        assert_eq!(text(&printed()), "1\n7 1 1 1 1 0\n");
    }

    #[test]
    fn lengths_are_tested_first() {
        assert_eq!(text(&[]), "refused 8\n");
        assert_eq!(text(&[11]), "refused 8\n");
        assert_eq!(text(&to_bytes(&samples_counted(0, &[]))), "0\n");
        let mut bytes = to_bytes(&charts_counted(MOST_CHARTS + 1, &[]));
        assert_eq!(text(&bytes), "refused 9\n");
        bytes.resize(WORD_BYTES * MOST_BATCH, 0);
        assert_eq!(text(&bytes), "refused 9\n");
        bytes.resize(WORD_BYTES * (MOST_BATCH + 1), 0);
        assert_eq!(text(&bytes), "refused 8\n");
    }

    #[test]
    fn the_printed_example_begins_with_two_counts_and_a_high_word() {
        assert_eq!(
            batch(&[], &[Bottle::printed()])[..7],
            [0, 1, 0, 7, 2, 500, 150]
        );
    }

    fn text_of(bottles: &[Bottle]) -> String {
        text(&to_bytes(&batch(&[], bottles)))
    }

    #[test]
    fn the_whole_number_is_one_field() {
        for (parts, number) in [
            ((0, 1), "1"),
            ((1, 0), "4294967296"),
            ((1, 7), "4294967303"),
            ((7, 1), "30064771073"),
            ((232_830, 0), "999997235527680"),
            ((232_830, 2_764_472_319), "999999999999999"),
        ] {
            let text = text_of(&[Bottle::printed().parts(parts)]);
            assert_eq!(text, format!("1\n{number} 1 1 1 1 0\n"));
        }
    }

    #[test]
    fn every_number_is_printed_in_base_ten_or_refused() {
        for (high, low) in edge_parts() {
            let wide = u128::from(high) * 4_294_967_296 + u128::from(low);
            let expected = match wide {
                1..=999_999_999_999_999 => format!("1\n{wide} 1 1 1 1 0\n"),
                _ => "refused 2\n".to_string(),
            };
            assert_eq!(text_of(&[Bottle::printed().parts((high, low))]), expected);
        }
    }

    #[test]
    fn many_numbers_in_one_text() {
        let numbers = mixed();
        let text = text_of(&printed_with(numbers.clone()));
        let rows: Vec<&str> = text.lines().skip(1).collect();
        assert_eq!(rows.len(), numbers.len());
        for (row, number) in rows.into_iter().zip(numbers) {
            let fields: Vec<&str> = row.split(' ').collect();
            assert_eq!(fields.len(), ROW_FIELDS);
            assert_eq!(fields[0].parse(), Ok(number));
        }
    }

    #[test]
    fn the_longest_text() {
        let longest = text_of(&[Bottle::printed().number(MOST_NUMBER)]);
        assert_eq!(longest.lines().last().map(str::len), Some(MOST_LINE - 1));
        let samples = vec![Bottle::printed().number(MOST_NUMBER); MOST_SAMPLES as usize];
        assert_eq!(text(&to_bytes(&batch(&[], &samples))).len(), MOST_TEXT);
    }

    #[test]
    fn the_lent_text() {
        let answer = "1\n7 1 1 1 1 0\n";
        let before = vec![b'~'; answer.len() + 2];
        let mut lent = before.clone();
        let short = &mut lent[..answer.len() - 1];
        assert_eq!(list(&printed(), short), Err(13));
        assert_eq!(lent, before);
        assert_eq!(list(&printed(), &mut lent), Ok(answer.len()));
        assert_eq!(lent, format!("{answer}~~").as_bytes());
    }
}
