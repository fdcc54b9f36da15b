//! The numbers of documents 01 and 02 (i), (ii), (v) and (vi) in one place: where
//! words stand, how many there are and how far values reach; 02 (iii), (iv) and
//! (vii) bring no new ones. What follows from others is worked out from them. A
//! comment quotes document 01 unless it names a request of 02.

use std::ops::RangeInclusive;

/// "Words of 32 bits" have four bytes.
pub const WORD_BYTES: usize = 4;

// "A record"

/// The places of the sample number's two words: "Word 0 becomes the high part,
/// a new word 1 the low part" (02 (ii)).
pub const NUMBER_HIGH: usize = 0;
pub const NUMBER_LOW: usize = 1;
/// The places of the words after these, in the order "kind .., pH in hundredths
/// .., measured conductivity .., alkalinity": "later ones moved by one"
/// (02 (ii)).
pub const KIND: usize = 2;
pub const PH: usize = 3;
pub const CONDUCTIVITY: usize = 4;
pub const ALKALINITY: usize = 5;
/// "ten readings of two words", moved by one as well.
pub const FIRST_READING: usize = 6;
pub const READINGS: usize = 10;
pub const READING_WORDS: usize = 2;
pub const READINGS_END: usize = FIRST_READING + READINGS * READING_WORDS;
/// "A record has 26 words" (02 (ii)), "lent as a slice of words".
pub const RECORD_WORDS: usize = READINGS_END;

/// "number = high × 2^32 + low" (02 (ii)): how many values a word has.
pub const WORD_VALUES: u64 = 1 << 32;
/// The number: "from 1 to 10^15 − 1" (02 (ii)).
pub const MOST_NUMBER: u64 = 999_999_999_999_999;
/// "Bottle numbers now have up to 15 digits" (02 (ii)).
pub const NUMBER_DIGITS: usize = digits(MOST_NUMBER);
/// The kind: "1 wet-only, 2 bulk open field, 3 throughfall, 4 stemflow, 5 runoff,
/// 6 soil water".
pub const WET_ONLY: u32 = 1;
pub const BULK: u32 = 2;
pub const THROUGHFALL: u32 = 3;
pub const STEMFLOW: u32 = 4;
pub const RUNOFF: u32 = 5;
pub const SOIL_WATER: u32 = 6;
pub const KINDS: RangeInclusive<u32> = WET_ONLY..=SOIL_WATER;
/// pH: "200 to 1,000".
pub const LEAST_PH: u32 = 200;
pub const MOST_PH: u32 = 1_000;
/// Conductivity: "1 to 100,000".
pub const MOST_CONDUCTIVITY: u32 = 100_000;
/// Alkalinity: "0 to 200,000".
pub const MOST_ALKALINITY: u32 = 200_000;

// "A reading"

/// The places of the ten readings, "in the order NH4-N, Ca, Mg, Na, K, SO4-S,
/// NO3-N, Cl, total nitrogen (TN), dissolved organic carbon (DOC)".
pub const AMMONIUM: usize = 0;
pub const CALCIUM: usize = 1;
pub const MAGNESIUM: usize = 2;
pub const SODIUM: usize = 3;
pub const POTASSIUM: usize = 4;
pub const SULPHATE: usize = 5;
pub const NITRATE: usize = 6;
pub const CHLORIDE: usize = 7;
pub const TOTAL_NITROGEN: usize = 8;
pub const ORGANIC_CARBON: usize = 9;
/// The eight ions are the first eight readings.
pub const IONS: usize = 8;

/// "A mark and the bits of an f32": where they stand in a reading.
pub const MARK: usize = 0;
pub const BITS: usize = 1;

/// Where the mark of a reading stands in a record.
pub const fn mark_of(place: usize) -> usize {
    FIRST_READING + READING_WORDS * place + MARK
}

/// Where the bits of a reading stand in a record.
pub const fn bits_of(place: usize) -> usize {
    FIRST_READING + READING_WORDS * place + BITS
}

/// "from 0 to 200" mg/L, and the bits of that float.
pub const MOST_MILLIGRAMS: u32 = 200;
pub const MOST_BITS: u32 = 0x4348_0000;
/// The bits of the least limit, "2^−10 (0x3A800000)".
pub const LEAST_LIMIT_BITS: u32 = 0x3A80_0000;
/// "Amounts become tenths of a µg/L .., so 1/16 mg/L gives 625" (02 (i)): the
/// amount is 10,000 times the exact value of the float.
pub const PER_MILLIGRAM: u32 = 10_000;
pub const MOST_AMOUNT: u32 = MOST_MILLIGRAMS * PER_MILLIGRAM;
/// "A below reading counts as half its limit." Half of the least limit is
/// 2^−11 mg/L, and its amount the nearest whole number.
pub const LEAST_BELOW: u32 = (PER_MILLIGRAM + (1 << 10)) >> 11;
pub const MOST_BELOW: u32 = MOST_AMOUNT / 2;
/// "Every fraction from 0 to its limit's amount" (02 (vi)): that of the least
/// limit, 2^−10 mg/L, is the nearest whole number. Of the greatest it is
/// `MOST_AMOUNT`.
pub const LEAST_LIMIT: u32 = (PER_MILLIGRAM + (1 << 9)) >> 10;

// "Charge and conductance" and "The four checks"

/// "An ion's charge is then amount × f × 10^3 u" (02 (i)).
pub const AMOUNT_CHARGE: i128 = 1_000;
/// "Alkalinity, t tenths of a µeq/L, has t × 10^8 u."
pub const ALKALINITY_CHARGE: i128 = 100_000_000;
/// A tenth of a µS/cm in units of 10^−13 µS/cm.
pub const CONDUCTIVITY_TENTH: i128 = 1_000_000_000_000;

/// "The unit u is 10^−9 µeq/L": so many are an equivalent per litre, in which
/// 02 (v) has ionic strength.
pub const EQUIVALENT: i128 = 1_000_000_000_000_000;
/// s is a "multiple of 10^−6" (02 (v)): so many of these are 1.
pub const ROOT_STEPS: i128 = 1_000_000;
/// e is a whole number of "thousandths" (02 (v)): so many of these are 1.
pub const THOUSANDTHS: u32 = 1_000;
/// "10^9 y² lies between" whole numbers (02 (v)): the exponent, and the power.
pub const SQUARE_EXPONENT: u32 = 9;
pub const SQUARE_UNIT: i128 = 10i128.pow(SQUARE_EXPONENT);

/// The four checks and the places of their verdicts.
pub const CHECKS: usize = 4;
pub const BALANCE_CHECK: usize = 0;
pub const CONDUCTIVITY_CHECK: usize = 1;
pub const RATIO_CHECK: usize = 2;
pub const NITROGEN_CHECK: usize = 3;

/// "The DOC line at 5 mg/L is 50,000" (02 (i)).
pub const CARBON_LINE: u32 = 5 * PER_MILLIGRAM;

// "Charts"

/// "10 to 64 setup values, then 0 to 64 later ones"
pub const LEAST_SETUP: usize = 10;
pub const MOST_SETUP: usize = 64;
pub const MOST_LATER: usize = 64;
/// "Chart values are in tenths too, 0 to 2,000,000" (02 (i)).
pub const MOST_VALUE: u32 = 2_000_000;

// "A batch"

/// A section begins with its count, and so does an answer.
pub const COUNT_WORDS: usize = 1;
/// "charts (0 to 10: element .., setup count, later count, values)"
pub const MOST_CHARTS: u32 = 10;
pub const CHART_ELEMENT: usize = 0;
pub const CHART_SETUP: usize = 1;
pub const CHART_LATER: usize = 2;
pub const CHART_HEAD: usize = 3;
pub const MOST_CHART_WORDS: usize = CHART_HEAD + MOST_SETUP + MOST_LATER;
/// "element 1 to 10 in reading order"
pub const ELEMENTS: RangeInclusive<u32> = 1..=READINGS as u32;
/// "then samples (0 to 400 records)"
pub const MOST_SAMPLES: u32 = 400;

/// The place of the reading that an element of `ELEMENTS` names.
pub const fn reading_of(element: u32) -> usize {
    element as usize - 1
}

/// "Output rows have seven words, high and low first" (02 (ii)), then "four
/// verdicts in the order above, and 1 if".
pub const ROW_NUMBER_HIGH: usize = 0;
pub const ROW_NUMBER_LOW: usize = 1;
pub const ROW_VERDICTS: usize = 2;
pub const ROW_FLAG: usize = ROW_VERDICTS + CHECKS;
pub const ROW_WORDS: usize = ROW_FLAG + 1;
/// "The program prints the whole number as one field" (02 (ii)), and every other
/// word of a row as one.
pub const ROW_FIELDS: usize = 1 + (ROW_WORDS - ROW_VERDICTS);

/// "The output is the sample count, then" a row for each sample.
pub const fn answer_words(samples: usize) -> usize {
    COUNT_WORDS + samples * ROW_WORDS
}

/// The longest answer.
pub const MOST_ANSWER: usize = answer_words(MOST_SAMPLES as usize);

/// The longest batch, in words.
pub const MOST_BATCH: usize = COUNT_WORDS
    + MOST_CHARTS as usize * MOST_CHART_WORDS
    + COUNT_WORDS
    + MOST_SAMPLES as usize * RECORD_WORDS;
/// "the limit on input bytes becomes 46,848" (02 (ii)): as many as the longest
/// batch has.
pub const MOST_BYTES: usize = WORD_BYTES * MOST_BATCH;

/// How many digits a number above 0 has.
const fn digits(number: u64) -> usize {
    number.ilog10() as usize + 1
}

/// The longest line of a row: the number's digits, a space and a digit for each
/// other field, a newline.
pub const MOST_LINE: usize = NUMBER_DIGITS + 2 * (ROW_FIELDS - 1) + 1;

/// The longest text with so many samples, at least one: the line of their
/// count, then the rows.
pub const fn text_bytes(samples: usize) -> usize {
    digits(samples as u64) + 1 + samples * MOST_LINE
}

/// The longest text.
pub const MOST_TEXT: usize = text_bytes(MOST_SAMPLES as usize);

// The program `replay`

/// The most words of a case; beyond these it is malformed.
pub const REPLAY_WORDS: usize = 1_024;
/// The most samples that a case has words for beside two words of its own, as a
/// listing has, and a batch's two counts.
pub const REPLAY_SAMPLES: usize = (REPLAY_WORDS - 2 - 2 * COUNT_WORDS) / RECORD_WORDS;
/// The most words, and the most bytes of text or of a file, that a case may lend:
/// enough for the answer to as many samples as it has words for, but not for
/// every joined batch.
pub const REPLAY_ROOM: u32 = 320;
pub const REPLAY_TEXT: u32 = 1_024;
/// The most bytes that the two files of a case may have together: those of as
/// many words as a case may have.
pub const REPLAY_BYTES: usize = WORD_BYTES * REPLAY_WORDS;

#[cfg(test)]
mod tests {
    use super::*;

    #[test]
    fn what_is_worked_out_is_what_the_documents_print() {
        assert_eq!(RECORD_WORDS, 26);
        assert_eq!((MOST_NUMBER, NUMBER_DIGITS), (10u64.pow(15) - 1, 15));
        assert_eq!(WORD_VALUES, 2u64.pow(32));
        assert_eq!((CARBON_LINE, MOST_AMOUNT), (50_000, 2_000_000));
        // Half of the least limit is 4.8828125 tenths of a µg/L.
        assert_eq!((LEAST_BELOW, MOST_BELOW), (5, 1_000_000));
        // The least limit itself is 9.765625 of them.
        assert_eq!(LEAST_LIMIT, 10);
        assert_eq!(f32::from_bits(MOST_BITS), MOST_MILLIGRAMS as f32);
        assert_eq!(f32::from_bits(LEAST_LIMIT_BITS), 2f32.powi(-10));
        assert_eq!((ROW_WORDS, ROW_FIELDS), (7, 6));
        assert_eq!(MOST_BYTES, 46_848);
    }

    #[test]
    fn the_longest_line_has_fifteen_digits() {
        let line = "999999999999999 1 1 1 1 0\n";
        assert_eq!(MOST_LINE, line.len());
        assert_eq!(MOST_TEXT, "400\n".len() + 400 * line.len());
    }

    #[test]
    fn a_case_lends_enough_for_its_samples() {
        assert_eq!((REPLAY_SAMPLES, REPLAY_BYTES), (39, 4_096));
        assert_eq!(answer_words(REPLAY_SAMPLES), 274);
        assert!(answer_words(REPLAY_SAMPLES) <= REPLAY_ROOM as usize);
        assert!(text_bytes(REPLAY_SAMPLES) <= REPLAY_TEXT as usize);
    }

    #[test]
    fn readings_fill_their_words() {
        assert_eq!((mark_of(AMMONIUM), bits_of(AMMONIUM)), (6, 7));
        assert_eq!(mark_of(READINGS), READINGS_END);
        assert_eq!(bits_of(ORGANIC_CARBON), 25);
        assert_eq!(ELEMENTS.map(reading_of).max(), Some(ORGANIC_CARBON));
    }
}
