//! The numbers that draws and comparisons go by. Where words stand is the other
//! implementation's to say, as its bottles and batches are what is drawn; how
//! far values reach is said here once more, by document 01 and by document 02:
//! request (i) for amounts and chart values, request (ii) for sample numbers,
//! request (iii) for joins, request (vi) for the ends of ranges.

// Some of these are for the faults or for tests alone.
#[allow(unused_imports)]
pub use reference::numbers::{
    answer_words, bits_of, mark_of, ALKALINITY, AMMONIUM, AMOUNT_CHARGE, BALANCE_CHECK, BITS, BULK,
    CALCIUM, CHART_ELEMENT, CHART_HEAD, CHART_LATER, CHART_SETUP, CHECKS, CHLORIDE, CONDUCTIVITY,
    CONDUCTIVITY_CHECK, CONDUCTIVITY_TENTH, COUNT_WORDS, FIRST_READING, IONS, KIND,
    LEAST_LIMIT_BITS, MAGNESIUM, MOST_BATCH, MOST_BITS, MOST_BYTES, NITRATE, NITROGEN_CHECK,
    NUMBER_HIGH, NUMBER_LOW, ORGANIC_CARBON, PH, POTASSIUM, RATIO_CHECK, READINGS, READINGS_END,
    READING_WORDS, RECORD_WORDS, ROOT_STEPS, ROW_FIELDS, ROW_FLAG, ROW_NUMBER_HIGH, ROW_NUMBER_LOW,
    ROW_WORDS, RUNOFF, SODIUM, SOIL_WATER, SQUARE_UNIT, STEMFLOW, SULPHATE, THOUSANDTHS,
    TOTAL_NITROGEN, WET_ONLY, WORD_BYTES,
};
#[allow(unused_imports)]
pub use reference::sample_number::{of_parts, parts_of};
use std::ops::Range;

/// "Bottle numbers now have up to 15 digits."
pub const MOST_DIGITS: u32 = 15;
/// "number = high × 2^32 + low, from 1 to 10^15 − 1"
pub const MOST_NUMBER: u64 = 999_999_999_999_999;
/// "pH in hundredths, called p, 200 to 1,000"
pub const LEAST_PH: u32 = 200;
pub const MOST_PH: u32 = 1_000;
/// "measured conductivity in tenths of µS/cm, 1 to 100,000"
pub const MOST_CONDUCTIVITY: u32 = 100_000;
/// "alkalinity in tenths of µeq/L, 0 to 200,000"
pub const MOST_ALKALINITY: u32 = 200_000;

/// The two words that make the number. Neither has a range of its own: which
/// values of one are taken hangs on the other.
pub const NUMBER_WORDS: Range<usize> = NUMBER_HIGH..NUMBER_LOW + 1;

/// The words between the number and the readings, each a field of its own with
/// its least and its greatest value.
pub const RANGES: [(usize, u32, u32); 4] = [
    (KIND, WET_ONLY, SOIL_WATER),
    (PH, LEAST_PH, MOST_PH),
    (CONDUCTIVITY, 1, MOST_CONDUCTIVITY),
    (ALKALINITY, 0, MOST_ALKALINITY),
];

/// "Amounts become tenths of a µg/L": 10,000 to a mg/L.
pub const PER_MILLIGRAM: u32 = 10_000;
/// 200 mg/L in tenths of a µg/L, and half of that for a limit.
pub const MOST_AMOUNT: u32 = 2_000_000;
pub const MOST_BELOW: u32 = MOST_AMOUNT / 2;
/// Half the least limit is 2^−11 mg/L, 4.88 tenths of a µg/L: no reading below
/// its limit has an amount of 4 or less.
pub const LEAST_BELOW: u32 = 5;
/// "Every fraction from 0 to its limit's amount": that of the least limit is 9.77
/// tenths of a µg/L before rounding. Of the greatest it is `MOST_AMOUNT`.
pub const LEAST_LIMIT: u32 = 10;
/// "At a few µg/L": what is drawn as a trace is at most 30.0 µg/L.
pub const MOST_TRACE: u32 = 300;
/// "The DOC line at 5 mg/L is 50,000."
pub const CARBON_LINE: u32 = 50_000;

/// "10 to 64 setup values, then 0 to 64 later ones"
pub const LEAST_SETUP: usize = 10;
pub const MOST_SETUP: usize = 64;
pub const MOST_LATER: usize = 64;
/// "Chart values are in tenths too, 0 to 2,000,000."
pub const MOST_VALUE: u32 = 2_000_000;

/// "charts (0 to 10: element 1 to 10 in reading order"
pub const MOST_CHARTS: usize = 10;
pub const MOST_ELEMENT: u32 = 10;
/// "then samples (0 to 400 records)"
pub const MOST_SAMPLES: u32 = 400;
/// Where the charts' count stands in a batch, and the first chart.
pub const CHART_COUNT: usize = 0;
pub const FIRST_CHART: usize = CHART_COUNT + COUNT_WORDS;

/// "14 setup values differ; 15 joined counts exceed 01's ranges": for the
/// faults and for tests alone.
#[cfg(any(test, feature = "stand-in"))]
pub const SETUP_DIFFERS: u32 = 14;
#[cfg(any(test, feature = "stand-in"))]
pub const JOINED_COUNT: u32 = 15;

/// A docket's words in the C interface: state, count, last record.
pub const DOCKET_STATE: usize = 0;
pub const DOCKET_COUNT: usize = 1;
pub const DOCKET_RECORD: usize = 2;
pub const DOCKET_WORDS: usize = DOCKET_RECORD + RECORD_WORDS;

/// The longest slices lent for a docket and for a reading, and the longest
/// offered as a record.
pub const MOST_DOCKET_ROOM: usize = DOCKET_WORDS + 3;
pub const MOST_READING_ROOM: usize = READING_WORDS + 2;
pub const LONGEST_RECORD: usize = 2 * RECORD_WORDS + 10;
/// How many canaries stand on each side of a lent slice: more than an answer
/// could run over by one row and by one record, and a text by one line.
pub const MARGIN: usize = RECORD_WORDS + ROW_WORDS + 1;

#[cfg(test)]
mod tests {
    use super::*;
    use reference::ranges::Range;
    use reference::readings::Reading;
    use reference::{numbers, refusals};

    /// A limit that was changed in one place alone.
    #[test]
    fn the_other_implementation_says_the_same() {
        assert_eq!(MOST_NUMBER, numbers::MOST_NUMBER);
        for (here, there) in [
            (LEAST_PH, numbers::LEAST_PH),
            (MOST_PH, numbers::MOST_PH),
            (MOST_CONDUCTIVITY, numbers::MOST_CONDUCTIVITY),
            (MOST_ALKALINITY, numbers::MOST_ALKALINITY),
            (PER_MILLIGRAM, numbers::PER_MILLIGRAM),
            (MOST_AMOUNT, numbers::MOST_AMOUNT),
            (CARBON_LINE, numbers::CARBON_LINE),
            (MOST_VALUE, numbers::MOST_VALUE),
            (MOST_CHARTS as u32, numbers::MOST_CHARTS),
            (MOST_ELEMENT, *numbers::ELEMENTS.end()),
            (LEAST_SETUP as u32, numbers::LEAST_SETUP as u32),
            (MOST_SETUP as u32, numbers::MOST_SETUP as u32),
            (MOST_LATER as u32, numbers::MOST_LATER as u32),
            (MOST_SAMPLES, numbers::MOST_SAMPLES),
            (SETUP_DIFFERS, refusals::SETUP_DIFFERS),
            (JOINED_COUNT, refusals::JOINED_COUNT),
        ] {
            assert_eq!(here, there);
        }
    }

    #[test]
    fn the_ends_of_all_limits_have_these_amounts() {
        for (limit, amount) in [(LEAST_LIMIT_BITS, LEAST_BELOW), (MOST_BITS, MOST_BELOW)] {
            let below = Reading::below(limit).map(Reading::amount);
            assert_eq!(below, Ok(Some(amount)));
        }
        for (limit, amount) in [(LEAST_LIMIT_BITS, LEAST_LIMIT), (MOST_BITS, MOST_AMOUNT)] {
            let below = Reading::below(limit).map(Reading::range);
            assert_eq!(below, Ok(Some(Range::up_to(amount))));
        }
        assert_eq!(LEAST_LIMIT, numbers::LEAST_LIMIT);
    }

    #[test]
    fn every_word_before_the_readings_is_the_number_s_or_has_its_range() {
        let fields = RANGES.into_iter().map(|(place, _, _)| place);
        let places: Vec<usize> = NUMBER_WORDS.chain(fields).collect();
        assert_eq!(places, (0..FIRST_READING).collect::<Vec<_>>());
    }

    /// "Word 0 becomes the high part, a new word 1 the low part."
    #[test]
    fn a_number_is_high_times_two_to_the_32_and_low() {
        assert_eq!(NUMBER_WORDS, 0..2);
        assert_eq!((ROW_NUMBER_HIGH, ROW_NUMBER_LOW), (0, 1));
        for (high, low) in [(0, 0), (0, u32::MAX), (1, 0), (7, 9), (u32::MAX, u32::MAX)] {
            let number = u128::from(high) * (1 << 32) + u128::from(low);
            assert_eq!(u128::from(of_parts(high, low)), number);
            assert_eq!(parts_of(of_parts(high, low)), (high, low));
        }
        assert_eq!(MOST_NUMBER, 10u64.pow(MOST_DIGITS) - 1);
    }

    /// What the document prints of lengths, and what follows from it: 26 words,
    /// seven words a row and the number in one field of its line, 46,848 bytes.
    #[test]
    fn lengths_are_the_document_s() {
        assert_eq!((RECORD_WORDS, DOCKET_WORDS), (26, 2 + 26));
        assert_eq!((ROW_WORDS, ROW_FIELDS), (7, 6));
        assert_eq!([0, 1, 400].map(answer_words), [1, 8, 2_801]);
        assert_eq!((MOST_BYTES, WORD_BYTES * MOST_BATCH), (46_848, 46_848));
        // The number's digits, a space and a digit for each other field, and
        // the line's end.
        let longest_line = MOST_DIGITS as usize + 2 * (ROW_FIELDS - 1) + 1;
        assert!(MARGIN > longest_line);
    }
}
