//! The numbers of documents 01 and 02 (i) to (vi) that both sides of a row go by: where words
//! stand, how many there are and how far values reach.

// A record.
pub const NUMBER_HIGH: usize = 0;
pub const NUMBER_LOW: usize = 1;
pub const KIND: usize = 2;
pub const PH: usize = 3;
pub const CONDUCTIVITY: usize = 4;
pub const ALKALINITY: usize = 5;
pub const FIRST_READING: usize = 6;
pub const READINGS: usize = 10;
pub const READING_WORDS: usize = 2;
pub const READINGS_END: usize = FIRST_READING + READINGS * READING_WORDS;
pub const RECORD_WORDS: usize = READINGS_END;

pub const MOST_NUMBER: u64 = 999_999_999_999_999;
pub const KINDS: u32 = 6;
pub const LEAST_PH: u32 = 200;
pub const MOST_PH: u32 = 1_000;
pub const MOST_CONDUCTIVITY: u32 = 100_000;
pub const MOST_ALKALINITY: u32 = 200_000;
/// How many floors of hydrogen there are: one for each pH.
pub const FLOORS: usize = (MOST_PH - LEAST_PH + 1) as usize;
/// How many floors of powers there are: one for each thousandth that the exponent of y² may be.
pub const POWERS: usize = 200;

// Its readings: the mark and the float's bits of each, the first eight ions.
pub const MARK: usize = 0;
pub const BITS: usize = 1;
pub const NH4: usize = 0;
pub const NA: usize = 3;
pub const NO3: usize = 6;
pub const CL: usize = 7;
pub const TN: usize = 8;
pub const DOC: usize = 9;
pub const IONS: usize = 8;

/// The bits of 2^−10 and of 200 mg/L.
pub const LEAST_LIMIT: u32 = 0x3A80_0000;
pub const MOST_BITS: u32 = 0x4348_0000;
/// Amounts are in tenths of a µg/L: so many of them in a mg/L.
pub const PER_MILLIGRAM: u32 = 10_000;
/// u of charge in an amount times its factor, and in a tenth of a µeq/L.
pub const AMOUNT_CHARGE: u64 = 1_000;
pub const ALKALINITY_CHARGE: u64 = 100_000_000;
/// Runoff with less organic carbon has an ion balance.
pub const CARBON_LINE: u32 = 5 * PER_MILLIGRAM;

pub const CHECKS: usize = 4;

// A chart.
pub const CHART_ELEMENT: usize = 0;
pub const CHART_SETUP: usize = 1;
pub const CHART_LATER: usize = 2;
pub const CHART_HEAD: usize = 3;
pub const LEAST_SETUP: usize = 10;
pub const MOST_SETUP: usize = 64;
pub const MOST_LATER: usize = 64;
pub const MOST_VALUE: u32 = 2_000_000;
pub const MOST_CHART: usize = CHART_HEAD + MOST_SETUP + MOST_LATER;

// A batch and its answer.
pub const MOST_CHARTS: u32 = 10;
pub const MOST_SAMPLES: usize = 400;
pub const COUNT_WORDS: usize = 1;
/// The longest batch: each section after its count.
pub const MOST_BATCH: usize =
    2 * COUNT_WORDS + MOST_CHARTS as usize * MOST_CHART + MOST_SAMPLES * RECORD_WORDS;
/// Number, high and low, verdicts, flag.
pub const ROW_WORDS: usize = 2 + CHECKS + 1;

pub const fn answer_words(samples: usize) -> usize {
    COUNT_WORDS + samples * ROW_WORDS
}

pub const MOST_ANSWER: usize = answer_words(MOST_SAMPLES);

// A docket in the C interface: state, count, last record.
pub const DOCKET_STATE: usize = 0;
pub const DOCKET_COUNT: usize = 1;
pub const DOCKET_RECORD: usize = 2;
pub const DOCKET_WORDS: usize = DOCKET_RECORD + RECORD_WORDS;
