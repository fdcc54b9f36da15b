//! "Refusals that come from the input" and "Refusals that come from the state",
//! and the two "Checks" of document 02 (iii).

/// "A refusal returns its number, nothing else changes."
pub type Refusal = u32;

/// "1 record not" 26 "words": "Refusals 1, 2 and 12 read accordingly"
/// (document 02 (ii)).
pub const RECORD_LENGTH: Refusal = 1;
/// "2 sample number", the whole one.
pub const SAMPLE_NUMBER: Refusal = 2;
/// "3 kind."
pub const KIND: Refusal = 3;
/// "4 pH."
pub const PH: Refusal = 4;
/// "5 conductivity."
pub const CONDUCTIVITY: Refusal = 5;
/// "6 alkalinity."
pub const ALKALINITY: Refusal = 6;
/// "7 a reading's mark or value."
pub const READING: Refusal = 7;
/// "8 a batch ends early or has words left over."
pub const BATCH_LENGTH: Refusal = 8;
/// "9 a count beyond its range."
pub const COUNT: Refusal = 9;
/// "10 a chart's element out of range or repeated, or a value out of range."
pub const CHART: Refusal = 10;
/// "11 docket closed, or one of the open ones named above that no offers produce."
pub const DOCKET: Refusal = 11;
/// "12 the count is 1 or 2 and number or kind differs from the record held",
/// the whole number.
pub const OTHER_SAMPLE: Refusal = 12;
/// "13 output shorter than the answer."
pub const OUTPUT: Refusal = 13;

/// "14 setup values differ" (document 02 (iii)): also where their number or their
/// order does.
pub const SETUP_DIFFERS: Refusal = 14;
/// "15 joined counts exceed 01's ranges" (document 02 (iii)).
pub const JOINED_COUNT: Refusal = 15;

/// All fifteen in the order in which documents 01 and 02 (iii) name them.
pub const ALL: [Refusal; 15] = [
    RECORD_LENGTH,
    SAMPLE_NUMBER,
    KIND,
    PH,
    CONDUCTIVITY,
    ALKALINITY,
    READING,
    BATCH_LENGTH,
    COUNT,
    CHART,
    DOCKET,
    OTHER_SAMPLE,
    OUTPUT,
    SETUP_DIFFERS,
    JOINED_COUNT,
];

/// Refuses with `refusal` unless the condition is met.
pub fn require(condition: bool, refusal: Refusal) -> Result<(), Refusal> {
    if condition {
        Ok(())
    } else {
        Err(refusal)
    }
}

/// What a program prints in place of an answer: "or `refused N`", as a line.
pub fn refused_line(refusal: Refusal) -> String {
    format!("refused {refusal}\n")
}
