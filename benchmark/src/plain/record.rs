//! A record: its fields, its own tests, and its readings as amounts.
//!
//! A reading below its limit is one amount, that of half the limit, where records
//! are compared and where carbon is asked for; the checks take it as a range.

use super::Refusal;
use crate::numbers::{
    ALKALINITY, BITS, CONDUCTIVITY, FIRST_READING, IONS, KIND, KINDS, LEAST_LIMIT, LEAST_PH, MARK,
    MOST_ALKALINITY, MOST_BITS, MOST_CONDUCTIVITY, MOST_NUMBER, MOST_PH, NUMBER_HIGH, NUMBER_LOW,
    PER_MILLIGRAM, PH, READINGS, READINGS_END, READING_WORDS, RECORD_WORDS,
};

/// A record that passed its tests.
pub struct Record {
    pub number: u64,
    pub kind: u32,
    pub p: u32,
    pub conductivity: u64,
    pub alkalinity: u64,
    /// Tenths of a µg/L, or nothing where the reading is missing.
    pub amounts: [Option<u32>; READINGS],
    /// The least and the greatest amount that each reading stands for, 0 where it
    /// is missing.
    pub least: [u32; READINGS],
    pub greatest: [u32; READINGS],
}

/// The amount of so many mg/L, to the nearest.
fn rounded(milligrams: f64) -> u32 {
    (milligrams * f64::from(PER_MILLIGRAM) + 0.5) as u32
}

/// The amount of a reading, and the least and the greatest that it stands for.
fn amount(mark: u32, bits: u32) -> Result<(Option<u32>, u32, u32), Refusal> {
    let value = f64::from(f32::from_bits(bits));
    match mark {
        0 if bits == 0 => Ok((None, 0, 0)),
        1 if bits <= MOST_BITS => {
            let amount = rounded(value);
            Ok((Some(amount), amount, amount))
        }
        2 if (LEAST_LIMIT..=MOST_BITS).contains(&bits) => {
            Ok((Some(rounded(value / 2.0)), 0, rounded(value)))
        }
        _ => Err(7),
    }
}

fn within(x: u32, least: u32, most: u32, refusal: Refusal) -> Result<u32, Refusal> {
    if (least..=most).contains(&x) {
        Ok(x)
    } else {
        Err(refusal)
    }
}

impl Record {
    pub fn read(words: &[u32]) -> Result<Record, Refusal> {
        let words: &[u32; RECORD_WORDS] = words.try_into().map_err(|_| 1u32)?;
        let number = u64::from(words[NUMBER_HIGH]) << 32 | u64::from(words[NUMBER_LOW]);
        if !(1..=MOST_NUMBER).contains(&number) {
            return Err(2);
        }
        let kind = within(words[KIND], 1, KINDS, 3)?;
        let p = within(words[PH], LEAST_PH, MOST_PH, 4)?;
        let conductivity = u64::from(within(words[CONDUCTIVITY], 1, MOST_CONDUCTIVITY, 5)?);
        let alkalinity = u64::from(within(words[ALKALINITY], 0, MOST_ALKALINITY, 6)?);
        let mut amounts = [None; READINGS];
        let (mut least, mut greatest) = ([0; READINGS], [0; READINGS]);
        let readings = words[FIRST_READING..READINGS_END].chunks_exact(READING_WORDS);
        for (i, pair) in readings.enumerate() {
            (amounts[i], least[i], greatest[i]) = amount(pair[MARK], pair[BITS])?;
        }
        Ok(Record {
            number,
            kind,
            p,
            conductivity,
            alkalinity,
            amounts,
            least,
            greatest,
        })
    }

    pub fn has_all_ions(&self) -> bool {
        self.amounts[..IONS].iter().all(Option::is_some)
    }
}
