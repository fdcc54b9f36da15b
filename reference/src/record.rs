//! "A record": its words and their tests.

use crate::hydrogen::Ph;
use crate::numbers::{
    bits_of, mark_of, reading_of, ALKALINITY, CONDUCTIVITY, ELEMENTS, IONS, KIND, KINDS,
    MOST_ALKALINITY, MOST_CONDUCTIVITY, MOST_NUMBER, NUMBER_HIGH, NUMBER_LOW, PH, READINGS,
    RECORD_WORDS,
};
use crate::ranges::{Ends, Range};
use crate::readings::Reading;
use crate::refusals::{self, require, Refusal};
use crate::sample_number::of_parts;

/// A record that its own tests let pass.
#[derive(Clone, Debug, PartialEq, Eq)]
pub struct Record {
    pub words: [u32; RECORD_WORDS],
    /// The whole number, of both its words.
    pub number: u64,
    pub kind: u32,
    pub ph: Ph,
    /// In tenths of µS/cm.
    pub conductivity: u32,
    /// In tenths of µeq/L.
    pub alkalinity: u32,
    pub readings: [Reading; READINGS],
}

impl Record {
    /// "A record alone is tested 1 to 7."
    pub fn read(slice: &[u32]) -> Result<Record, Refusal> {
        let words: [u32; RECORD_WORDS] = slice.try_into().map_err(|_| refusals::RECORD_LENGTH)?;
        let number = of_parts(words[NUMBER_HIGH], words[NUMBER_LOW]);
        require((1..=MOST_NUMBER).contains(&number), refusals::SAMPLE_NUMBER)?;
        let kind = words[KIND];
        require(KINDS.contains(&kind), refusals::KIND)?;
        let ph = Ph::new(words[PH])?;
        let conductivity = words[CONDUCTIVITY];
        require(
            (1..=MOST_CONDUCTIVITY).contains(&conductivity),
            refusals::CONDUCTIVITY,
        )?;
        let alkalinity = words[ALKALINITY];
        require(alkalinity <= MOST_ALKALINITY, refusals::ALKALINITY)?;
        let readings = read_readings(&words)?;
        Ok(Record {
            words,
            number,
            kind,
            ph,
            conductivity,
            alkalinity,
            readings,
        })
    }

    /// The amount of a reading in tenths of a µg/L, half its limit's where it is
    /// below, or nothing where it is missing.
    pub fn amount(&self, place: usize) -> Option<u32> {
        self.readings[place].amount()
    }

    /// The amounts of the eight ions, or nothing where any of them is missing.
    pub fn ion_amounts(&self) -> Option<[u32; IONS]> {
        let mut amounts = [0; IONS];
        for (ion, amount) in amounts.iter_mut().enumerate() {
            *amount = self.amount(ion)?;
        }
        Some(amounts)
    }

    /// The amounts that a reading stands for, or nothing where it is missing.
    pub fn range(&self, place: usize) -> Option<Range> {
        self.readings[place].range()
    }

    /// The eight ions with the least amount of each and with the greatest of
    /// each, or nothing where any of them is missing.
    pub fn ion_ranges(&self) -> Option<Ends<[u32; IONS]>> {
        let mut ends = Ends {
            least: [0; IONS],
            greatest: [0; IONS],
        };
        for ion in 0..IONS {
            let range = self.range(ion)?;
            ends.least[ion] = range.least;
            ends.greatest[ion] = range.greatest;
        }
        Some(ends)
    }
}

fn read_readings(words: &[u32; RECORD_WORDS]) -> Result<[Reading; READINGS], Refusal> {
    let mut readings = [Reading::Missing; READINGS];
    for (place, reading) in readings.iter_mut().enumerate() {
        *reading = Reading::from_words(words[mark_of(place)], words[bits_of(place)])?;
    }
    Ok(readings)
}

/// Whether the slice is a record, the element in its range, and that reading of
/// it not missing.
pub fn is_present(slice: &[u32], element: u32) -> bool {
    let has_reading = |record: Record| !record.readings[reading_of(element)].is_missing();
    ELEMENTS.contains(&element) && Record::read(slice).is_ok_and(has_reading)
}

/// What refusal 12 compares: whether both slices are records, with the same
/// whole number and the same kind.
pub fn is_same_sample(first: &[u32], second: &[u32]) -> bool {
    match (Record::read(first), Record::read(second)) {
        (Ok(first), Ok(second)) => first.number == second.number && first.kind == second.kind,
        _ => false,
    }
}

#[cfg(test)]
mod tests {
    use super::*;
    use crate::cases::bottle::Bottle;
    use crate::cases::sample_numbers::{edge_parts, others, Parts, ORDERED, REFUSED, TOO_HIGH};
    use crate::numbers::{AMMONIUM, LEAST_PH, MOST_PH, SOIL_WATER, STEMFLOW, WET_ONLY};

    /// One fault for each refusal of a record: the word and what it becomes.
    const FAULTS: [(usize, u32, Refusal); 6] = [
        (NUMBER_HIGH, TOO_HIGH, 2),
        (KIND, SOIL_WATER + 1, 3),
        (PH, LEAST_PH - 1, 4),
        (CONDUCTIVITY, 0, 5),
        (ALKALINITY, MOST_ALKALINITY + 1, 6),
        (mark_of(AMMONIUM), 3, 7),
    ];

    #[test]
    fn the_printed_sample_is_a_record() {
        assert!(Record::read(Bottle::printed().words()).is_ok());
    }

    #[test]
    fn the_first_fault_in_order_is_answered() {
        for (first, value, refusal) in FAULTS {
            for (second, other_value, other_refusal) in FAULTS {
                let mut words = Bottle::printed().words().to_vec();
                words[first] = value;
                words[second] = other_value;
                let answer = Record::read(&words).map(|_| ());
                assert_eq!(answer, Err(refusal.min(other_refusal)));
                words.pop();
                assert_eq!(Record::read(&words).map(|_| ()), Err(1));
            }
        }
    }

    #[test]
    fn ends_of_the_ranges_are_taken() {
        for (word, least, greatest) in [
            (KIND, WET_ONLY, SOIL_WATER),
            (PH, LEAST_PH, MOST_PH),
            (CONDUCTIVITY, 1, MOST_CONDUCTIVITY),
            (ALKALINITY, 0, MOST_ALKALINITY),
        ] {
            for value in [least, greatest] {
                let mut words = Bottle::printed().words().to_vec();
                words[word] = value;
                assert!(Record::read(&words).is_ok());
            }
        }
    }

    fn number_of(parts: Parts) -> Result<u64, Refusal> {
        Record::read(Bottle::printed().parts(parts).words()).map(|record| record.number)
    }

    #[test]
    fn the_ends_of_the_numbers() {
        assert_eq!(number_of((0, 0)), Err(2));
        assert_eq!(number_of((0, 1)), Ok(1));
        assert_eq!(number_of((0, u32::MAX)), Ok(4_294_967_295));
        assert_eq!(number_of((1, 0)), Ok(4_294_967_296));
        assert_eq!(number_of((232_829, u32::MAX)), Ok(999_997_235_527_679));
        assert_eq!(number_of((232_830, 0)), Ok(999_997_235_527_680));
        assert_eq!(number_of((232_830, 2_764_472_319)), Ok(MOST_NUMBER));
        assert_eq!(number_of((232_830, 2_764_472_320)), Err(2));
        assert_eq!(number_of((232_831, 0)), Err(2));
        assert_eq!(number_of((u32::MAX, u32::MAX)), Err(2));
    }

    #[test]
    fn a_pair_of_words_is_tested_by_the_number_it_makes() {
        for (high, low) in edge_parts() {
            let wide = u128::from(high) * 4_294_967_296 + u128::from(low);
            let taken = (1..1_000_000_000_000_000).contains(&wide);
            let expected = if taken { Ok(wide as u64) } else { Err(2) };
            assert_eq!(number_of((high, low)), expected);
        }
    }

    #[test]
    fn the_number_comes_after_the_length_and_before_the_kind() {
        for parts in REFUSED {
            let bottle = Bottle::printed().parts(parts).kind(0);
            let answer = |words: &[u32]| Record::read(words).map(|_| ());
            assert_eq!(answer(bottle.words()), Err(2));
            assert_eq!(answer(&bottle.words()[..RECORD_WORDS - 1]), Err(1));
            assert_eq!(answer(&[bottle.words(), &[0]].concat()), Err(1));
        }
    }

    #[test]
    fn one_sample_has_one_number_and_one_kind() {
        for parts in ORDERED {
            let first = Bottle::printed().parts(parts);
            let same = |second: &Bottle| is_same_sample(first.words(), second.words());
            assert!(same(&Bottle::printed().parts(parts).ph(LEAST_PH)));
            assert!(!same(&first.kind(STEMFLOW)));
            for other in others(parts) {
                assert!(!same(&first.parts(other)), "{parts:?} and {other:?}");
            }
        }
        let refused = Bottle::printed().number(MOST_NUMBER + 1);
        assert!(!is_same_sample(refused.words(), refused.words()));
    }
}
