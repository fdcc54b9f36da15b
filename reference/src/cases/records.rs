//! Call 7: proved cases, sample numbers, refused records, missing and below
//! readings, scatter.

use super::bottle::{plausible, Bottle};
use super::floats::{float_of, limit_of};
use super::generator::Generator;
use super::sample_numbers::{edge_parts, swapped, EDGES, ORDERED, REFUSED, TOO_HIGH};
use super::Cases;
use crate::numbers::{
    ALKALINITY, AMMONIUM, CONDUCTIVITY, FIRST_READING, KIND, KINDS, LEAST_LIMIT_BITS, LEAST_PH,
    MOST_ALKALINITY, MOST_BITS, MOST_CONDUCTIVITY, MOST_NUMBER, MOST_PH, NUMBER_HIGH, NUMBER_LOW,
    ORGANIC_CARBON, PH, POTASSIUM, READINGS, RECORD_WORDS, SOIL_WATER, WET_ONLY,
};

pub fn all(cases: &mut Cases) {
    proved(cases);
    lengths(cases);
    numbers(cases);
    numbers_among_other_faults(cases);
    without_a_high_word(cases);
    single_faults(cases);
    pairs_of_faults(cases);
    ends_of_ranges(cases);
    missing_readings(cases);
    below_readings(cases);
    scattered(cases);
}

/// The bottles of the sixteen proved cases and the printed sample. Cases 13 to 16
/// are of the plain sum; here all are judged as 02 (v) and (vi) have it.
fn proved(cases: &mut Cases) {
    for p in [600, 530, 999] {
        cases.add(1, &[p]);
    }
    cases.add(4, &[1, 0x3D80_0000]);
    for (conductivity, alkalinities) in [(200, [81, 82, 122, 123]), (201, [90, 91, 110, 111])] {
        let bottle = Bottle::without_ions().conductivity(conductivity);
        for alkalinity in alkalinities {
            cases.judge(&bottle.alkalinity(alkalinity));
        }
    }
    for conductivity in [128, 129, 193, 194] {
        cases.judge(&Bottle::printed().conductivity(conductivity));
    }
    cases.judge(&Bottle::printed());
}

/// Slices that aren't as long as a record, some of them with another fault.
fn lengths(cases: &mut Cases) {
    let twice = [Bottle::printed().words(), Bottle::printed().words()].concat();
    for length in [0, 1, 2, FIRST_READING, RECORD_WORDS - 1, RECORD_WORDS + 1] {
        cases.add(7, &twice[..length]);
    }
    for length in [twice.len() - 1, twice.len()] {
        cases.add(7, &twice[..length]);
    }
    let faulty = Bottle::printed().number(0).kind(0).ph(0);
    cases.add(7, &faulty.words()[..RECORD_WORDS - 1]);
    cases.add(7, &[faulty.words(), &[0]].concat());
}

/// Numbers at the ends of their range and words at the ends of theirs; words in
/// both orders.
fn numbers(cases: &mut Cases) {
    let printed = Bottle::printed();
    for number in EDGES {
        cases.judge(&printed.number(number));
    }
    for parts in edge_parts() {
        cases.judge(&printed.parts(parts));
    }
    for parts in ORDERED {
        cases.judge(&printed.parts(parts));
        cases.judge(&printed.parts(swapped(parts)));
    }
}

/// The number is tested after the length and before the kind, whichever of its
/// words is at fault.
fn numbers_among_other_faults(cases: &mut Cases) {
    let printed = Bottle::printed();
    let bad_kinds = [0, SOIL_WATER + 1, u32::MAX];
    for parts in REFUSED {
        let bottle = printed.parts(parts);
        for kind in bad_kinds {
            cases.judge(&bottle.kind(kind));
        }
        cases.add(7, &bottle.words()[..RECORD_WORDS - 1]);
        cases.add(7, &[bottle.words(), &[0]].concat());
    }
    for number in [1, MOST_NUMBER] {
        for kind in bad_kinds {
            cases.judge(&printed.number(number).kind(kind));
        }
    }
}

/// The printed sample as document 01 has it, a word too short; and with a word
/// behind, so that its number and kind become the parts of a number and its pH
/// the kind.
fn without_a_high_word(cases: &mut Cases) {
    let printed = Bottle::printed();
    let short = &printed.words()[NUMBER_LOW..];
    cases.add(7, short);
    cases.add(7, &[short, &[0]].concat());
}

/// Words before the readings out of their range: the word, and what it becomes.
/// The high word of the printed sample is 0: with a low word of 0 its number
/// becomes 0.
const WORD_FAULTS: [(usize, u32); 14] = [
    (NUMBER_LOW, 0),
    (NUMBER_HIGH, TOO_HIGH),
    (NUMBER_HIGH, u32::MAX),
    (KIND, 0),
    (KIND, SOIL_WATER + 1),
    (KIND, u32::MAX),
    (PH, 0),
    (PH, LEAST_PH - 1),
    (PH, MOST_PH + 1),
    (CONDUCTIVITY, 0),
    (CONDUCTIVITY, MOST_CONDUCTIVITY + 1),
    (CONDUCTIVITY, u32::MAX),
    (ALKALINITY, MOST_ALKALINITY + 1),
    (ALKALINITY, u32::MAX),
];

/// Marks and bits that are no reading.
const READING_FAULTS: [(u32, u32); 12] = [
    (3, 0),
    (3, 0x3F80_0000),
    (u32::MAX, 0x3F80_0000),
    (0, 1),
    (0, 0x8000_0000),
    (1, 0x8000_0000),
    (1, MOST_BITS + 1),
    (1, 0x7F80_0000),
    (1, 0x7FC0_0000),
    (2, 0),
    (2, LEAST_LIMIT_BITS - 1),
    (2, MOST_BITS + 1),
];

fn single_faults(cases: &mut Cases) {
    let printed = Bottle::printed();
    for (word, value) in WORD_FAULTS {
        cases.judge(&printed.word(word, value));
    }
    for place in 0..READINGS {
        for (mark, bits) in READING_FAULTS {
            cases.judge(&printed.reading(place, mark, bits));
        }
    }
}

/// Readings that are none in three places of a record.
const READING_FAULTS_AT: [(usize, u32, u32); 3] = [
    (AMMONIUM, 3, 0),
    (POTASSIUM, 1, 0x8000_0000),
    (ORGANIC_CARBON, 2, 0),
];

/// Two faults in one record: the one with the smaller number is answered.
fn pairs_of_faults(cases: &mut Cases) {
    let printed = Bottle::printed();
    for (first, value) in WORD_FAULTS {
        for (second, other_value) in WORD_FAULTS {
            if first < second {
                cases.judge(&printed.word(first, value).word(second, other_value));
            }
        }
        for (place, mark, bits) in READING_FAULTS_AT {
            cases.judge(&printed.word(first, value).reading(place, mark, bits));
        }
    }
}

/// The ends of all ranges but the number's.
fn ends_of_ranges(cases: &mut Cases) {
    let printed = Bottle::printed();
    let ends = [
        (KIND, [WET_ONLY, SOIL_WATER]),
        (PH, [LEAST_PH, MOST_PH]),
        (CONDUCTIVITY, [1, MOST_CONDUCTIVITY]),
        (ALKALINITY, [0, MOST_ALKALINITY]),
    ];
    for (word, values) in ends {
        for value in values {
            cases.judge(&printed.word(word, value));
        }
    }
    for kind in KINDS {
        let most = (0..READINGS).fold(printed.kind(kind), |bottle, place| {
            bottle.reading(place, 1, MOST_BITS)
        });
        cases.judge(&most);
        let alkaline = most.alkalinity(MOST_ALKALINITY);
        cases.judge(&alkaline.conductivity(MOST_CONDUCTIVITY).ph(LEAST_PH));
        cases.judge(&alkaline.conductivity(1).ph(LEAST_PH + 1));
        cases.judge(&most.conductivity(MOST_CONDUCTIVITY).ph(MOST_PH - 1));
        let none = Bottle::without_ions().kind(kind);
        cases.judge(&none.ph(MOST_PH).conductivity(1));
        cases.judge(&none.ph(MOST_PH - 1).conductivity(1));
        cases.judge(&none.ph(LEAST_PH).conductivity(MOST_CONDUCTIVITY));
        cases.judge(&none.ph(LEAST_PH + 1).conductivity(MOST_CONDUCTIVITY));
    }
}

/// For each kind: nothing missing, each reading missing, each pair missing.
fn missing_readings(cases: &mut Cases) {
    for kind in KINDS {
        let whole = Bottle::printed().kind(kind).amount(ORGANIC_CARBON, 30_000);
        cases.judge(&whole);
        for first in 0..READINGS {
            for second in first..READINGS {
                cases.judge(&whole.missing(first).missing(second));
            }
        }
        let nothing = (0..READINGS).fold(whole, |bottle, place| bottle.missing(place));
        cases.judge(&nothing);
    }
}

/// Each reading below the least limit, one that is half of another, that other, and
/// the greatest: for the checks it is all from 0 to that.
fn below_readings(cases: &mut Cases) {
    for kind in KINDS {
        let whole = Bottle::printed().kind(kind).amount(ORGANIC_CARBON, 30_000);
        for place in 0..READINGS {
            for limit in [
                LEAST_LIMIT_BITS,
                float_of(5_000),
                limit_of(5_000),
                MOST_BITS,
            ] {
                cases.judge(&whole.below(place, limit));
            }
        }
    }
}

fn scattered(cases: &mut Cases) {
    let mut generator = Generator::new(201);
    for _ in 0..2_500 {
        cases.judge(&plausible(&mut generator));
    }
}
