//! Call 8: whether two records agree.

use super::bottle::{plausible, Bottle};
use super::floats::limit_of;
use super::generator::Generator;
use super::Cases;
use crate::numbers::{
    ALKALINITY, CALCIUM, CHLORIDE, CONDUCTIVITY, IONS, LEAST_BELOW, LEAST_LIMIT_BITS, LEAST_PH,
    MOST_ALKALINITY, MOST_AMOUNT, MOST_CONDUCTIVITY, MOST_NUMBER, MOST_PH, ORGANIC_CARBON, PH,
    POTASSIUM, READINGS, RECORD_WORDS, RUNOFF, SOIL_WATER,
};

/// Asks both ways round.
fn compare(cases: &mut Cases, first: &Bottle, second: &Bottle) {
    for (first, second) in [(first, second), (second, first)] {
        compare_slices(cases, first.words(), second.words());
    }
}

fn compare_slices(cases: &mut Cases, first: &[u32], second: &[u32]) {
    cases.add(8, &[&[first.len() as u32], first, second].concat());
}

pub fn all(cases: &mut Cases) {
    whole_words(cases);
    amounts(cases);
    traces(cases);
    missing_and_below(cases);
    refused(cases);
    scattered(cases);
}

/// Numbers a tenth apart and just beyond it, and the smallest ones.
const TENTHS: [(u32, u32); 12] = [
    (100, 90),
    (100, 89),
    (99, 90),
    (99, 89),
    (10, 9),
    (9, 8),
    (11, 10),
    (1, 1),
    (2, 1),
    (MOST_CONDUCTIVITY, MOST_CONDUCTIVITY / 10 * 9),
    (MOST_CONDUCTIVITY, MOST_CONDUCTIVITY / 10 * 9 - 1),
    (55_555, 50_000),
];

/// pH, conductivity and alkalinity; number and kind aren't compared.
fn whole_words(cases: &mut Cases) {
    let bottle = Bottle::doubtful();
    compare(cases, &bottle, &bottle);
    compare(cases, &bottle, &bottle.number(42));
    compare(cases, &bottle, &bottle.number(MOST_NUMBER));
    compare(cases, &bottle, &bottle.kind(RUNOFF));
    for (first, second) in [
        (500, 510),
        (500, 511),
        (LEAST_PH, LEAST_PH + 10),
        (MOST_PH - 11, MOST_PH),
        (MOST_PH - 10, MOST_PH),
    ] {
        compare(cases, &bottle.ph(first), &bottle.ph(second));
    }
    for (first, second) in TENTHS {
        compare(
            cases,
            &bottle.conductivity(first),
            &bottle.conductivity(second),
        );
        compare(cases, &bottle.alkalinity(first), &bottle.alkalinity(second));
    }
    let tenth_less = MOST_ALKALINITY / 10 * 9;
    for (first, second) in [
        (0, 0),
        (0, 1),
        (MOST_ALKALINITY, tenth_less),
        (MOST_ALKALINITY, tenth_less - 1),
    ] {
        compare(cases, &bottle.alkalinity(first), &bottle.alkalinity(second));
    }
}

/// The amount of every reading; nitrogen and carbon aren't compared.
fn amounts(cases: &mut Cases) {
    let bottle = Bottle::doubtful();
    for place in 0..READINGS {
        for (first, second) in [(100, 90), (100, 89), (0, 0), (0, 1), (10, 9), (9, 8)] {
            compare(
                cases,
                &bottle.amount(place, first),
                &bottle.amount(place, second),
            );
        }
    }
    let tenth_less = MOST_AMOUNT / 10 * 9;
    let greatest = [tenth_less, tenth_less - 1].map(|less| (MOST_AMOUNT, less));
    for (first, second) in TENTHS.into_iter().chain(greatest) {
        let [first, second] = [first, second].map(|amount| bottle.amount(CHLORIDE, amount));
        compare(cases, &first, &second);
    }
    // Other floats of the same amount agree as that amount does.
    let [first, second] = [0, 1].map(|bits| bottle.reading(CALCIUM, 1, bits));
    compare(cases, &first, &second);
}

/// Two amounts of a few µg/L, in tenths, and whether they agree.
pub const TRACES: [(u32, u32, bool); 12] = [
    // To whole µg/L they round alike, and yet they may differ.
    (34, 31, true),
    (34, 30, false),
    (34, 25, false),
    (14, 5, false),
    // To whole µg/L they round apart, and yet they may agree.
    (35, 34, true),
    (26, 24, true),
    (45, 44, true),
    (38, 34, false),
    // A tenth of the larger exactly, and one more.
    (30, 27, true),
    (30, 26, false),
    (90, 81, true),
    (90, 80, false),
];

/// Traces of potassium, measured both or the second as half a limit.
fn traces(cases: &mut Cases) {
    let bottle = Bottle::doubtful();
    for (first, second, _) in TRACES {
        let measured = bottle.amount(POTASSIUM, first);
        compare(cases, &measured, &bottle.amount(POTASSIUM, second));
        let below = bottle.below(POTASSIUM, limit_of(second));
        compare(cases, &measured, &below);
    }
}

fn missing_and_below(cases: &mut Cases) {
    let bottle = Bottle::doubtful();
    for place in 0..READINGS {
        let missing = bottle.missing(place);
        compare(cases, &missing, &bottle);
        compare(cases, &missing, &bottle.amount(place, 0));
        compare(cases, &missing, &missing);
        compare(cases, &missing, &missing.missing((place + 1) % IONS));
        let measured = bottle.amount(place, 1_000);
        for amount in [1_000, 900, 899, 1_111, 1_112] {
            compare(cases, &measured, &bottle.below(place, limit_of(amount)));
        }
        let least = bottle.below(place, LEAST_LIMIT_BITS);
        for amount in [0, LEAST_BELOW - 1, LEAST_BELOW, LEAST_BELOW + 1] {
            compare(cases, &least, &bottle.amount(place, amount));
        }
    }
}

/// "The first slice is tested 1 to 7, then the second."
fn refused(cases: &mut Cases) {
    let bottle = Bottle::doubtful();
    let faulty = [
        bottle.number(MOST_NUMBER + 1),
        bottle.kind(SOIL_WATER + 1),
        bottle.ph(MOST_PH + 1),
        bottle.conductivity(0),
        bottle.alkalinity(MOST_ALKALINITY + 1),
        bottle.reading(ORGANIC_CARBON, 3, 0),
    ];
    for first in &faulty {
        compare(cases, first, &bottle);
        for second in &faulty {
            compare_slices(cases, first.words(), second.words());
        }
    }
    let words = bottle.words();
    let cut = &words[..RECORD_WORDS - 1];
    compare_slices(cases, cut, words);
    compare_slices(cases, words, cut);
    let [.., bad_reading] = &faulty;
    compare_slices(cases, bad_reading.words(), cut);
    compare_slices(cases, &[], &[]);
    compare_slices(cases, &[words, &[0]].concat(), words);
    compare_slices(cases, words, &[words, &[0]].concat());
}

/// The same bottle analysed twice, each reading a little off.
pub fn repeated(generator: &mut Generator, bottle: &Bottle, percent: u32) -> Bottle {
    let words = bottle.words();
    let ph = (words[PH] + generator.below(14)).clamp(LEAST_PH, MOST_PH);
    let mut near = |field: usize| generator.near(words[field], percent);
    let conductivity = near(CONDUCTIVITY).clamp(1, MOST_CONDUCTIVITY);
    let alkalinity = near(ALKALINITY).min(MOST_ALKALINITY);
    let mut other = bottle
        .ph(ph)
        .conductivity(conductivity)
        .alkalinity(alkalinity);
    let place = generator.below(READINGS as u32) as usize;
    let (mark, bits) = bottle.mark_and_bits(place);
    if mark == 1 && bits > 0x0080_0000 {
        // A step of 2^20 in the bits is an eighth of the float's power of 2.
        other = other.reading(place, 1, bits - generator.below(1 << 21));
    }
    other
}

fn scattered(cases: &mut Cases) {
    let mut generator = Generator::new(501);
    for _ in 0..250 {
        let first = plausible(&mut generator);
        let percent = generator.pick(&[4, 9, 11, 14]);
        let second = repeated(&mut generator, &first, percent);
        compare_slices(cases, first.words(), second.words());
    }
}
