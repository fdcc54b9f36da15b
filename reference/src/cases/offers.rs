//! Calls 9 and 16: lists of offers to a fresh docket.

use super::agreement::repeated;
use super::bottle::{plausible, Bottle};
use super::generator::Generator;
use super::sample_numbers::{others, swapped, ORDERED};
use super::undecided::undecided_conductivity;
use super::Cases;
use crate::numbers::{
    mark_of, ALKALINITY, AMMONIUM, CALCIUM, CHLORIDE, CONDUCTIVITY, KIND, LEAST_PH,
    MOST_ALKALINITY, NUMBER_HIGH, NUMBER_LOW, ORGANIC_CARBON, PH, POTASSIUM, RECORD_WORDS, SODIUM,
    SOIL_WATER, STEMFLOW, THROUGHFALL, TOTAL_NITROGEN,
};

pub fn all(cases: &mut Cases) {
    for course in COURSES {
        let bottles: Vec<Bottle> = course.chars().map(bottle_of).collect();
        add(cases, &bottles);
    }
    other_numbers(cases);
    odd_slices(cases);
    let mut generator = Generator::new(601);
    for _ in 0..400 {
        let list = scattered_list(&mut generator);
        add_slices(cases, &list);
    }
}

/// A list of records: each answer, and what is held in the end.
fn add(cases: &mut Cases, bottles: &[Bottle]) {
    let slices: Vec<&[u32]> = bottles.iter().map(Bottle::words).collect();
    add_slices(cases, &slices);
    cases.add(16, &slices.concat());
}

/// A list of slices of any length, each after its count.
fn add_slices(cases: &mut Cases, slices: &[impl AsRef<[u32]>]) {
    let mut words = Vec::new();
    for slice in slices {
        words.push(slice.as_ref().len() as u32);
        words.extend(slice.as_ref());
    }
    cases.add(9, &words);
}

/// Courses of a docket, a letter for each offer as in `bottle_of`.
const COURSES: [&str; 47] = [
    // Nothing, one, two or three that don't agree, and one too many.
    "", "a", "ab", "abc", "abcc",
    // Agreement with the one before; the third isn't compared with the first.
    "aa", "aaa", "abb", "abba", "aba", "aeb", "aeea",
    // Consistent at the first, second or third offer.
    "g", "gg", "ga", "ag", "aga", "abg", "abga",
    // Refused offers in between and after closing.
    "xaxbxc", "aokbob", "aoyaoyx", "xxxxaa", "abcoxk", "aoooca", "oaokk", "rarbsb", "gxyokr",
    // Missing, outside and undecided keep a record from being consistent, not
    // applicable doesn't.
    "mmg", "wmw", "nw", "nn", "mwm", "uvuu", "uu", "uvw", "vuu", "auu", "ur", "abuu",
    // Traces of potassium: 3.4 and 3.5 µg/L agree, 3.0 agrees with neither.
    "tp", "tq", "tqt", "tqp", "tqq", "qtp", "ptq",
];

/// The bottles of the courses: all of the same number and kind but o, k, y, u
/// and v.
fn bottle_of(letter: char) -> Bottle {
    let doubtful = Bottle::doubtful();
    let good = Bottle::printed().number(41).kind(THROUGHFALL);
    match letter {
        // Doubtful ones: a, b and c don't agree; e agrees with a and with b.
        'b' => doubtful.ph(520),
        'c' => doubtful.ph(540),
        'e' => doubtful.ph(510),
        // Consistent; a reading missing; conductivity outside; no total nitrogen.
        'g' => good,
        'm' => good.missing(SODIUM),
        'w' => good.conductivity(300),
        'n' => good.missing(TOTAL_NITROGEN),
        // Another number, another kind, and refused records.
        'o' => doubtful.number(42),
        'k' => doubtful.kind(STEMFLOW),
        'x' => doubtful.ph(LEAST_PH - 1),
        'y' => doubtful.number(42).alkalinity(MOST_ALKALINITY + 1),
        'r' => doubtful.reading(AMMONIUM, 3, 0),
        's' => doubtful.ph(520).reading(ORGANIC_CARBON, 0, 1),
        't' => doubtful.amount(POTASSIUM, 34),
        'p' => doubtful.amount(POTASSIUM, 35),
        'q' => doubtful.amount(POTASSIUM, 30),
        // Undecided, and the same bottle with other chloride.
        'u' => undecided(),
        'v' => undecided().amount(CHLORIDE, 9),
        _ => doubtful,
    }
}

fn undecided() -> Bottle {
    undecided_conductivity(501).unwrap_or_else(Bottle::doubtful)
}

/// Offers of a bottle, of others by the high word, by the low word and by the
/// order of the two, and of the same bottle again; and the other order first.
fn other_numbers(cases: &mut Cases) {
    let doubtful = Bottle::doubtful();
    for parts in ORDERED {
        let bottle = doubtful.parts(parts);
        let mut offers = vec![bottle.clone()];
        offers.extend(others(parts).map(|other| doubtful.parts(other)));
        offers.push(bottle.clone());
        add(cases, &offers);
        add(cases, &[doubtful.parts(swapped(parts)), bottle]);
    }
}

/// Offers that aren't as long as a record, and a list that ends in the middle
/// of one.
fn odd_slices(cases: &mut Cases) {
    let doubtful = Bottle::doubtful();
    let a = doubtful.words();
    add_slices(cases, &[&[], a, &a[..RECORD_WORDS - 1], &[1], a, &[]]);
    add_slices(cases, &[&[a, &[0]].concat(), a]);
    let whole = &[RECORD_WORDS as u32];
    cases.add(9, &[whole, a, whole, &a[..mark_of(CALCIUM)]].concat());
    cases.add(9, whole);
    cases.add(9, &[u32::MAX, 1, 2]);
    cases.add(9, &[0, 0, 0]);
    let beside = (1..=3).flat_map(|times| [times * RECORD_WORDS - 1, times * RECORD_WORDS + 1]);
    for length in [1].into_iter().chain(beside) {
        let endless: Vec<u32> = a.iter().copied().cycle().take(length).collect();
        cases.add(16, &endless);
    }
}

/// A list of offers of one bottle, mostly, now and then faulty or of another.
pub fn scattered_list(generator: &mut Generator) -> Vec<Vec<u32>> {
    let mut bottle = plausible(generator);
    let length = generator.between(1, 6);
    (0..length)
        .map(|_| {
            let percent = generator.pick(&[3, 9, 14]);
            let offer = repeated(generator, &bottle, percent);
            let words = offer.words().to_vec();
            bottle = offer;
            disturbed(generator, words)
        })
        .collect()
}

/// The words before the readings that can be out of range whatever the others
/// are: any low part belongs to some number.
const RANGED: [usize; 5] = [NUMBER_HIGH, KIND, PH, CONDUCTIVITY, ALKALINITY];

fn disturbed(generator: &mut Generator, mut words: Vec<u32>) -> Vec<u32> {
    match generator.below(16) {
        0 => {
            // Mostly another number, now and then none.
            let parts = (words[NUMBER_HIGH], words[NUMBER_LOW]);
            (words[NUMBER_HIGH], words[NUMBER_LOW]) = generator.pick(&others(parts));
        }
        1 => words[KIND] = words[KIND] % SOIL_WATER + 1,
        // Beyond the range of any of these.
        2 => words[generator.pick(&RANGED)] = 300_000_000,
        3 => words.truncate(generator.below(RECORD_WORDS as u32) as usize),
        4 => words[mark_of(CALCIUM)] = 3,
        _ => {}
    }
    words
}
