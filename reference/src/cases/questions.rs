//! Calls 6, 14 and 15: numbers of refusals, presence, and the same sample.

use super::bottle::Bottle;
use super::sample_numbers::{others, ORDERED, REFUSED};
use super::Cases;
use crate::numbers::{
    bits_of, mark_of, reading_of, AMMONIUM, BULK, CALCIUM, ELEMENTS, KIND, LEAST_LIMIT_BITS,
    MOST_BITS, MOST_NUMBER, READINGS, RECORD_WORDS, THROUGHFALL, WET_ONLY,
};
use crate::refusals::ALL;

pub fn all(cases: &mut Cases) {
    for place in 1..=ALL.len() {
        cases.add(6, &[place as u32]);
    }
    presence(cases);
    samples(cases);
    samples_by_number(cases);
}

/// Marks and bits that are, or aren't, a reading that is present.
const MARKS_AND_BITS: [(u32, u32); 8] = [
    (0, 0),
    (0, 1),
    (1, 0),
    (1, MOST_BITS + 1),
    (1, 0x8000_0000),
    (2, LEAST_LIMIT_BITS),
    (2, LEAST_LIMIT_BITS - 1),
    (3, 0x3F80_0000),
];

fn presence(cases: &mut Cases) {
    let printed = Bottle::printed();
    let mut ask = |element: u32, words: &[u32]| {
        cases.add(14, &[&[element], words].concat());
    };
    for element in (0..=READINGS as u32 + 1).chain([255, 256, 257, u32::MAX]) {
        ask(element, printed.words());
    }
    for element in ELEMENTS {
        for (mark, bits) in MARKS_AND_BITS {
            let bottle = printed.reading(reading_of(element), mark, bits);
            ask(element, bottle.words());
        }
    }
    // Another reading, or another word, that is refused changes nothing.
    ask(1, printed.reading(CALCIUM, 3, 0).words());
    ask(1, printed.number(0).kind(9).ph(0).words());
    for parts in REFUSED {
        ask(1, printed.parts(parts).words());
    }
    ask(1, printed.number(MOST_NUMBER).words());
    // Also without a part of the first reading, and without all after it.
    for length in [0, 1, bits_of(AMMONIUM), mark_of(CALCIUM), RECORD_WORDS - 1] {
        ask(1, &printed.words()[..length]);
    }
    ask(1, &[printed.words(), &[0]].concat());
}

/// Whether two slices are of one sample.
fn ask_both(cases: &mut Cases, first: &[u32], second: &[u32]) {
    cases.add(15, &[&[first.len() as u32], first, second].concat());
}

/// The same number in another bottle; another one by the high word, by the low
/// word and by the order of the two. A number that is none is no sample's.
fn samples_by_number(cases: &mut Cases) {
    let printed = Bottle::printed();
    for parts in ORDERED {
        let bottle = printed.parts(parts);
        let again = Bottle::doubtful().kind(BULK).parts(parts);
        ask_both(cases, bottle.words(), again.words());
        for other in others(parts) {
            ask_both(cases, bottle.words(), printed.parts(other).words());
        }
    }
    for parts in REFUSED {
        let bottle = printed.parts(parts);
        ask_both(cases, bottle.words(), bottle.words());
    }
}

fn samples(cases: &mut Cases) {
    let printed = Bottle::printed();
    let words = printed.words();
    let mut ask = |first: &[u32], second: &[u32]| ask_both(cases, first, second);
    ask(words, words);
    ask(words, Bottle::doubtful().number(7).kind(BULK).words());
    ask(words, printed.number(8).words());
    ask(words, printed.kind(THROUGHFALL).words());
    ask(printed.kind(WET_ONLY).words(), words);
    // Number and kind exchanged.
    ask(printed.number(2).kind(7).words(), words);
    ask(printed.ph(0).words(), printed.conductivity(0).words());
    ask(printed.number(0).words(), printed.number(0).words());
    let (cut, beginning) = (&words[..RECORD_WORDS - 1], &words[..=KIND]);
    ask(cut, words);
    ask(words, cut);
    ask(cut, cut);
    ask(beginning, beginning);
    ask(&[words, &[0]].concat(), cut);
    ask(&[words, &[0]].concat(), words);
    ask(&[], &[]);
    ask(&[], words);
}
