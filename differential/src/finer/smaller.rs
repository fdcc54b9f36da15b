//! Simpler chains: fewer records, fewer changes, simpler words. What is no chain
//! any more is for the case to leave out.

use super::chain::reading;
use crate::numbers::{bits_of, mark_of, FIRST_READING, READINGS};
use crate::shrink::{shorter, simpler_word};
use reference::cases::bottle::Bottle;

type Records = Vec<Vec<u32>>;

/// Each has fewer records, or else fewer readings that change, or else a word
/// that is simpler.
pub fn smaller_chains(records: &[Vec<u32>]) -> impl Iterator<Item = Records> + '_ {
    let fewer = shorter(records).filter(|fewer| !fewer.is_empty());
    fewer
        .chain((0..READINGS).flat_map(|place| simpler_readings(records, place)))
        .chain((0..FIRST_READING).flat_map(|place| simpler_in_all(records, place)))
        .chain((0..READINGS).flat_map(|place| simpler_bits(records, place)))
}

fn with_reading(words: &[u32], place: usize, (mark, bits): (u32, u32)) -> Vec<u32> {
    let mut words = words.to_vec();
    (words[mark_of(place)], words[bits_of(place)]) = (mark, bits);
    words
}

/// One reading for all records: the printed sample's, else missing; where it
/// changes also its last and its first.
fn simpler_readings(records: &[Vec<u32>], place: usize) -> impl Iterator<Item = Records> + '_ {
    let plain = Bottle::printed().mark_and_bits(place);
    let all_are = move |one| records.iter().all(|words| reading(words, place) == one);
    let ends = [records.last(), records.first()].map(|words| words.map(|w| reading(w, place)));
    let is_plain = all_are(plain);
    let changes = ends[0] != ends[1];
    let single = [plain, (0, 0)].into_iter().filter(move |_| !is_plain);
    let of_the_ends = ends.into_iter().flatten().filter(move |_| changes);
    let all = single.chain(of_the_ends).filter(move |&one| !all_are(one));
    all.map(move |one| {
        let records = records.iter();
        records
            .map(|words| with_reading(words, place, one))
            .collect()
    })
}

/// A word that no finer record changes made simpler in all of them.
fn simpler_in_all(records: &[Vec<u32>], place: usize) -> impl Iterator<Item = Records> + '_ {
    let plain = Bottle::printed().words()[place];
    let word = records.first().map_or(plain, |words| words[place]);
    simpler_word(word, plain).map(move |simpler| {
        let mut records = records.to_vec();
        records.iter_mut().for_each(|words| words[place] = simpler);
        records
    })
}

/// A lower float for a reading, in all records that have it as it is.
fn simpler_bits(records: &[Vec<u32>], place: usize) -> impl Iterator<Item = Records> + '_ {
    let is_first_with = move |number: &usize| {
        let before = number.checked_sub(1).map(|before| &records[before]);
        let one = reading(&records[*number], place);
        one != Bottle::printed().mark_and_bits(place)
            && before.map(|words| reading(words, place)) != Some(one)
    };
    let numbers = (0..records.len()).filter(is_first_with);
    numbers.flat_map(move |number| {
        let old = reading(&records[number], place);
        simpler_word(old.1, 0).map(move |bits| {
            let simpler = |words: &Vec<u32>| match reading(words, place) == old {
                true => with_reading(words, place, (old.0, bits)),
                false => words.clone(),
            };
            records.iter().map(simpler).collect()
        })
    })
}
