//! Part 3: offers. Whole lists against the plain docket, step by step, and
//! single offers to dockets that are handed in.

mod followed;
mod handed_in;
mod repeats;
mod written;

use crate::bottles::{any_bottle, trace};
use crate::case::{Mismatch, Run};
use crate::floats::any_reading;
use crate::numbers::{
    CALCIUM, CHLORIDE, DOCKET_WORDS, KIND, MAGNESIUM, MOST_DOCKET_ROOM, POTASSIUM, RANGES,
    RECORD_WORDS, SODIUM, SOIL_WATER, SULPHATE,
};
use crate::on_an_edge::bottle_on_an_edge;
use crate::on_the_limit::bottle_on_a_limit;
use crate::random::Draw;
use crate::records::damaged;
use crate::sample_numbers::{any_number, damage_number, number_of, other_number};
use followed::Followed;
use handed_in::HandedIn;
use reference::cases::bottle::Bottle;
use reference::cases::generator::Generator;
use repeats::repeated;

const LISTS: u32 = 400_000;
const HANDED_IN: u32 = 600_000;

pub fn run(run: &mut Run) -> Result<(), Mismatch> {
    for room in 0..=MOST_DOCKET_ROOM {
        let offers = vec![Bottle::printed().words().to_vec()];
        run.check(Followed { offers, room })?;
    }
    for pair in written::ties_in_halves() {
        let offers = pair.map(|bottle| bottle.words().to_vec()).to_vec();
        run.check(Followed {
            offers,
            room: DOCKET_WORDS,
        })?;
    }
    for _ in 0..LISTS {
        let offers = list(&mut run.generator);
        let room = long_enough(&mut run.generator);
        run.check(Followed { offers, room })?;
    }
    for _ in 0..HANDED_IN {
        let case = HandedIn::drawn(&mut run.generator);
        run.check(case)?;
    }
    Ok(())
}

/// A length that a docket fits into.
fn long_enough(generator: &mut Generator) -> usize {
    DOCKET_WORDS + generator.place(MOST_DOCKET_ROOM - DOCKET_WORDS + 1)
}

/// A bottle to begin with: mostly one that isn't consistent, as a consistent
/// one closes its docket at once. Any of them may have any number.
fn first_bottle(generator: &mut Generator) -> Bottle {
    let bottle = match generator.below(100) {
        0..=24 => Bottle::doubtful(),
        25..=39 => doubtful_traces(generator),
        40 | 41 => bottle_on_a_limit(generator).unwrap_or_else(Bottle::doubtful),
        42 | 43 => bottle_on_an_edge(generator).unwrap_or_else(Bottle::doubtful),
        _ => any_bottle(generator),
    };
    bottle.number(any_number(generator))
}

/// The doubtful bottle with traces of all ions but the two that its nitrogen
/// check is about, so that it stays doubtful.
fn doubtful_traces(generator: &mut Generator) -> Bottle {
    let ions = [CALCIUM, MAGNESIUM, SODIUM, POTASSIUM, SULPHATE, CHLORIDE];
    ions.into_iter().fold(Bottle::doubtful(), |bottle, ion| {
        let amount = trace(generator);
        let (mark, bits) = any_reading(generator, amount);
        bottle.reading(ion, mark, bits)
    })
}

/// A consistent bottle of the same sample: the printed one under its number
/// and kind.
fn consistent(bottle: &Bottle) -> Bottle {
    let words = bottle.words();
    Bottle::printed().number(number_of(words)).kind(words[KIND])
}

/// One sample analysed again and again, with offers in between that are
/// refused.
fn list(generator: &mut Generator) -> Vec<Vec<u32>> {
    let mut bottles = vec![first_bottle(generator)];
    let mut offers = Vec::new();
    for _ in 0..generator.between(1, 8) {
        let last = &bottles[bottles.len() - 1];
        match generator.below(24) {
            0 => offers.push(damaged(generator)),
            1 => offers.push(damaged_repeat(generator, last)),
            2 => offers.push(other_sample(generator, last).words().to_vec()),
            _ => {
                let next = next_analysis(generator, &bottles);
                offers.push(next.words().to_vec());
                bottles.push(next);
            }
        }
    }
    offers
}

/// Mostly a repeat of the last analysis; else a consistent one, or one from
/// before, which isn't always the one that is compared.
fn next_analysis(generator: &mut Generator, bottles: &[Bottle]) -> Bottle {
    let last = &bottles[bottles.len() - 1];
    match generator.below(20) {
        0 => consistent(last),
        1 => bottles[generator.place(bottles.len())].clone(),
        _ => repeated(generator, last),
    }
}

/// A repeat that is cut short or too long, has a word out of its range or a
/// number that something happened to.
fn damaged_repeat(generator: &mut Generator, bottle: &Bottle) -> Vec<u32> {
    let mut words = repeated(generator, bottle).words().to_vec();
    match generator.below(4) {
        0 => words.truncate(generator.place(RECORD_WORDS)),
        1 => words.push(0),
        2 => damage_number(generator, &mut words),
        _ => {
            let (place, _, _) = generator.pick(&RANGES);
            words[place] = generator.pick(&[0, 300_000_000]);
        }
    }
    words
}

/// The same analysis under another number or kind, or both.
fn other_sample(generator: &mut Generator, bottle: &Bottle) -> Bottle {
    let other_number = other_number(generator, number_of(bottle.words()));
    let next_kind = bottle.words()[KIND] % SOIL_WATER + 1;
    match generator.below(4) {
        0 => bottle.kind(next_kind),
        1 => bottle.number(other_number).kind(next_kind),
        _ => bottle.number(other_number),
    }
}

#[cfg(test)]
mod tests {
    use super::*;
    use crate::numbers::{IONS, MOST_TRACE, NUMBER_HIGH, NUMBER_LOW};
    use reference::docket::PlainDocket;
    use reference::record::Record;
    use reference::refusals::OTHER_SAMPLE;

    #[test]
    fn every_course_is_common() {
        let mut generator = Generator::new(13);
        let mut refusals = [0; 14];
        let mut dockets = [[0; 4]; 4];
        for _ in 0..10_000 {
            let mut plain = PlainDocket::new();
            for offer in list(&mut generator) {
                let answer = plain.offer(&offer).err().unwrap_or(0);
                refusals[answer as usize] += 1;
                dockets[plain.state().number() as usize][plain.count()] += 1;
            }
        }
        for refusal in [0, 1, 2, 3, 4, 5, 6, 7, 11, 12] {
            assert!(refusals[refusal] > 50, "{refusals:?}");
        }
        // Open with 0 to 2, consistent with 1 to 3, confirmed with 2 and 3,
        // unsettled with 3.
        for (state, counts) in [0..=2, 1..=3, 2..=3, 3..=3].into_iter().enumerate() {
            assert!(
                counts.into_iter().all(|count| dockets[state][count] > 50),
                "{dockets:?}"
            );
        }
    }

    /// Offers that a docket refuses with 12 differ from its record in the high
    /// word alone, in the low word alone, in the order of both words, in the
    /// kind alone, in number and kind.
    #[test]
    fn other_samples_differ_in_every_way() {
        let mut generator = Generator::new(16);
        let mut ways = [0; 5];
        for _ in 0..20_000 {
            let mut plain = PlainDocket::new();
            for offer in list(&mut generator) {
                let Err(OTHER_SAMPLE) = plain.offer(&offer) else {
                    continue;
                };
                let held = plain.last().expect("a record");
                let differs =
                    [NUMBER_HIGH, NUMBER_LOW, KIND].map(|place| offer[place] != held[place]);
                let is_swapped = offer[NUMBER_HIGH] == held[NUMBER_LOW]
                    && offer[NUMBER_LOW] == held[NUMBER_HIGH];
                ways[0] += u32::from(differs == [true, false, false]);
                ways[1] += u32::from(differs == [false, true, false]);
                ways[2] += u32::from(differs == [true, true, false] && is_swapped);
                ways[3] += u32::from(differs == [false, false, true]);
                ways[4] += u32::from((differs[0] || differs[1]) && differs[2]);
            }
        }
        assert!(ways.iter().all(|&times| times > 50), "{ways:?}");
    }

    /// By how much ten times the difference of two amounts is above the larger:
    /// 0 is a tenth exactly, up to 10 is one more.
    fn beyond_a_tenth(first: u32, second: u32) -> i64 {
        10 * i64::from(first.abs_diff(second)) - i64::from(first.max(second))
    }

    /// Repeats of traces that differ by a tenth exactly, and by one more than
    /// agrees.
    #[test]
    fn traces_about_a_tenth_apart_are_common() {
        let mut generator = Generator::new(14);
        let (mut exact, mut one_more) = (0, 0);
        for _ in 0..15_000 {
            let offers = list(&mut generator);
            let records: Vec<Record> = offers.iter().flat_map(|o| Record::read(o)).collect();
            for pair in records.windows(2) {
                let amounts = (0..IONS).map(|ion| (pair[0].amount(ion), pair[1].amount(ion)));
                for (first, second) in amounts.filter_map(|(a, b)| Some((a?, b?))) {
                    let beyond = beyond_a_tenth(first, second);
                    let is_trace = (1..=MOST_TRACE).contains(&first.max(second));
                    exact += u32::from(is_trace && beyond == 0);
                    one_more += u32::from(is_trace && (1..=10).contains(&beyond));
                }
            }
        }
        assert!(exact > 200 && one_more > 500, "{exact} and {one_more}");
    }
}
