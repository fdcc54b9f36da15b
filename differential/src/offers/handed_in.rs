//! An offer to a docket that is handed in, also to one that no offers produce.

use super::repeats::repeated;
use super::{first_bottle, long_enough, other_sample};
use crate::answers;
use crate::canary::{Cell, Lent};
use crate::case::{Case, Difference};
use crate::library::Library;
use crate::numbers::{
    DOCKET_COUNT, DOCKET_RECORD, DOCKET_STATE, DOCKET_WORDS, MOST_DOCKET_ROOM, RECORD_WORDS,
};
use crate::outcome::Outcome;
use crate::random::Draw;
use crate::records::{damaged, describe_record, smaller_records};
use crate::sample_numbers::damage_number;
use crate::shrink::{simpler_room, simpler_words};
use reference::cases::bottle::Bottle;
use reference::cases::generator::Generator;

#[derive(Clone)]
pub struct HandedIn {
    docket: Vec<u32>,
    offer: Vec<u32>,
}

impl HandedIn {
    /// Mostly a docket whose record the offer repeats; then something is
    /// changed in it, or everything, or its length.
    pub fn drawn(generator: &mut Generator) -> HandedIn {
        let bottle = first_bottle(generator);
        let mut docket = vec![0; DOCKET_RECORD];
        docket[DOCKET_STATE] = drawn_state(generator);
        docket[DOCKET_COUNT] = drawn_count(generator);
        docket.extend(held(generator, &bottle));
        if generator.once_in(20) {
            docket.iter_mut().for_each(|word| *word = generator.word());
        }
        let length = match generator.below(8) {
            0 => generator.place(MOST_DOCKET_ROOM + 1),
            1 => long_enough(generator),
            _ => DOCKET_WORDS,
        };
        docket.extend((docket.len()..MOST_DOCKET_ROOM).map(u32::old));
        docket.truncate(length);
        let offer = offered(generator, &bottle);
        HandedIn { docket, offer }
    }
}

fn drawn_state(generator: &mut Generator) -> u32 {
    match generator.below(12) {
        0 => generator.between(1, 3),
        1 => generator.pick(&[4, 5, 255, 256, 1 << 16, u32::MAX]),
        2 => generator.word(),
        _ => 0,
    }
}

fn drawn_count(generator: &mut Generator) -> u32 {
    match generator.below(12) {
        0 => 3,
        1 => generator.pick(&[4, 255, 256, 257, 258, 1 << 16, u32::MAX - 1, u32::MAX]),
        2 => generator.word(),
        3 => 0,
        _ => generator.between(1, 2),
    }
}

/// The record in the docket.
fn held(generator: &mut Generator, bottle: &Bottle) -> Vec<u32> {
    let mut words = match generator.below(10) {
        0 => damaged(generator),
        1 => other_sample(generator, bottle).words().to_vec(),
        2 => vec![0; RECORD_WORDS],
        3 => renumbered(generator, bottle),
        _ => bottle.words().to_vec(),
    };
    if generator.once_in(10) {
        generator.flip_bit(&mut words);
    }
    words.resize(RECORD_WORDS, 0);
    words
}

/// The same record under two other words for its number, whatever they make.
fn renumbered(generator: &mut Generator, bottle: &Bottle) -> Vec<u32> {
    let mut words = bottle.words().to_vec();
    damage_number(generator, &mut words);
    words
}

fn offered(generator: &mut Generator, bottle: &Bottle) -> Vec<u32> {
    match generator.below(10) {
        0 => damaged(generator),
        1 => other_sample(generator, bottle).words().to_vec(),
        2 => super::consistent(bottle).words().to_vec(),
        3 => renumbered(generator, bottle),
        _ => repeated(generator, bottle).words().to_vec(),
    }
}

impl Case for HandedIn {
    fn difference(&self, library: &dyn Library) -> Option<Difference> {
        let mut docket = Lent::holding(&self.docket);
        let due = Outcome::due(&self.docket, answers::offer(&self.docket, &self.offer));
        let answer = library.offer(docket.slice(), &self.offer);
        Outcome::found(answer, &docket).against(&due)
    }

    fn smaller(&self) -> impl Iterator<Item = HandedIn> {
        let shorter = simpler_room(self.docket.len(), DOCKET_WORDS)
            .filter(|&length| length < self.docket.len())
            .map(|length| self.docket[..length].to_vec());
        let held_at = self.docket.len().min(DOCKET_RECORD);
        let (head, held) = self.docket.split_at(held_at);
        let heads = simpler_words(head, |_| 0).map(move |head| [&head, held].concat());
        let helds = smaller_records(held).map(move |held| [head, &held].concat());
        let dockets = shorter.chain(heads).chain(helds).map(|docket| HandedIn {
            docket,
            offer: self.offer.clone(),
        });
        let offers = smaller_records(&self.offer).map(|offer| HandedIn {
            docket: self.docket.clone(),
            offer,
        });
        dockets.chain(self.both_simpler()).chain(offers)
    }

    fn describe(&self) -> String {
        let held_at = self.docket.len().min(DOCKET_RECORD);
        let (head, held) = self.docket.split_at(held_at);
        format!(
            "an offer to a docket of {} words: state and count {head:?}, held\n{}\nand offered\n{}",
            self.docket.len(),
            describe_record(held),
            describe_record(&self.offer)
        )
    }
}

impl HandedIn {
    /// The same words changed in the record held and in the record offered.
    fn both_simpler(&self) -> impl Iterator<Item = HandedIn> + '_ {
        let records = smaller_records(&self.offer);
        records.filter_map(|simpler| {
            let mut smaller = self.clone();
            let needed = DOCKET_RECORD + simpler.len();
            if simpler.len() != self.offer.len() || self.docket.len() < needed {
                return None;
            }
            for (place, word) in smaller.docket[DOCKET_RECORD..]
                .iter_mut()
                .take(simpler.len())
                .enumerate()
            {
                if *word == self.offer[place] {
                    *word = simpler[place];
                }
            }
            smaller.offer = simpler;
            Some(smaller)
        })
    }
}

#[cfg(test)]
mod tests {
    use super::*;
    use crate::numbers::{MOST_NUMBER, NUMBER_HIGH, NUMBER_LOW};
    use crate::random::times_of;
    use crate::sample_numbers::number_of;
    use reference::record::Record;
    use reference::refusals::{DOCKET, OTHER_SAMPLE, SAMPLE_NUMBER};

    /// Open dockets with a count of 1 or 2 whose record has a number that no
    /// record may have, and with one that differs from the offered one in one
    /// word alone; offers under such a number.
    #[test]
    fn numbers_go_wrong_in_the_docket_and_in_the_offer() {
        let mut generator = Generator::new(17);
        let (mut held_refused, mut one_word, mut offer_refused) = (0, [0; 2], 0);
        for _ in 0..40_000 {
            let HandedIn { docket, offer } = HandedIn::drawn(&mut generator);
            let answer = answers::offer(&docket, &offer);
            offer_refused += u32::from(answer == Err(SAMPLE_NUMBER));
            let Some((&[0, 1 | 2], held)) = docket.split_first_chunk() else {
                continue;
            };
            let beyond = held.len() > NUMBER_LOW && !(1..=MOST_NUMBER).contains(&number_of(held));
            held_refused += u32::from(answer == Err(DOCKET) && beyond);
            if answer == Err(OTHER_SAMPLE) && Record::read(&held[..RECORD_WORDS]).is_ok() {
                let same = [NUMBER_HIGH, NUMBER_LOW].map(|place| held[place] == offer[place]);
                one_word[0] += u32::from(same == [false, true]);
                one_word[1] += u32::from(same == [true, false]);
            }
        }
        assert!(held_refused > 500 && offer_refused > 500);
        assert!(one_word.iter().all(|&times| times > 500), "{one_word:?}");
    }

    /// A word short, exact, one and two words over.
    #[test]
    fn lengths_beside_a_docket_s_are_common() {
        let mut generator = Generator::new(18);
        let lengths = (0..20_000).map(|_| HandedIn::drawn(&mut generator).docket.len());
        let times = times_of(DOCKET_WORDS - 1..=DOCKET_WORDS + 2, lengths);
        assert!(times.iter().all(|&times| times > 30), "{times:?}");
    }
}
