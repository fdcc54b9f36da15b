//! A list of offers, compared with the plain docket at every step.

use crate::answers::docket_words;
use crate::canary::Lent;
use crate::case::{Case, Difference};
use crate::library::Library;
use crate::numbers::{DOCKET_RECORD, DOCKET_WORDS};
use crate::outcome::Outcome;
use crate::records::{describe_record, smaller_records};
use crate::shrink::{shorter, simpler_room};
use reference::docket::PlainDocket;
use reference::refusals::OUTPUT;

#[derive(Clone)]
pub struct Followed {
    pub offers: Vec<Vec<u32>>,
    /// How many words are lent for the docket.
    pub room: usize,
}

impl Case for Followed {
    fn difference(&self, library: &dyn Library) -> Option<Difference> {
        let mut docket = Lent::of_length(self.room);
        let answer = library.fresh(docket.slice());
        if let Some(difference) = fresh_difference(answer, &docket) {
            return Some(difference);
        }
        if self.room < DOCKET_WORDS {
            return None;
        }
        let mut plain = PlainDocket::new();
        self.offers.iter().enumerate().find_map(|(place, offer)| {
            let due = due_step(&mut plain, docket.content(), offer);
            let answer = library.offer(docket.slice(), offer);
            let difference = Outcome::found(answer, &docket).against(&due);
            difference.map(|difference| at_offer(place, difference))
        })
    }

    fn smaller(&self) -> impl Iterator<Item = Followed> {
        let fewer = shorter(&self.offers).map(|offers| Followed {
            offers,
            room: self.room,
        });
        let rooms = simpler_room(self.room, DOCKET_WORDS).map(|room| Followed {
            offers: self.offers.clone(),
            room,
        });
        let all_at_once = self.all_offers_simpler();
        let simpler = (0..self.offers.len()).flat_map(move |place| {
            smaller_records(&self.offers[place]).map(move |offer| self.with(place, offer))
        });
        fewer.chain(rooms).chain(all_at_once).chain(simpler)
    }

    fn describe(&self) -> String {
        let offers: Vec<String> = self.offers.iter().map(|o| describe_record(o)).collect();
        format!(
            "a fresh docket in {} words, then the offers\n{}",
            self.room,
            offers.join("\n")
        )
    }
}

impl Followed {
    fn with(&self, place: usize, offer: Vec<u32>) -> Followed {
        let mut smaller = self.clone();
        smaller.offers[place] = offer;
        smaller
    }

    /// What all the offers have in common, as number and kind, can't be changed
    /// in one of them alone.
    fn all_offers_simpler(&self) -> impl Iterator<Item = Followed> + '_ {
        let first = self.offers.first().map_or(&[][..], |offer| &offer[..]);
        smaller_records(first).filter_map(|simpler| {
            let mut smaller = self.clone();
            for offer in &mut smaller.offers {
                if offer.len() != first.len() || offer.len() != simpler.len() {
                    return None;
                }
                for (place, word) in offer.iter_mut().enumerate() {
                    if *word == first[place] {
                        *word = simpler[place];
                    }
                }
            }
            Some(smaller)
        })
    }
}

fn at_offer(place: usize, difference: Difference) -> Difference {
    Difference {
        library: format!("at offer {}: {}", place + 1, difference.library),
        reference: format!("at offer {}: {}", place + 1, difference.reference),
    }
}

/// A fresh docket is open with count 0; its record is left open, so whatever
/// stands there is due.
fn fresh_difference(answer: u32, docket: &Lent<u32>) -> Option<Difference> {
    let old = Lent::<u32>::of_length(docket.content().len());
    let found = Outcome::found(answer, docket);
    let due = if old.content().len() < DOCKET_WORDS {
        Outcome::refused(OUTPUT, old.content())
    } else {
        let mut fresh = docket.content()[..DOCKET_WORDS].to_vec();
        fresh[..DOCKET_RECORD].fill(0);
        Outcome::due(old.content(), Ok(fresh))
    };
    found.against(&due)
}

/// What the plain docket does with an offer, and the docket's words after it.
fn due_step(plain: &mut PlainDocket, before: &[u32], offer: &[u32]) -> Outcome<u32> {
    let answer = plain.offer(offer).map(|()| {
        let held = plain.last().copied().unwrap_or_default();
        docket_words(plain.state().number(), plain.count() as u32, &held)
    });
    Outcome::due(before, answer)
}
