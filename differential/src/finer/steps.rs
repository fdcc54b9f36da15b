//! A step to a finer record: some of the below readings become finer.

use super::readings::{finer_reading, BELOW, MEASURED};
use crate::numbers::{ORGANIC_CARBON, READINGS, TOTAL_NITROGEN};
use crate::random::Draw;
use reference::cases::bottle::Bottle;
use reference::cases::generator::Generator;
use reference::ions::CATIONS;

/// The bottle with one or more of its below readings finer; nothing where it has
/// none but DOC's, which stays. In a hundredth of all steps nothing changes.
pub fn refined(generator: &mut Generator, bottle: &Bottle) -> Option<Bottle> {
    let mut places = may_become_finer(bottle);
    if places.is_empty() {
        return None;
    }
    let count = match generator.below(100) {
        0 => 0,
        1..=9 => return Some(at_a_corner(generator, bottle, &places)),
        10..=49 => 1,
        _ => 1 + generator.place(places.len()),
    };
    generator.shuffle(&mut places);
    places.truncate(count);
    Some(places.into_iter().fold(bottle.clone(), |bottle, place| {
        let (mark, bits) = finer_reading(generator, &bottle, place);
        bottle.reading(place, mark, bits)
    }))
}

/// The readings below their limits, without DOC.
pub fn may_become_finer(bottle: &Bottle) -> Vec<usize> {
    let is_below = |place: &usize| bottle.mark_and_bits(*place).0 == BELOW;
    (0..READINGS)
        .filter(|&place| place != ORGANIC_CARBON)
        .filter(is_below)
        .collect()
}

/// All measured at once, as 0 or at their limits: a corner of all ranges, as it
/// decides a verdict. The cations go together, and so do the anions.
fn at_a_corner(generator: &mut Generator, bottle: &Bottle, places: &[usize]) -> Bottle {
    let [cations, anions, total] = [(); 3].map(|()| generator.once_in(2));
    places.iter().fold(bottle.clone(), |bottle, &place| {
        let is_none = match place {
            TOTAL_NITROGEN => total,
            ion if CATIONS.contains(&ion) => cations,
            _ => anions,
        };
        let (_, limit) = bottle.mark_and_bits(place);
        bottle.reading(place, MEASURED, if is_none { 0 } else { limit })
    })
}
