//! Setups that differ in little: in one value, in their order, in their count.

use crate::numbers::{LEAST_SETUP, MOST_SETUP, MOST_VALUE};
use crate::random::Draw;
use reference::cases::generator::Generator;

#[derive(Clone, Copy, Debug, PartialEq, Eq)]
pub enum Change {
    OneValue,
    TwoSwapped,
    Reversed,
    Rotated,
    LastDropped,
    FirstDropped,
    OneAdded,
}

use Change::*;

pub const CHANGES: [Change; 7] = [
    OneValue,
    TwoSwapped,
    Reversed,
    Rotated,
    LastDropped,
    FirstDropped,
    OneAdded,
];

/// A setup with some change at any place. Where all values are the same, their
/// order is no change.
pub fn another(generator: &mut Generator, setup: &[u32]) -> Vec<u32> {
    let place = generator.place(setup.len());
    changed(setup, generator.pick(&CHANGES), place)
}

/// The setup with this change at this place, if it has one. What can't be
/// dropped is doubled and the other way round, so that a batch takes both.
pub fn changed(setup: &[u32], change: Change, place: usize) -> Vec<u32> {
    let mut setup = setup.to_vec();
    let next = (place + 1) % setup.len();
    match change {
        OneValue if setup[place] == MOST_VALUE => setup[place] -= 1,
        OneValue => setup[place] += 1,
        TwoSwapped => setup.swap(place, next),
        Reversed => setup.reverse(),
        Rotated => setup.rotate_left(next.max(1)),
        LastDropped | FirstDropped if setup.len() == LEAST_SETUP => {
            setup.insert(place + 1, setup[place]);
        }
        OneAdded if setup.len() < MOST_SETUP => setup.insert(place + 1, setup[place]),
        FirstDropped => drop(setup.remove(0)),
        LastDropped | OneAdded => drop(setup.pop()),
    }
    setup
}

#[cfg(test)]
mod tests {
    use super::*;

    fn rising(count: usize) -> Vec<u32> {
        (100..).take(count).collect()
    }

    #[test]
    fn every_change_at_every_place_leaves_a_setup_that_differs() {
        for count in [LEAST_SETUP, LEAST_SETUP + 1, MOST_SETUP] {
            for change in CHANGES {
                for place in 0..count {
                    let setup = changed(&rising(count), change, place);
                    assert_ne!(setup, rising(count), "{change:?}");
                    assert!((LEAST_SETUP..=MOST_SETUP).contains(&setup.len()));
                }
            }
        }
    }

    #[test]
    fn changes_are_what_they_say() {
        let setup = rising(LEAST_SETUP + 1);
        let dropped = |change| changed(&setup, change, 3);
        assert_eq!(dropped(LastDropped), setup[..LEAST_SETUP]);
        assert_eq!(dropped(FirstDropped), setup[1..]);
        assert_eq!(dropped(Rotated), [&setup[4..], &setup[..4]].concat());
        for change in [TwoSwapped, Reversed, Rotated] {
            let mut sorted = changed(&setup, change, 3);
            sorted.sort();
            assert_eq!(sorted, setup, "{change:?}");
        }
        assert_eq!(changed(&[MOST_VALUE; 10], OneValue, 9)[9], MOST_VALUE - 1);
    }

    /// One added at the end: as far as the shorter goes both are the same.
    #[test]
    fn one_added_after_the_last_stands_at_the_end() {
        let setup = rising(LEAST_SETUP);
        let ends = (0..LEAST_SETUP).filter(|&place| {
            let longer = changed(&setup, OneAdded, place);
            longer[..LEAST_SETUP] == setup[..]
        });
        assert_eq!(ends.count(), 1);
    }
}
