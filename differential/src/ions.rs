//! The eight amounts and the alkalinity of a bottle in the making, and what
//! finds them by remainders.

use crate::floats::{any_limit_with, ends};
use crate::numbers::{IONS, MOST_ALKALINITY, MOST_AMOUNT, MOST_TRACE};
use reference::cases::bottle::Bottle;
use reference::cases::generator::Generator;
use reference::cases::ranges::Below;
use reference::hydrogen::Ph;

pub struct Ions {
    pub amounts: [u32; IONS],
    pub alkalinity: u32,
}

impl Ions {
    /// Nothing where one of them is out of its range.
    pub fn checked(amounts: [i128; IONS], alkalinity: i128) -> Option<Ions> {
        let fits = |value: i128, most: u32| (0..=i128::from(most)).contains(&value);
        let all_fit = amounts.iter().all(|&amount| fits(amount, MOST_AMOUNT));
        (all_fit && fits(alkalinity, MOST_ALKALINITY)).then(|| Ions {
            amounts: amounts.map(|amount| amount as u32),
            alkalinity: alkalinity as u32,
        })
    }

    /// The bottle with some ions below their limits, whatever was made up for them.
    pub fn bottle_with(&self, generator: &mut Generator, ph: Ph, below: &Below) -> Bottle {
        let limits = below.limits.iter().enumerate();
        limits.fold(self.bottle(ph), |bottle, (ion, limit)| match limit {
            Some(limit) => bottle.below(ion, any_limit_with(generator, *limit)),
            None => bottle,
        })
    }

    pub fn bottle(&self, ph: Ph) -> Bottle {
        let bottle = Bottle::without_ions()
            .ph(ph.hundredths())
            .alkalinity(self.alkalinity);
        let amounts = self.amounts.iter().enumerate();
        amounts.fold(bottle, |bottle, (ion, &amount)| {
            bottle.reading(ion, 1, ends(amount).0)
        })
    }
}

/// In half of all cases none of these ions is below its limit, else one or more
/// of them: their limits are traces, or up to as much as the others have.
pub fn drawn_below(generator: &mut Generator, ions: &[usize], most: u32) -> Below {
    let count = match generator.below(2) {
        0 => 0,
        _ => generator.between(1, ions.len() as u32),
    };
    let most = generator.pick(&[30, MOST_TRACE, most.clamp(MOST_TRACE, MOST_AMOUNT)]);
    Below::drawn(generator, ions, count as usize, most)
}

/// The inverse of a number by a modulus that shares no factor with it.
pub const fn inverse(number: i128, modulus: i128) -> i128 {
    // Euclid's steps; each pair is (number × factor) by the modulus, factor.
    let (mut old, mut new) = ((number, 1), (modulus, 0));
    while new.0 != 0 {
        let quotient = old.0 / new.0;
        let next = (old.0 - quotient * new.0, old.1 - quotient * new.1);
        old = new;
        new = next;
    }
    old.1.rem_euclid(modulus)
}

#[cfg(test)]
mod tests {
    use super::*;

    #[test]
    fn inverses_are_inverses() {
        for (number, modulus) in [(2_821, 100_000), (7, 10), (1, 2)] {
            assert_eq!(number * inverse(number, modulus) % modulus, 1);
        }
    }

    #[test]
    fn ions_out_of_range_are_none() {
        let most = i128::from(MOST_AMOUNT);
        assert!(Ions::checked([most; IONS], 0).is_some());
        assert!(Ions::checked([most + 1; IONS], 0).is_none());
        assert!(Ions::checked([-1; IONS], 0).is_none());
        assert!(Ions::checked([0; IONS], i128::from(MOST_ALKALINITY) + 1).is_none());
    }
}
