//! Ions that are below their limits while a search makes up the others.

use crate::cases::bottle::Bottle;
use crate::cases::floats::limit_with;
use crate::cases::generator::Generator;
use crate::cases::solver::{End, Fixed};
use crate::numbers::{IONS, LEAST_LIMIT};
use crate::ranges::Ends;

/// For each ion that is below its limit the amount of that limit.
#[derive(Clone, Copy, Debug, Default)]
pub struct Below {
    pub limits: Fixed,
}

impl Below {
    /// So many of these ions, with limits up to this amount.
    pub fn drawn(generator: &mut Generator, ions: &[usize], count: usize, most: u32) -> Below {
        let mut left = ions.to_vec();
        let mut limits = Fixed::default();
        for _ in 0..count.min(ions.len()) {
            let ion = left.remove(generator.below(left.len() as u32) as usize);
            limits[ion] = Some(generator.between(LEAST_LIMIT, most));
        }
        Below { limits }
    }

    pub fn count(&self) -> usize {
        self.limits.iter().flatten().count()
    }

    /// What these ions have where each is chosen at one end of its range, the
    /// end that is told for it.
    pub fn at(&self, end_of: impl Fn(usize) -> End) -> Fixed {
        std::array::from_fn(|ion| {
            self.limits[ion].map(|limit| match end_of(ion) {
                End::Least => 0,
                End::Greatest => limit,
            })
        })
    }

    /// The bottle with these ions below their limits, whatever they were.
    pub fn in_bottle(&self, bottle: &Bottle) -> Bottle {
        let limits = self.limits.iter().enumerate();
        limits.fold(bottle.clone(), |bottle, (ion, limit)| match limit {
            Some(limit) => bottle.below(ion, limit_with(*limit)),
            None => bottle,
        })
    }

    /// All ions at both ends of their ranges.
    pub fn ends(&self, amounts: &[u32; IONS]) -> Ends<[u32; IONS]> {
        let with = |end| {
            let fixed = self.at(|_| end);
            std::array::from_fn(|ion| fixed[ion].unwrap_or(amounts[ion]))
        };
        Ends {
            least: with(End::Least),
            greatest: with(End::Greatest),
        }
    }
}
