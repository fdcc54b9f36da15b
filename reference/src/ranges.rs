//! "Below means a range" (document 02 (vi)): a least and a greatest, and every
//! fraction between them.

/// From the least to the greatest, "both included". Of several amounts each has
/// its least here and its greatest there, and they are chosen apart.
#[derive(Clone, Copy, Debug, PartialEq, Eq)]
pub struct Ends<T> {
    pub least: T,
    pub greatest: T,
}

impl<T> Ends<T> {
    /// The same at both ends.
    pub fn both<U>(self, of: impl Fn(T) -> U) -> Ends<U> {
        Ends {
            least: of(self.least),
            greatest: of(self.greatest),
        }
    }
}

/// The amounts that a reading stands for, in tenths of a µg/L.
pub type Range = Ends<u32>;

impl Range {
    /// A measured reading stands for its amount alone.
    pub fn of_measured(amount: u32) -> Range {
        Ends {
            least: amount,
            greatest: amount,
        }
    }

    /// "A below reading now stands for every fraction from 0 to its limit's
    /// amount, both included."
    pub fn up_to(limit_amount: u32) -> Range {
        Ends {
            least: 0,
            greatest: limit_amount,
        }
    }

    /// "Both included."
    pub fn contains(self, amount: u32) -> bool {
        (self.least..=self.greatest).contains(&amount)
    }

    /// No amount is negative: a range that contains 0 begins there.
    pub fn contains_none(self) -> bool {
        self.contains(0)
    }
}
