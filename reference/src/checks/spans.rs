//! The hydrogen for which an inequality holds, and the verdict at a pH.

use super::Verdict;
use crate::hydrogen::Ph;

/// A fraction; its denominator is above 0.
///
/// No product here leaves an i128. An amount is at most 2,000,000 and f below
/// 10^4, so a charge is below 2 × 10^13 u and a sum of ten of them below
/// 2 × 10^14; a conductance below 10^3 times that, and CM, are at most 2 × 10^17
/// units of 10^−13 µS/cm. Numerators are below 500 times that, 10^20;
/// hydrogen is at most 10^13 and denominators are at most 350,000. The
/// greatest product is a numerator times a denominator, below 10^26.
#[derive(Clone, Copy, Debug)]
pub struct Fraction {
    pub numerator: i128,
    pub denominator: i128,
}

impl Fraction {
    pub fn is_at_most(self, whole: i128) -> bool {
        self.numerator <= whole * self.denominator
    }

    pub fn is_at_least(self, whole: i128) -> bool {
        self.numerator >= whole * self.denominator
    }

    fn is_above(self, other: Fraction) -> bool {
        self.numerator * other.denominator > other.numerator * self.denominator
    }
}

/// The hydrogen for which an inequality holds: from a least fraction to a
/// greatest one, both included. "Each of the two inequalities sets a greatest
/// and a least fraction for H."
#[derive(Clone, Copy, Debug)]
pub struct Span {
    pub least: Fraction,
    pub greatest: Fraction,
}

impl Span {
    fn has(self, h: i128) -> bool {
        self.least.is_at_most(h) && self.greatest.is_at_least(h)
    }

    /// Every fraction strictly between h and h + 1 is in the span exactly when
    /// the span reaches from h or before to h + 1 or beyond: between an end
    /// inside and its neighbour there would always be another fraction.
    pub fn has_every_fraction_above(self, h: i128) -> bool {
        self.least.is_at_most(h) && self.greatest.is_at_least(h + 1)
    }

    /// No fraction strictly between h and h + 1 is in the span exactly when the
    /// span ends at h or before, starts at h + 1 or after, or is empty.
    pub fn has_no_fraction_above(self, h: i128) -> bool {
        self.greatest.is_at_most(h)
            || self.least.is_at_least(h + 1)
            || self.least.is_above(self.greatest)
    }
}

/// Where an inequality is also about amounts that may be chosen: the hydrogen
/// for which it holds with every choice of these, and that for which it holds
/// with some choice. Without a choice the two are the same.
#[derive(Clone, Copy, Debug)]
pub struct Spans {
    pub with_every: Span,
    pub with_some: Span,
}

impl Spans {
    /// "Within means that the inequality holds for every choice of these values,
    /// of hydrogen ..; outside means for none; else undecided, at whole pH too."
    pub fn verdict(self, h: i128, is_whole: bool) -> Verdict {
        let Spans {
            with_every,
            with_some,
        } = self;
        let (every, none) = if is_whole {
            (with_every.has(h), !with_some.has(h))
        } else {
            (
                with_every.has_every_fraction_above(h),
                with_some.has_no_fraction_above(h),
            )
        };
        Verdict::of_choices(every, none)
    }
}

/// An inequality about hydrogen alone, in u.
pub trait Inequality {
    /// Whether it holds where hydrogen is this whole number of u.
    fn holds_at(&self, hydrogen: i128) -> bool;
    /// All the hydrogen for which it holds.
    fn span(&self) -> Span;
}

/// The verdict on an inequality about hydrogen alone at a pH, as document 01 has
/// it: "1 if the inequality holds for every fraction strictly between h and
/// h + 1, 2 if for none, else 3. With p a multiple of 100 the verdict is 1 or 2."
pub fn decide(ph: Ph, inequality: &impl Inequality) -> Verdict {
    let h = i128::from(ph.floor());
    if ph.has_whole_hydrogen() {
        return Verdict::within_if(inequality.holds_at(h));
    }
    let span = inequality.span();
    Verdict::of_choices(
        span.has_every_fraction_above(h),
        span.has_no_fraction_above(h),
    )
}
