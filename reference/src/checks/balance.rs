//! Ion balance: the inequality of document 01, and its verdict where below
//! readings are ranges (document 02 (vi)).

use super::{Fraction, Inequality, Span, Spans, Verdict};
use crate::ions::{alkalinity_charge, charge, ANIONS, CATIONS};
use crate::numbers::{BULK, CARBON_LINE, IONS, ORGANIC_CARBON, RUNOFF, WET_ONLY};
use crate::ranges::Ends;
use crate::record::Record;

/// The inequality with one choice of all amounts: "Within: 200 times the
/// difference of Cat and An, its sign dropped, is at most L × (Cat + An)."
#[derive(Clone, Copy, Debug)]
pub struct ChosenBalance {
    /// Cat without hydrogen, in u.
    pub other_cations: i128,
    /// An in u.
    pub anions: i128,
    /// L.
    pub limit: i128,
}

impl Inequality for ChosenBalance {
    fn holds_at(&self, hydrogen: i128) -> bool {
        let cations = hydrogen + self.other_cations;
        200 * (cations - self.anions).abs() <= self.limit * (cations + self.anions)
    }

    /// With C for the other cations, A for the anions and H for hydrogen:
    /// 200 × (H + C − A) ≤ L × (H + C + A) is
    /// (200 − L) × H ≤ (200 + L) × A − (200 − L) × C, and
    /// 200 × (A − H − C) ≤ L × (H + C + A) is
    /// (200 + L) × H ≥ (200 − L) × A − (200 + L) × C.
    fn span(&self) -> Span {
        let (more, less) = (200 + self.limit, 200 - self.limit);
        Span {
            least: Fraction {
                numerator: less * self.anions - more * self.other_cations,
                denominator: more,
            },
            greatest: Fraction {
                numerator: more * self.anions - less * self.other_cations,
                denominator: less,
            },
        }
    }
}

/// The inequality with every choice of the amounts. Cations and anions are
/// chosen apart, and each reaches every fraction between its ends.
#[derive(Clone, Copy, Debug)]
pub struct IonBalance {
    pub other_cations: Ends<i128>,
    pub anions: Ends<i128>,
    limit: i128,
}

impl IonBalance {
    /// Nothing where one of the eight ions is missing.
    pub fn of(record: &Record) -> Option<IonBalance> {
        let ions = record.ion_ranges()?;
        Some(IonBalance::with(record, ions))
    }

    /// With these ranges of the eight ions.
    pub fn with(record: &Record, ions: Ends<[u32; IONS]>) -> IonBalance {
        let alkalinity = alkalinity_charge(record.alkalinity);
        IonBalance {
            other_cations: ions.both(|ions| CATIONS.map(|ion| charge(ion, ions[ion])).sum()),
            anions: ions.both(|ions| {
                let charges = ANIONS.map(|ion| charge(ion, ions[ion]));
                alkalinity + charges.sum::<i128>()
            }),
            limit: balance_limit(record.conductivity),
        }
    }

    /// The most anions and the fewest cations: of all choices this one asks for
    /// the most hydrogen, both at least and at most.
    pub fn asking_for_most(&self) -> ChosenBalance {
        ChosenBalance {
            other_cations: self.other_cations.least,
            anions: self.anions.greatest,
            limit: self.limit,
        }
    }

    /// The fewest anions and the most cations: the least hydrogen.
    pub fn asking_for_least(&self) -> ChosenBalance {
        ChosenBalance {
            other_cations: self.other_cations.greatest,
            anions: self.anions.least,
            limit: self.limit,
        }
    }

    /// With every choice it holds from the greatest of all least hydrogen to the
    /// least of all greatest. With some choice it holds from the least of all
    /// least to the greatest of all greatest, and nowhere between is a gap: no
    /// choice's own span is empty, as An isn't negative, and the ends of the span
    /// move along without a leap while the choice does.
    pub fn spans(&self) -> Spans {
        let (most, least) = (self.asking_for_most(), self.asking_for_least());
        Spans {
            with_every: Span {
                least: most.span().least,
                greatest: least.span().greatest,
            },
            with_some: Span {
                least: least.span().least,
                greatest: most.span().greatest,
            },
        }
    }

    /// The verdict where the floor of hydrogen is h.
    pub fn verdict(&self, h: i128, is_whole: bool) -> Verdict {
        self.spans().verdict(h, is_whole)
    }
}

/// "L is 20 up to a measured 20.0 µS/cm, above that 10."
fn balance_limit(conductivity_tenths: u32) -> i128 {
    if conductivity_tenths <= 200 {
        20
    } else {
        10
    }
}

/// "Kinds 1 and 2, and kind 5 with DOC present and below" its line: "The DOC
/// line at 5 mg/L is 50,000" (document 02 (i)), and it goes by the half as before
/// (document 02 (vi)).
fn balance_applies(record: &Record) -> bool {
    match record.kind {
        WET_ONLY | BULK => true,
        RUNOFF => record
            .amount(ORGANIC_CARBON)
            .is_some_and(|carbon| carbon < CARBON_LINE),
        _ => false,
    }
}

/// Ion balance. "0 goes before 4."
pub fn ion_balance(record: &Record) -> Verdict {
    if !balance_applies(record) {
        return Verdict::NotApplicable;
    }
    match IonBalance::of(record) {
        None => Verdict::ReadingMissing,
        Some(balance) => balance.verdict(
            i128::from(record.ph.floor()),
            record.ph.has_whole_hydrogen(),
        ),
    }
}
