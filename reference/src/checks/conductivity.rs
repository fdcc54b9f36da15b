//! Conductivity: the plain sum of document 01, and the check of document 02 (v)
//! that corrects it for ionic strength, where below readings are ranges (02 (vi)).

use super::spans::decide;
use super::{Fraction, Inequality, Span, Verdict};
use crate::activity::{weighed_with, weighed_without_hydrogen, Bracket};
use crate::ions::{alkalinity_charge, charge, ALKALINITY_CONDUCTANCE, HYDROGEN_CONDUCTANCE, TABLE};
use crate::numbers::{CONDUCTIVITY_TENTH, IONS, SQUARE_UNIT};
use crate::ranges::Ends;
use crate::record::Record;

/// Document 01's inequality, of the plain sum with one choice of all amounts:
/// "01's cases 13 to 16 stay proved of" it. "Within: 100 times the difference of
/// CE and CM, its sign dropped, is at most M × CM, both in the same unit", which
/// is 10^−13 µS/cm.
#[derive(Clone, Copy, Debug)]
pub struct PlainConductivity {
    /// The sum without the part of hydrogen.
    others: i128,
    /// CM.
    measured: i128,
    /// M.
    limit: i128,
}

impl PlainConductivity {
    pub fn with(record: &Record, amounts: &[u32; IONS]) -> PlainConductivity {
        let part_of = |ion: usize| TABLE[ion].conductance * charge(ion, amounts[ion]);
        let alkalinity = ALKALINITY_CONDUCTANCE * alkalinity_charge(record.alkalinity);
        PlainConductivity {
            others: alkalinity + (0..IONS).map(part_of).sum::<i128>(),
            measured: i128::from(record.conductivity) * CONDUCTIVITY_TENTH,
            limit: conductivity_limit(record.conductivity),
        }
    }

    /// "The sum over all ten rows" with so many u of hydrogen.
    pub fn sum_at(&self, hydrogen: i128) -> i128 {
        HYDROGEN_CONDUCTANCE * hydrogen + self.others
    }
}

/// "M is 30 up to 10.0, 20 up to 20.0, 10 above."
pub fn conductivity_limit(tenths: u32) -> i128 {
    match tenths {
        0..=100 => 30,
        101..=200 => 20,
        _ => 10,
    }
}

impl Inequality for PlainConductivity {
    fn holds_at(&self, hydrogen: i128) -> bool {
        100 * (self.sum_at(hydrogen) - self.measured).abs() <= self.limit * self.measured
    }

    /// With R for the part of the others and H for hydrogen:
    /// 100 × (3500 × H + R − CM) ≤ M × CM is
    /// 350,000 × H ≤ (100 + M) × CM − 100 × R, and
    /// 100 × (CM − 3500 × H − R) ≤ M × CM is
    /// 350,000 × H ≥ (100 − M) × CM − 100 × R.
    fn span(&self) -> Span {
        let hydrogen_at = |percent: i128| Fraction {
            numerator: percent * self.measured - 100 * self.others,
            denominator: 100 * HYDROGEN_CONDUCTANCE,
        };
        Span {
            least: hydrogen_at(100 - self.limit),
            greatest: hydrogen_at(100 + self.limit),
        }
    }
}

/// Document 01's check, before 02 (v) and (vi): a below reading counts as half
/// its limit.
pub fn plain_conductivity(record: &Record) -> Verdict {
    match record.ion_amounts() {
        None => Verdict::ReadingMissing,
        Some(amounts) => decide(record.ph, &PlainConductivity::with(record, &amounts)),
    }
}

/// All that CE may be: every product of a y² in its bracket and a plain sum, in
/// units of 10^−9 × 10^−13 µS/cm.
///
/// The plain sum is below 10^18 and 10^9 y² at most 10^9 + 1, so CE is below
/// 10^28 and 100 times CE below 10^30: an i128 holds them, and 130 × CM too.
#[derive(Clone, Copy, Debug)]
pub struct Calculated {
    pub least: i128,
    pub greatest: i128,
    /// Whether CE may be the least and the greatest itself: y² reaches both ends
    /// of its bracket and amounts those of their ranges, hydrogen h and h + 1
    /// only where it is h exactly.
    pub ends_are_reached: bool,
}

/// "By source document 001 (chapter 4) CE = y² × the plain sum."
#[derive(Clone, Copy, Debug)]
pub struct Conductivity {
    /// With the least amount of every reading, and with the greatest of every one.
    pub plain: Ends<PlainConductivity>,
    /// What the strength sums up without hydrogen, in u, with the same: "The
    /// least ionic strength takes each such reading at 0, the greatest at its
    /// limit" (02 (vi)).
    pub weighed: Ends<i128>,
}

impl Conductivity {
    /// Nothing where one of the eight ions is missing.
    pub fn of(record: &Record) -> Option<Conductivity> {
        let ions = record.ion_ranges()?;
        Some(Conductivity::with(record, ions))
    }

    /// With these ranges of the eight ions.
    pub fn with(record: &Record, ions: Ends<[u32; IONS]>) -> Conductivity {
        Conductivity {
            plain: ions.both(|ions| PlainConductivity::with(record, &ions)),
            weighed: ions.both(|ions| weighed_without_hydrogen(&ions, record.alkalinity)),
        }
    }

    /// "I is least with hydrogen at h and greatest at h + 1 (h for both where
    /// exact)", "giving one bracket for y²" (02 (vi)).
    pub fn bracket(&self, h: i128, is_whole: bool) -> Bracket {
        let hydrogen = ends_of_hydrogen(h, is_whole);
        Bracket::of(
            weighed_with(hydrogen.least, self.weighed.least),
            weighed_with(hydrogen.greatest, self.weighed.greatest),
        )
    }

    /// The plain sum with the least of everything and with the greatest.
    pub fn sums(&self, h: i128, is_whole: bool) -> Ends<i128> {
        let hydrogen = ends_of_hydrogen(h, is_whole);
        Ends {
            least: self.plain.least.sum_at(hydrogen.least),
            greatest: self.plain.greatest.sum_at(hydrogen.greatest),
        }
    }

    /// y² is chosen apart from hydrogen and from the amounts, and neither y² nor
    /// the plain sum is negative: the least product is that of the least of both.
    pub fn calculated(&self, bracket: Bracket, h: i128, is_whole: bool) -> Calculated {
        let sums = self.sums(h, is_whole);
        Calculated {
            least: bracket.least * sums.least,
            greatest: bracket.greatest * sums.greatest,
            ends_are_reached: is_whole,
        }
    }

    /// The verdict where the floor of hydrogen is h.
    pub fn verdict(&self, h: i128, is_whole: bool) -> Verdict {
        let bracket = self.bracket(h, is_whole);
        self.judge(self.calculated(bracket, h, is_whole))
    }

    /// The least and the greatest CE that are within, each times 100: where
    /// 100 × (CM − CE) is M × CM, and where 100 × (CE − CM) is.
    pub fn limits(&self) -> (i128, i128) {
        let PlainConductivity {
            measured, limit, ..
        } = self.plain.least;
        let limit_at = |percent: i128| percent * measured * SQUARE_UNIT;
        (limit_at(100 - limit), limit_at(100 + limit))
    }

    /// "Within means that the inequality holds for every choice of these values,
    /// of hydrogen and of y²; outside means for none; else undecided, at whole pH
    /// too" (02 (vi)).
    /// Every fraction between the least CE and the greatest is one of these
    /// products: it holds for all of them where neither end is beyond a limit,
    /// and for none where the limits are beyond an end. An end that isn't
    /// reached may be on a limit with nothing else within.
    pub fn judge(&self, calculated: Calculated) -> Verdict {
        let (from, to) = self.limits();
        let (least, greatest) = (100 * calculated.least, 100 * calculated.greatest);
        let every = from <= least && greatest <= to;
        let none = if calculated.ends_are_reached {
            greatest < from || to < least
        } else {
            greatest <= from || to <= least
        };
        Verdict::of_choices(every, none)
    }
}

/// Between which whole numbers hydrogen lies: "Where p is a multiple of 100, H
/// is h exactly. Otherwise H lies strictly between h and h + 1."
pub fn ends_of_hydrogen(h: i128, is_whole: bool) -> Ends<i128> {
    Ends {
        least: h,
        greatest: if is_whole { h } else { h + 1 },
    }
}

/// Conductivity. "All kinds. Needs the eight ions."
pub fn conductivity(record: &Record) -> Verdict {
    match Conductivity::of(record) {
        None => Verdict::ReadingMissing,
        Some(check) => check.verdict(
            i128::from(record.ph.floor()),
            record.ph.has_whole_hydrogen(),
        ),
    }
}
