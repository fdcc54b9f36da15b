//! Faults in the ranges of below readings (document 02 (vi)): another range in
//! all checks or in one of them, another use of its ends, another verdict.

use super::overturning;
use super::Fault::{self, *};
use crate::numbers::{
    AMMONIUM, BALANCE_CHECK, BULK, CARBON_LINE, CHLORIDE, CONDUCTIVITY_CHECK, IONS, NITRATE,
    NITROGEN_CHECK, ORGANIC_CARBON, RATIO_CHECK, RUNOFF, SODIUM, STEMFLOW, TOTAL_NITROGEN,
    WET_ONLY,
};
use reference::checks::{ion_balance, ratio, sum, IonBalance, Verdict};
use reference::ranges::{Ends, Range};
use reference::readings::Reading;
use reference::record::Record;

/// The verdicts as a judge with this fault has them.
pub fn judge_by_other_ranges(fault: Fault, record: &Record, verdicts: &mut [u32]) {
    carbon_line(fault, record, verdicts);
    let checks: [fn(Fault, &Record) -> Option<Verdict>; 4] = [
        balance,
        super::conducting::conductivity,
        sodium_chloride,
        nitrogen,
    ];
    for (place, check) in checks.into_iter().enumerate() {
        let applies = matches!(verdicts[place], 1..=3);
        if let (true, Some(verdict)) = (applies, check(fault, record)) {
            verdicts[place] = called(fault, place, verdict).number();
        }
    }
    without_a_ratio(fault, record, verdicts);
    taken_for_missing(fault, record, verdicts);
    overturning::taken_for_missing(fault, record, verdicts);
}

/// Chloride that is missing taken for none of it, total nitrogen below its limit
/// taken for missing.
fn taken_for_missing(fault: Fault, record: &Record, verdicts: &mut [u32]) {
    let [chloride, total] = [CHLORIDE, TOTAL_NITROGEN].map(|place| record.readings[place]);
    match (fault, chloride, total) {
        (MissingChlorideHasNoRatio, Reading::Missing, _) => verdicts[RATIO_CHECK] = 0,
        (BelowTotalNitrogenMissing, _, Reading::Below(_)) => verdicts[NITROGEN_CHECK] = 0,
        _ => {}
    }
}

/// Undecided called otherwise.
fn called(fault: Fault, place: usize, verdict: Verdict) -> Verdict {
    match (fault, verdict) {
        (UndecidedIsOutside, Verdict::Undecided) => Verdict::Outside,
        (UndecidedIsWithin, Verdict::Undecided) => Verdict::Within,
        (UndecidedNitrogenWithin, Verdict::Undecided) if place == NITROGEN_CHECK => Verdict::Within,
        (UndecidedRatioOutside, Verdict::Undecided) if place == RATIO_CHECK => Verdict::Outside,
        _ => verdict,
    }
}

/// The amounts of a reading as this fault has them in one check.
pub fn range(fault: Fault, check: usize, record: &Record, place: usize) -> Option<Range> {
    let reading = record.readings[place];
    let (right, half) = (reading.range()?, reading.amount()?);
    let Reading::Below(limit) = reading else {
        return Some(match fault {
            MeasuredIsARange => Range::up_to(right.greatest),
            _ => right,
        });
    };
    let tenths = 10_000.0 * f64::from(f32::from_bits(limit.bits()));
    Some(match (fault, check) {
        (HalfInTheBalance, BALANCE_CHECK)
        | (HalfInConductivity, CONDUCTIVITY_CHECK)
        | (HalfInTheRatio, RATIO_CHECK)
        | (HalfInNitrogen, NITROGEN_CHECK) => Range::of_measured(half),
        (HalfOfTotalNitrogen, NITROGEN_CHECK) if place == TOTAL_NITROGEN => {
            Range::of_measured(half)
        }
        (OnlyTheFirstIsARange, _) if has_below_before(record, place) => Range::of_measured(half),
        (RangeWithoutItsEnd, _)
        | (BalanceWithoutItsEnd, BALANCE_CHECK)
        | (ConductivityWithoutItsEnd, CONDUCTIVITY_CHECK)
        | (RatioWithoutItsEnd, RATIO_CHECK) => Range::up_to(right.greatest - 1),
        (RangeUpToTheHalf, _) => Range::up_to(half),
        (TwiceTheHalf, _)
        | (TwiceTheHalfInTheBalance, BALANCE_CHECK)
        | (TwiceTheHalfInConductivity, CONDUCTIVITY_CHECK)
        | (TwiceTheHalfInTheRatio, RATIO_CHECK) => Range::up_to(2 * half),
        (LimitRoundedDown, _) => Range::up_to(tenths.floor() as u32),
        (LimitRoundedUp, _) => Range::up_to(tenths.ceil() as u32),
        (RangeFromTheHalf, _) => from(half, right),
        (RangeFromOne, _)
        | (BalanceFromOne, BALANCE_CHECK)
        | (ConductivityFromOne, CONDUCTIVITY_CHECK) => from(1, right),
        _ => overturning::range(fault, check, record, place).unwrap_or(right),
    })
}

fn from(least: u32, range: Range) -> Range {
    Range { least, ..range }
}

fn has_below_before(record: &Record, place: usize) -> bool {
    let before = &record.readings[..place];
    before
        .iter()
        .any(|reading| matches!(reading, Reading::Below(_)))
}

/// The eight ions at both ends of their ranges.
pub fn ions(fault: Fault, check: usize, record: &Record) -> Option<Ends<[u32; IONS]>> {
    let mut ends = record.ion_ranges()?;
    for ion in 0..IONS {
        let range = range(fault, check, record, ion)?;
        ends.least[ion] = range.least;
        ends.greatest[ion] = range.greatest;
    }
    Some(ends)
}

/// All below readings at half their limits.
pub fn halves(record: &Record) -> Option<Ends<[u32; IONS]>> {
    let amounts = record.ion_amounts()?;
    Some(Ends {
        least: amounts,
        greatest: amounts,
    })
}

/// Whole and broken hydrogen: the floor, and whether it is exact.
pub fn hydrogen(record: &Record) -> (i128, bool) {
    let ph = record.ph;
    (i128::from(ph.floor()), ph.has_whole_hydrogen())
}

fn balance(fault: Fault, record: &Record) -> Option<Verdict> {
    let balance = IonBalance::with(record, ions(fault, BALANCE_CHECK, record)?);
    let (h, is_whole) = hydrogen(record);
    let verdict = balance.verdict(h, is_whole);
    let narrowed = |cations: Ends<i128>, anions: Ends<i128>| {
        let mut narrow = balance;
        (narrow.other_cations, narrow.anions) = (cations, anions);
        narrow.verdict(h, is_whole)
    };
    let (cations, anions) = (balance.other_cations, balance.anions);
    let (few, many) = (alone(cations.least), alone(cations.greatest));
    Some(match fault {
        // Both at their least, then both at their greatest.
        MovedTogether => both(
            narrowed(few, alone(anions.least)),
            narrowed(many, alone(anions.greatest)),
        ),
        OnlyCornersTried => both(
            narrowed(few, alone(anions.greatest)),
            narrowed(many, alone(anions.least)),
        ),
        DecidedAtWholePh if is_whole && verdict == Verdict::Undecided => {
            IonBalance::with(record, halves(record)?).verdict(h, is_whole)
        }
        _ => verdict,
    })
}

fn alone(charge: i128) -> Ends<i128> {
    Ends {
        least: charge,
        greatest: charge,
    }
}

/// The verdict where two choices are taken for all.
pub fn both(one: Verdict, other: Verdict) -> Verdict {
    if one == other {
        one
    } else {
        Verdict::Undecided
    }
}

fn sodium_chloride(fault: Fault, record: &Record) -> Option<Verdict> {
    let sodium = range(fault, RATIO_CHECK, record, SODIUM)?;
    let chloride = range(fault, RATIO_CHECK, record, CHLORIDE)?;
    let verdict = ratio(sodium, chloride);
    Some(match fault {
        OnlyCornersTried => both(
            ratio(Range::of_measured(sodium.least), chloride),
            ratio(Range::of_measured(sodium.greatest), chloride),
        ),
        // "Less" in place of "at most": a limit of half chloride's charge.
        RatioEndExcluded => {
            let (sodium, chloride) = (
                8_700 * u64::from(sodium.greatest),
                2_821 * u64::from(chloride.least),
            );
            if sodium == chloride {
                Verdict::Outside
            } else {
                verdict
            }
        }
        _ => verdict,
    })
}

/// Where chloride's range contains 0 there is no ratio, and one is told yet.
fn without_a_ratio(fault: Fault, record: &Record, verdicts: &mut [u32]) {
    let Reading::Below(_) = record.readings[CHLORIDE] else {
        return;
    };
    if !(WET_ONLY..=STEMFLOW).contains(&record.kind) {
        return;
    }
    let told = match fault {
        HalfInTheRatio | RatioOfBelowChloride | MissingSodiumFirst => {
            other_ratio(fault, record).map_or(4, Verdict::number)
        }
        _ => return,
    };
    verdicts[RATIO_CHECK] = told;
}

fn other_ratio(fault: Fault, record: &Record) -> Option<Verdict> {
    let sodium = record.range(SODIUM)?;
    let chloride = record.range(CHLORIDE)?;
    Some(match fault {
        HalfInTheRatio => ratio(
            Range::of_measured(record.amount(SODIUM)?),
            Range::of_measured(record.amount(CHLORIDE)?),
        ),
        // Every chloride of the range but 0.
        RatioOfBelowChloride => ratio(sodium, from(1, chloride)),
        _ => Verdict::NotApplicable,
    })
}

fn nitrogen(fault: Fault, record: &Record) -> Option<Verdict> {
    let [total, nitrate, ammonium] = [TOTAL_NITROGEN, NITRATE, AMMONIUM]
        .map(|place| range(fault, NITROGEN_CHECK, record, place));
    let (total, nitrate, ammonium) = (total?, nitrate?, ammonium?);
    Some(match fault {
        // "More" in place of "at least", at both ends.
        NitrogenEndExcluded => Verdict::of_choices(
            total.least > nitrate.greatest + ammonium.greatest,
            total.greatest <= nitrate.least + ammonium.least,
        ),
        _ => sum(total, nitrate, ammonium),
    })
}

/// Runoff's line of carbon by another amount than half the limit, or by all of
/// its range.
fn carbon_line(fault: Fault, record: &Record, verdicts: &mut [u32]) {
    let (RUNOFF, Some(carbon)) = (record.kind, record.range(ORGANIC_CARBON)) else {
        return;
    };
    let judged = || {
        let mut other = record.clone();
        other.kind = BULK;
        ion_balance(&other).number()
    };
    let by = |carbon: u32| if carbon < CARBON_LINE { judged() } else { 0 };
    verdicts[BALANCE_CHECK] = match fault {
        CarbonByTheLimit => by(carbon.greatest),
        CarbonAtZero => by(carbon.least),
        CarbonUndecided if carbon.least < CARBON_LINE && CARBON_LINE <= carbon.greatest => 3,
        _ => return,
    };
}

#[cfg(test)]
mod tests {
    use super::super::stored_records;
    use super::*;
    use crate::faults::{OTHER_RANGES, OVERTURNING};
    use reference::cases::bottle::plausible;
    use reference::cases::generator::Generator;
    use reference::cases::ranges::with_below;
    use reference::checks::verdicts;

    fn right_and_other(fault: Fault, record: &Record) -> ([u32; 4], [u32; 4]) {
        let right = verdicts(record).map(Verdict::number);
        let mut other = right;
        judge_by_other_ranges(fault, record, &mut other);
        (right, other)
    }

    /// A fault of something else leaves every range as it is.
    #[test]
    fn without_a_fault_here_the_verdicts_are_right() {
        let mut generator = Generator::new(9);
        for round in 0..2_000 {
            let bottle = plausible(&mut generator);
            let bottle = with_below(&mut generator, &bottle, round % 11);
            let record = Record::read(bottle.words()).expect("a record");
            let (right, other) = right_and_other(TieGoesDown, &record);
            assert_eq!(right, other);
        }
    }

    /// Each fault changes verdicts among the stored cases, too.
    #[test]
    fn the_stored_cases_tell_every_fault() {
        let records = stored_records();
        for fault in OTHER_RANGES.into_iter().chain(OVERTURNING) {
            let changed = records.iter().filter(|record| {
                let (right, other) = right_and_other(fault, record);
                right != other
            });
            let times = changed.count();
            assert!(times >= 5, "{fault:?} changes {times} records");
        }
    }
}
