//! Faults in the correction of conductivity for ionic strength (document 02
//! (v)): each stands at one step, from the strength to the verdict.

use super::Fault::{
    self, AlkalinityLeftOut, CalciumOfChargeOne, ExponentUnsquared, FloorAtBothEnds,
    HydrogenLeftOut, LowerExponentUp, LowerRootForBoth, MeasuredCorrected, MinusSignLost,
    NoneAdded, PlainAtWholePh, RootAboveItsSquare, RootBelowItsSquare, RootOfTheSquare,
    SulphateOfChargeOne, UpperExponentDown, UpperRootForBoth,
};
use crate::numbers::{CALCIUM, CONDUCTIVITY_CHECK, ROOT_STEPS, SQUARE_UNIT, SULPHATE, THOUSANDTHS};
use reference::activity::{
    floor_of_power, lower_root, thousandths_from, thousandths_up_to, upper_root, Bracket,
};
use reference::checks::{Calculated, Conductivity, Verdict};
use reference::ions::{alkalinity_charge, charge};
use reference::ranges::{Ends, Range};
use reference::record::Record;

/// y² of exactly 1: the plain sum.
const UNCORRECTED: Bracket = Bracket {
    least: SQUARE_UNIT,
    greatest: SQUARE_UNIT,
};

/// Conductivity as a judge with this fault has it.
pub fn judge_by_another_correction(fault: Fault, record: &Record, verdicts: &mut [u32]) {
    if let Some(check) = Conductivity::of(record) {
        verdicts[CONDUCTIVITY_CHECK] = verdict(fault, record, &check).number();
    }
}

fn verdict(fault: Fault, record: &Record, check: &Conductivity) -> Verdict {
    let is_whole = record.ph.has_whole_hydrogen();
    let h = i128::from(record.ph.floor());
    let greatest = match fault {
        FloorAtBothEnds => h,
        _ => h + i128::from(!is_whole),
    };
    let roots = roots(fault, strengths(fault, record, check, [h, greatest]));
    let bracket = match fault {
        PlainAtWholePh if is_whole => UNCORRECTED,
        _ => bracket(fault, exponents(fault, roots)),
    };
    let sums = Ends {
        least: check.plain.least.sum_at(h),
        greatest: check.plain.greatest.sum_at(greatest),
    };
    let calculated = Calculated {
        least: bracket.least * sums.least,
        greatest: bracket.greatest * sums.greatest,
        ends_are_reached: is_whole,
    };
    match fault {
        MeasuredCorrected => correct_the_measured(check, bracket, sums),
        _ => check.judge(calculated),
    }
}

/// Twice the least strength and twice the greatest, with so much hydrogen each.
fn strengths(
    fault: Fault,
    record: &Record,
    check: &Conductivity,
    [low, high]: [i128; 2],
) -> [i128; 2] {
    let left_out = |hydrogen: i128, end: fn(Range) -> u32| {
        let charged = |ion: usize| record.range(ion).map_or(0, |range| charge(ion, end(range)));
        match fault {
            CalciumOfChargeOne => charged(CALCIUM),
            SulphateOfChargeOne => charged(SULPHATE),
            HydrogenLeftOut => hydrogen,
            AlkalinityLeftOut => alkalinity_charge(record.alkalinity),
            _ => 0,
        }
    };
    [
        low + check.weighed.least - left_out(low, |range| range.least),
        high + check.weighed.greatest - left_out(high, |range| range.greatest),
    ]
}

/// The lower s and the upper s, in steps.
fn roots(fault: Fault, [least, greatest]: [i128; 2]) -> (i128, i128) {
    match fault {
        LowerRootForBoth => (lower_root(least), lower_root(least)),
        UpperRootForBoth => (upper_root(greatest), upper_root(greatest)),
        // Less than I in place of at most, and more in place of at least.
        RootBelowItsSquare => (lower_root(least - 1), upper_root(greatest)),
        RootAboveItsSquare => (lower_root(least), upper_root(greatest + 1)),
        _ => (lower_root(least), upper_root(greatest)),
    }
}

/// The lower e and the upper e, in thousandths.
fn exponents(fault: Fault, (lower, upper): (i128, i128)) -> (u32, u32) {
    match fault {
        LowerExponentUp => (thousandths_from(lower), thousandths_from(upper)),
        UpperExponentDown => (thousandths_up_to(lower), thousandths_up_to(upper)),
        ExponentUnsquared => {
            let (down, _) = unsquared(lower);
            let (_, up) = unsquared(upper);
            (down, up)
        }
        _ => (thousandths_up_to(lower), thousandths_from(upper)),
    }
}

/// s/(1+s) − 0.3 s at so many steps, in thousandths: rounded down and up.
fn unsquared(steps: i128) -> (u32, u32) {
    let beyond_one = ROOT_STEPS + steps;
    let numerator = i128::from(THOUSANDTHS) * steps * (10 * ROOT_STEPS - 3 * beyond_one);
    let denominator = 10 * ROOT_STEPS * beyond_one;
    let up = -(-numerator).div_euclid(denominator);
    (numerator.div_euclid(denominator) as u32, up as u32)
}

/// The ends of 10^9 y².
fn bracket(fault: Fault, (lower, upper): (u32, u32)) -> Bracket {
    let of = |least: i128, greatest: i128| Bracket { least, greatest };
    match fault {
        // 10^(9 − e/2), and 10^(9 + e), which is 10^18 by 10^(9 − e).
        RootOfTheSquare => of(
            floor_of_power(upper.div_ceil(2)),
            floor_of_power(lower / 2) + 1,
        ),
        MinusSignLost => of(
            SQUARE_UNIT * SQUARE_UNIT / (floor_of_power(lower) + 1),
            SQUARE_UNIT * SQUARE_UNIT / floor_of_power(upper) + 1,
        ),
        NoneAdded => of(floor_of_power(upper), floor_of_power(lower)),
        _ => of(floor_of_power(upper), floor_of_power(lower) + 1),
    }
}

/// The plain sum compared with y² × CM: where 10^9 × the sum, times 100, is from
/// y² × the least limit to y² × the greatest.
fn correct_the_measured(check: &Conductivity, bracket: Bracket, sums: Ends<i128>) -> Verdict {
    let (from, to) = check.limits();
    let Ends { least, greatest } = sums.both(|sum| 100 * SQUARE_UNIT * sum);
    let (from, to) = (from / SQUARE_UNIT, to / SQUARE_UNIT);
    if from * bracket.greatest <= least && greatest <= to * bracket.least {
        Verdict::Within
    } else if greatest < from * bracket.least || to * bracket.greatest < least {
        Verdict::Outside
    } else {
        Verdict::Undecided
    }
}

#[cfg(test)]
mod tests {
    use super::*;
    use crate::faults::{stored_records, CORRECTION};
    use reference::cases::bottle::{plausible, Bottle};
    use reference::cases::generator::Generator;
    use reference::checks::conductivity;

    fn record(bottle: &Bottle) -> Record {
        Record::read(bottle.words()).expect("a record")
    }

    /// A fault of something else leaves every step as it is.
    #[test]
    fn without_a_fault_here_the_verdict_is_right() {
        let mut generator = Generator::new(8);
        for _ in 0..2_000 {
            let record = record(&plausible(&mut generator));
            let Some(check) = Conductivity::of(&record) else {
                continue;
            };
            let found = verdict(Fault::TieGoesDown, &record, &check);
            assert_eq!(found, conductivity(&record));
        }
    }

    /// Each fault changes verdicts among the stored cases, too.
    #[test]
    fn the_stored_cases_tell_every_fault() {
        let records = stored_records();
        for fault in CORRECTION {
            let changed = records.iter().filter(|record| {
                Conductivity::of(record)
                    .is_some_and(|check| verdict(fault, record, &check) != conductivity(record))
            });
            let times = changed.count();
            assert!(times >= 10, "{fault:?} changes {times} verdicts");
        }
    }

    /// The printed sample's bracket with each fault of its steps.
    #[test]
    fn each_fault_makes_its_own_bracket() {
        let record = record(&Bottle::printed());
        let check = Conductivity::of(&record).expect("all ions");
        let h = i128::from(record.ph.floor());
        let ends = |fault: Fault| {
            let roots = roots(fault, strengths(fault, &record, &check, [h; 2]));
            let Bracket { least, greatest } = bracket(fault, exponents(fault, roots));
            (least, greatest)
        };
        let (tenth, ninth) = (977_237_220, 979_489_985);
        let eleventh = 974_989_637;
        assert_eq!(ends(Fault::TieGoesDown), (eleventh, tenth + 1));
        assert_eq!(ends(NoneAdded), (eleventh, tenth));
        assert_eq!(ends(LowerExponentUp), (eleventh, eleventh + 1));
        assert_eq!(ends(UpperExponentDown), (tenth, tenth + 1));
        assert_eq!(ends(AlkalinityLeftOut), (eleventh, tenth + 1));
        assert_eq!(ends(HydrogenLeftOut), (eleventh, tenth + 1));
        assert_eq!(ends(CalciumOfChargeOne), (eleventh, tenth + 1));
        assert_eq!(ends(RootOfTheSquare), (986_279_485, 988_553_095));
        assert!(ends(MinusSignLost).0 > SQUARE_UNIT);
        assert!(ends(ExponentUnsquared).0 > ninth);
    }
}
