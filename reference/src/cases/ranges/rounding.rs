//! Call 7: limits whose half and whole round apart. An odd amount's half is a tie
//! or next to one: twice the half's amount is one more or one less than the
//! limit's.

use crate::cases::bottle::Bottle;
use crate::cases::floats::least_float_of;
use crate::cases::Cases;
use crate::numbers::{
    AMMONIUM, CHLORIDE, LEAST_LIMIT_BITS, MOST_AMOUNT, NITRATE, SODIUM, TOTAL_NITROGEN,
};

/// Odd amounts of limits: the least that there is, one that is a tie itself when
/// halved, and great ones.
const ODD: [u32; 6] = [11, 25, 313, 2_501, 50_001, 1_999_999];

/// The first float and the last one of an amount.
fn ends_of(amount: u32) -> [u32; 2] {
    let first = least_float_of(amount).max(LEAST_LIMIT_BITS);
    [first, least_float_of(amount + 1) - 1]
}

pub fn all(cases: &mut Cases) {
    for amount in ODD {
        for limit in ends_of(amount) {
            in_nitrogen(cases, amount, limit);
            in_the_ratio(cases, amount, limit);
        }
    }
}

/// Total nitrogen about the limit of nitrate, and total nitrogen's own limit
/// about nitrate.
fn in_nitrogen(cases: &mut Cases, amount: u32, limit: u32) {
    let bottle = Bottle::printed().amount(AMMONIUM, 0);
    for other in amount - 1..=amount + 1 {
        let below = bottle.below(NITRATE, limit).amount(TOTAL_NITROGEN, other);
        cases.judge(&below);
        let below = bottle.below(TOTAL_NITROGEN, limit).amount(NITRATE, other);
        cases.judge(&below);
    }
}

/// The last chloride of which sodium's limit is half, and the next; so also for
/// one more and one less of sodium.
fn in_the_ratio(cases: &mut Cases, amount: u32, limit: u32) {
    let below = Bottle::printed().below(SODIUM, limit);
    for sodium in amount - 1..=amount + 1 {
        let chloride = (2 * 4_350 * u64::from(sodium) / 2_821) as u32;
        for chloride in [chloride, chloride + 1] {
            if chloride <= MOST_AMOUNT {
                cases.judge(&below.amount(CHLORIDE, chloride));
            }
        }
    }
}

#[cfg(test)]
mod tests {
    use super::*;
    use crate::checks::{nitrogen, sodium_chloride};
    use crate::readings::Reading;
    use crate::record::Record;

    /// Whether twice the half of a limit is another amount than the limit's.
    fn rounds_apart(limit: u32) -> bool {
        let Ok(below) = Reading::below(limit) else {
            return false;
        };
        let whole = below.range().map(|range| range.greatest);
        whole != below.amount().map(|half| 2 * half)
    }

    #[test]
    fn all_of_these_limits_round_apart() {
        for amount in ODD {
            assert!(ends_of(amount).into_iter().all(rounds_apart), "{amount}");
        }
        assert!(!rounds_apart(LEAST_LIMIT_BITS));
    }

    /// Verdicts where only the limit's own amount is right.
    #[test]
    fn twice_the_half_would_be_judged_otherwise() {
        let [first, last] = ends_of(25);
        let record = |bottle: Bottle| Record::read(bottle.words()).expect("a record");
        for limit in [first, last] {
            let bottle = Bottle::printed().amount(AMMONIUM, 0).below(NITRATE, limit);
            let at = |total| nitrogen(&record(bottle.amount(TOTAL_NITROGEN, total))).number();
            assert_eq!([24, 25, 26].map(at), [3, 1, 1]);
            let bottle = Bottle::printed().below(SODIUM, limit);
            let at =
                |chloride| sodium_chloride(&record(bottle.amount(CHLORIDE, chloride))).number();
            // 2 × 4350 × 25 is 77.1 × 2821.
            assert_eq!([77, 78].map(at), [3, 2]);
        }
    }
}
