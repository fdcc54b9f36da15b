//! Call 7: Na/Cl with sodium or chloride below its limit.

use crate::cases::bottle::Bottle;
use crate::cases::floats::{float_of, limit_with};
use crate::cases::Cases;
use crate::numbers::{
    CHLORIDE, KINDS, LEAST_LIMIT, LEAST_LIMIT_BITS, MOST_AMOUNT, MOST_BITS, SODIUM,
};

pub fn all(cases: &mut Cases) {
    for kind in KINDS {
        let bottle = Bottle::printed().kind(kind);
        below_sodium(cases, &bottle);
        below_chloride(cases, &bottle);
        without_chloride(cases, &bottle);
    }
}

/// Sodium's limit at a ratio of 0.5 and of 1.5, and chloride a step beside; then
/// the ends of all limits. Half of each of these limits would be outside or
/// within by itself.
fn below_sodium(cases: &mut Cases, bottle: &Bottle) {
    for (limit, chloride) in [(2_821, 8_700), (5_642, 17_400), (2_821, 2_900)] {
        for limit in [limit - 1, limit, limit + 1] {
            let below = bottle.below(SODIUM, limit_with(limit));
            for chloride in [chloride - 1, chloride, chloride + 1] {
                cases.judge(&below.amount(CHLORIDE, chloride));
            }
        }
    }
    for (limit, chloride) in [
        (LEAST_LIMIT, 1),
        (LEAST_LIMIT, 30),
        (LEAST_LIMIT, 31),
        (MOST_AMOUNT, 1),
        (MOST_AMOUNT, MOST_AMOUNT),
        (1_000, 1_000),
        (2_000, 1_000),
    ] {
        let below = bottle.below(SODIUM, limit_with(limit));
        cases.judge(&below.amount(CHLORIDE, chloride));
    }
}

/// Chloride below its limit has no ratio, whatever sodium is.
fn below_chloride(cases: &mut Cases, bottle: &Bottle) {
    for limit in [LEAST_LIMIT_BITS, float_of(15_000), MOST_BITS] {
        let below = bottle.below(CHLORIDE, limit);
        cases.judge(&below.missing(SODIUM));
        cases.judge(&below.below(SODIUM, limit));
        for sodium in [0, 5, 5_000, 10_000] {
            cases.judge(&below.amount(SODIUM, sodium));
        }
    }
}

/// Chloride missing or measured as 0, sodium below its limit, missing or there.
fn without_chloride(cases: &mut Cases, bottle: &Bottle) {
    for bottle in [bottle.missing(CHLORIDE), bottle.amount(CHLORIDE, 0)] {
        cases.judge(&bottle);
        cases.judge(&bottle.missing(SODIUM));
        cases.judge(&bottle.below(SODIUM, LEAST_LIMIT_BITS));
        cases.judge(&bottle.below(SODIUM, MOST_BITS));
    }
}
