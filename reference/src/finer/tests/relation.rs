//! When a second record is a finer one.

use super::finer;
use crate::cases::bottle::Bottle;
use crate::cases::floats::{float_of, least_float_of};
use crate::finer::is_finer;
use crate::numbers::{
    ALKALINITY, CHLORIDE, CONDUCTIVITY, KIND, LEAST_LIMIT_BITS, MOST_AMOUNT, MOST_BITS,
    NUMBER_HIGH, NUMBER_LOW, ORGANIC_CARBON, PH, POTASSIUM, RECORD_WORDS, SODIUM,
};

/// A limit of 100 tenths of a µg/L, and the first float of 101 of them.
fn limit_and_next() -> (u32, u32) {
    (float_of(100), least_float_of(101))
}

/// Potassium below that limit.
fn old() -> Bottle {
    Bottle::printed().below(POTASSIUM, limit_and_next().0)
}

#[test]
fn a_record_is_a_finer_one_of_itself() {
    for bottle in [Bottle::printed(), Bottle::doubtful(), old()] {
        assert!(finer(&bottle, &bottle));
    }
}

/// "Lower limits": a step of the float lower and the least, not a step higher,
/// though its amount is the same.
#[test]
fn a_lower_limit_is_a_lower_float() {
    let (limit, _) = limit_and_next();
    let below = |bits: u32| finer(&old(), &old().below(POTASSIUM, bits));
    assert!(below(limit - 1));
    assert!(below(LEAST_LIMIT_BITS));
    assert!(below(limit));
    assert!(!below(limit + 1));
    assert!(!below(MOST_BITS));
    // No record has a lower one.
    assert!(!below(LEAST_LIMIT_BITS - 1));
}

/// "Measured inside the old range" is by amounts: from 0 to the limit's own, both
/// included, and with it every float of that amount.
#[test]
fn measured_inside_is_by_amounts() {
    let (limit, next) = limit_and_next();
    let measured = |bits: u32| finer(&old(), &old().reading(POTASSIUM, 1, bits));
    for inside in [0, 1, LEAST_LIMIT_BITS, float_of(50), limit - 1, limit] {
        assert!(measured(inside), "{inside:#010X}");
    }
    // Above the limit, and still 100 tenths of a µg/L.
    assert!(limit + 1 < next);
    assert!(measured(limit + 1));
    assert!(measured(next - 1));
    // One tenth more.
    assert!(!measured(next));
    assert!(!measured(MOST_BITS));
}

#[test]
fn the_ends_of_all_limits() {
    let (least, greatest) = [LEAST_LIMIT_BITS, MOST_BITS]
        .map(|limit| old().below(POTASSIUM, limit))
        .into();
    assert!(finer(&greatest, &least));
    assert!(!finer(&least, &greatest));
    // 2^−10 mg/L is 9.77 tenths of a µg/L: its range ends at 10.
    assert!(finer(&least, &old().amount(POTASSIUM, 10)));
    assert!(!finer(&least, &old().amount(POTASSIUM, 11)));
    assert!(finer(&greatest, &old().amount(POTASSIUM, MOST_AMOUNT)));
}

/// "With DOC unchanged", whether its limit is lower or it is measured inside.
#[test]
fn carbon_may_not_change() {
    let (limit, _) = limit_and_next();
    let carbon = old().below(ORGANIC_CARBON, limit);
    assert!(finer(&carbon, &carbon.amount(POTASSIUM, 0)));
    assert!(!finer(&carbon, &carbon.below(ORGANIC_CARBON, limit - 1)));
    assert!(!finer(&carbon, &carbon.reading(ORGANIC_CARBON, 1, limit)));
    assert!(!finer(&carbon, &carbon.missing(ORGANIC_CARBON)));
}

/// "Differs only in that": every word before the readings.
#[test]
fn other_words_may_not_change() {
    let head = [NUMBER_HIGH, NUMBER_LOW, KIND, PH, CONDUCTIVITY, ALKALINITY];
    for place in head {
        let other = old().word(place, old().words()[place] + 1);
        assert!(finer(&other, &other));
        assert!(!finer(&old(), &other), "word {place}");
        assert!(!finer(&old(), &other.amount(POTASSIUM, 0)), "word {place}");
    }
}

/// Only below readings may change: a missing one stays missing, a measured one has
/// its own float, though another has the same amount.
#[test]
fn missing_and_measured_readings_stay() {
    let (float, _) = limit_and_next();
    let missing = old().missing(POTASSIUM);
    let measured = old().reading(POTASSIUM, 1, float);
    for other in [measured.clone(), old()] {
        assert!(!finer(&missing, &other));
        assert!(!finer(&other, &missing));
    }
    assert!(!finer(&measured, &old()));
    assert!(!finer(&measured, &old().below(POTASSIUM, LEAST_LIMIT_BITS)));
    for beside in [float - 1, float + 1] {
        assert!(!finer(&measured, &old().reading(POTASSIUM, 1, beside)));
    }
}

#[test]
fn several_readings_at_once_and_each_has_to_be_finer() {
    let (limit, next) = limit_and_next();
    let several = old().below(SODIUM, limit).below(CHLORIDE, limit);
    let two = several
        .amount(POTASSIUM, 0)
        .below(CHLORIDE, LEAST_LIMIT_BITS);
    assert!(finer(&several, &two));
    assert!(finer(&two, &two.reading(SODIUM, 1, limit)));
    assert!(finer(&several, &two.reading(SODIUM, 1, limit)));
    assert!(!finer(&several, &two.reading(SODIUM, 1, next)));
}

/// Both have to be records.
#[test]
fn what_is_refused_is_no_finer_record() {
    let (good, refused) = (old(), old().kind(0));
    assert!(!finer(&refused, &refused));
    assert!(!finer(&good, &refused));
    let shorter = &good.words()[..RECORD_WORDS - 1];
    assert!(!is_finer(good.words(), shorter));
    assert!(!is_finer(shorter, shorter));
}
