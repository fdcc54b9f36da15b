use super::*;
use crate::cases::bottle::{plausible, Bottle};
use crate::cases::generator::Generator;
use crate::checks::Conductivity;
use crate::hydrogen::Ph;
use crate::numbers::{
    CALCIUM, LEAST_PH, MAGNESIUM, MOST_ALKALINITY, MOST_AMOUNT, MOST_PH, SULPHATE,
};
use crate::record::Record;

/// Twice the strength of the most ions that a record may have.
fn most_weighed() -> i128 {
    let acid = Ph::new(LEAST_PH).map_or(0, |ph| i128::from(ph.floor()));
    weighed_with(
        acid,
        weighed_without_hydrogen(&[MOST_AMOUNT; IONS], MOST_ALKALINITY),
    )
}

/// Every step of s that a record may have.
fn every_step() -> std::ops::RangeInclusive<i128> {
    0..=upper_root(most_weighed())
}

/// "Half the sum, over all ten rows, of equivalents per litre times the ion's
/// charge; Ca, Mg and SO4 have charge 2, the others 1."
#[test]
fn all_ten_rows_are_weighed() {
    for ion in 0..IONS {
        let mut amounts = [0; IONS];
        amounts[ion] = 1;
        let valence = match ion {
            CALCIUM | MAGNESIUM | SULPHATE => 2,
            _ => 1,
        };
        let weighed = weighed_without_hydrogen(&amounts, 0);
        assert_eq!(weighed, valence * charge(ion, 1), "ion {ion}");
    }
    let alkalinity = weighed_without_hydrogen(&[0; IONS], 1);
    assert_eq!(
        (alkalinity, weighed_with(7, alkalinity)),
        (100_000_000, 100_000_007)
    );
}

/// The printed sample: 10 µeq/L of hydrogen, 17.8475 of ammonium, 24.95 of
/// calcium, 43.5 of sodium, 31.185 of sulphate, 17.8475 of nitrate, 42.315 of
/// chloride; calcium and sulphate twice.
#[test]
fn the_printed_sample_has_its_strength() {
    let record = Record::read(Bottle::printed().words()).expect("a record");
    let check = Conductivity::of(&record).expect("all ions");
    let weighed = weighed_with(10_000_000_000, check.weighed.least);
    assert_eq!(weighed, 243_780_000_000);
    // I is 0.00012189, s from 0.011040 to 0.011041, e from 0.0108828 on.
    assert_eq!((lower_root(weighed), upper_root(weighed)), (11_040, 11_041));
    assert_eq!(
        (thousandths_up_to(11_040), thousandths_from(11_041)),
        (10, 11)
    );
    let bracket = check.bracket(10_000_000_000, true);
    let (least, greatest) = (floor_of_power(11), floor_of_power(10) + 1);
    assert_eq!(bracket, Bracket { least, greatest });
    assert_eq!((least, greatest), (974_989_637, 977_237_221));
}

/// "The lower s is the greatest multiple of 10^−6 whose square is at most the
/// least I; the upper s is the least multiple whose square is at least the
/// greatest I." Of k steps the square is that of 2,000 × k² u.
#[test]
fn roots_at_squares_and_beside_them() {
    for k in [1, 2, 7, 999, 11_040, 100_000, *every_step().end()] {
        let square = 2_000 * k * k;
        let roots = |sum: i128| (lower_root(sum), upper_root(sum));
        assert_eq!(roots(square - 1), (k - 1, k));
        assert_eq!(roots(square), (k, k));
        assert_eq!(roots(square + 1), (k, k + 1));
    }
    assert_eq!((lower_root(0), upper_root(0)), (0, 0));
}

/// All but hydrogen's part of the sum is a multiple of 10^3 u, and so is every
/// square: where hydrogen isn't whole none is at h, so that one u more has the
/// same upper s.
#[test]
fn no_square_is_at_the_floor_of_broken_hydrogen() {
    for p in (LEAST_PH..=MOST_PH).filter(|p| p % 100 != 0) {
        let floor = Ph::new(p).map(Ph::floor);
        assert!(floor.is_ok_and(|h| h % 1_000 != 0), "p {p}");
    }
}

/// No record has so little: even at pH 10 hydrogen alone makes s more than 0.
#[test]
fn without_ions_both_ends_stand_beside_the_whole_power() {
    assert_eq!((thousandths_up_to(0), thousandths_from(0)), (0, 0));
    let (least, greatest) = (SQUARE_UNIT, SQUARE_UNIT + 1);
    assert_eq!(Bracket::of(0, 0), Bracket { least, greatest });
    let basic = Ph::new(MOST_PH).map_or(0, |ph| i128::from(ph.floor()));
    assert_eq!((lower_root(basic), upper_root(basic)), (7, 8));
}

/// e "grows with s over every record", and it is a whole number of thousandths
/// at s = 0 alone: at every other s the lower e and the upper e are neighbours.
#[test]
fn e_grows_and_lies_between_neighbouring_thousandths() {
    let mut before = None;
    for steps in every_step() {
        let e = exponent_at(steps);
        if let Some((numerator, denominator)) = before {
            assert!(numerator * e.1 < e.0 * denominator, "{steps} steps");
        }
        before = Some(e);
        let (lower, upper) = (thousandths_up_to(steps), thousandths_from(steps));
        assert_eq!(upper, lower + u32::from(steps > 0), "{steps} steps");
    }
}

/// At a thousandth the lower e goes on with the first step that is beyond it,
/// the upper e with that step too: the one before has it as its upper e.
#[test]
fn thousandths_of_e() {
    let most = thousandths_up_to(*every_step().end());
    assert_eq!(most, 194);
    for thousandth in 1..=most {
        let first = first_where(|steps| {
            let (numerator, denominator) = exponent_at(steps);
            1_000 * numerator >= i128::from(thousandth) * denominator
        });
        assert_eq!(thousandths_up_to(first - 1), thousandth - 1);
        assert_eq!(thousandths_up_to(first), thousandth);
        assert_eq!(thousandths_from(first - 1), thousandth);
        assert_eq!(thousandths_from(first), thousandth + 1);
    }
}

/// Ten thousandths of e are a hundredth of pH: "its floor h is the greatest
/// whole number whose hundredth power" is small enough, from 10^9 at p 600 on.
#[test]
fn every_tenth_floor_is_a_floor_of_hydrogen() {
    for hundredth in 0..=100 {
        let floor = Ph::new(600 + hundredth).map(Ph::floor);
        assert_eq!(floor, Ok(search_floor(10 * hundredth)));
    }
}

#[test]
fn floors_are_the_greatest_that_are_small_enough() {
    for thousandths in 0..=thousandths_from(*every_step().end()) {
        let power = Big::new(10).power(9_000 - thousandths);
        let floor = floor_of_power(thousandths) as u128;
        assert!(Big::new(floor).power(1_000) <= power);
        assert!(Big::new(floor + 1).power(1_000) > power);
    }
}

/// "The crawled formula lost the minus sign": y² as the machine's floats have
/// it is below 1, and in its bracket.
#[test]
fn y_squared_is_in_its_bracket() {
    let mut generator = Generator::new(13);
    for _ in 0..1_000 {
        let record = Record::read(plausible(&mut generator).words()).expect("a record");
        let Some(check) = Conductivity::of(&record) else {
            continue;
        };
        let h = i128::from(record.ph.floor());
        let bracket = check.bracket(h, record.ph.has_whole_hydrogen());
        let strength = weighed_with(h, check.weighed.least) as f64 / 2e15;
        let e = strength.sqrt() / (1.0 + strength.sqrt()) - 0.3 * strength;
        let square = 1e9 * 10f64.powf(-e);
        assert!(bracket.least as f64 <= square && square <= bracket.greatest as f64);
        assert!(bracket.least < bracket.greatest && bracket.greatest <= SQUARE_UNIT + 1);
    }
}
