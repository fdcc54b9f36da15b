//! Bottles by their ionic strength: on a square and beside it, where e passes a
//! thousandth, and of high strength.
//!
//! Twice the strength is a sum of charges times 1 or 2. All of it but hydrogen's
//! part is a multiple of 10^3 u, and so is the square of every multiple of
//! 10^−6: where hydrogen is whole a square can be met, elsewhere no strength
//! with h or h + 1 is one, as no such floor ends in 000 or 999.

use crate::ions::{drawn_below, inverse, Ions};
use crate::numbers::{
    AMMONIUM, AMOUNT_CHARGE, CALCIUM, CHLORIDE, IONS, LEAST_PH, MAGNESIUM, MOST_ALKALINITY,
    MOST_AMOUNT, MOST_PH, NITRATE, POTASSIUM, SODIUM, SOIL_WATER, SULPHATE,
};
use crate::random::Draw;
use reference::cases::bottle::Bottle;
use reference::cases::generator::Generator;
use reference::cases::solver::{Fixed, ENDS, TENTH_CHARGES};
use reference::cases::strength::{square_of, sums_about};
use reference::hydrogen::Ph;
use reference::ions::{ALKALINITY_VALENCE, TABLE};

/// How often the ions are drawn again before a search gives up.
const DRAWS: usize = 100;
/// The most steps of s, and the most thousandths of e, that are drawn: there may
/// be a few more.
const MOST_STEPS: u32 = 270_000;
const MOST_THOUSANDTHS: u32 = 190;

/// A bottle with a strength where the verdict may hang on it, half of them at
/// whole pH.
pub fn bottle_of_strength(generator: &mut Generator) -> Option<Bottle> {
    let p = match generator.below(2) {
        0 => 100 * generator.between(4, MOST_PH / 100),
        _ => generator.between(LEAST_PH, MOST_PH),
    };
    let ph = Ph::new(p).ok()?;
    let sum = drawn_sum(generator);
    let rest = (sum - i128::from(ph.floor())).div_euclid(AMOUNT_CHARGE);
    // Of below readings the least strength has all at 0, the greatest all at
    // their limits: one of the two is what was drawn.
    let most = (rest / 40_000).clamp(0, i128::from(MOST_AMOUNT)) as u32;
    let below = drawn_below(generator, &MAY_BE_BELOW, most);
    let end = generator.pick(&ENDS);
    let fixed = below.at(|_| end);
    let ions = (0..DRAWS).find_map(|_| ions_weighing(generator, rest, &fixed))?;
    let bottle = ions.bottle_with(generator, ph, &below);
    Some(bottle.kind(SOIL_WATER))
}

/// The ions that may be below their limits: the search needs chloride.
const MAY_BE_BELOW: [usize; 7] = [
    AMMONIUM, CALCIUM, MAGNESIUM, SODIUM, POTASSIUM, SULPHATE, NITRATE,
];

/// Twice a strength in u: mostly next to a thousandth of e, between its two
/// squares or on both sides of one of them; else on any square or beside it.
fn drawn_sum(generator: &mut Generator) -> i128 {
    let thousandths = 1 + generator.of_any_size(MOST_THOUSANDTHS - 1);
    let sums = sums_about(thousandths);
    match generator.below(8) {
        0 => {
            let [_, after, before, _] = sums.map(|sum| (sum / AMOUNT_CHARGE) as u64);
            i128::from(generator.wide_between(after, before)) * AMOUNT_CHARGE
        }
        1 => {
            let square = square_of(i128::from(generator.between(1, MOST_STEPS)));
            square + generator.pick(&[-1, 0, 1]) * AMOUNT_CHARGE
        }
        _ => generator.pick(&sums),
    }
}

/// What an ion of this amount adds to the sum, in units of 10^3 u.
fn weight(ion: usize, amount: u32) -> i128 {
    TABLE[ion].valence * TABLE[ion].factor * i128::from(amount)
}

/// What a tenth of a µeq/L of alkalinity adds, in the same units.
const TENTH: i128 = ALKALINITY_VALENCE * TENTH_CHARGES;

/// Draws all but chloride and alkalinity; chloride is what leaves a whole number
/// of tenths of a µeq/L to alkalinity.
fn ions_weighing(generator: &mut Generator, sum: i128, fixed: &Fixed) -> Option<Ions> {
    const FACTOR: i128 = TABLE[CHLORIDE].valence * TABLE[CHLORIDE].factor;
    const INVERSE: i128 = inverse(FACTOR, TENTH);
    let drawn = drawn_for(generator, sum);
    let mut amounts: [u32; IONS] = std::array::from_fn(|ion| fixed[ion].unwrap_or(drawn[ion]));
    amounts[CHLORIDE] = 0;
    let drawn: i128 = (0..IONS).map(|ion| weight(ion, amounts[ion])).sum();
    let rest = sum - drawn;
    let mut amounts = amounts.map(i128::from);
    amounts[CHLORIDE] = (rest * INVERSE).rem_euclid(TENTH);
    Ions::checked(amounts, (rest - amounts[CHLORIDE] * FACTOR) / TENTH)
}

/// Now anything up to a share of the sum each, now about as much of each as
/// makes the sum with all the others.
fn drawn_for(generator: &mut Generator, sum: i128) -> [u32; IONS] {
    let most = i128::from(MOST_AMOUNT);
    let every: i128 = (0..IONS).map(|ion| weight(ion, MOST_AMOUNT)).sum();
    let level = most * sum / (every + TENTH * i128::from(MOST_ALKALINITY));
    let part = sum / generator.pick(&[4, 12]);
    let is_level = generator.once_in(2);
    std::array::from_fn(|ion| {
        let drawn = if is_level {
            generator.near(level.clamp(0, most) as u32, 30)
        } else {
            generator.below((part / weight(ion, 1)).clamp(0, most) as u32 + 1)
        };
        drawn.min(MOST_AMOUNT)
    })
}

#[cfg(test)]
mod tests {
    use super::*;
    use reference::activity::{lower_root, thousandths_from, thousandths_up_to, upper_root};
    use reference::checks::Conductivity;
    use reference::record::Record;

    /// On a square; on neither side of a thousandth alone, with the lower e or
    /// the upper e just past it or just not; strong water. All are common, where
    /// all below readings are at 0 and where all are at their limits.
    #[test]
    fn squares_thousandths_and_strong_water_are_common() {
        let mut generator = Generator::new(7);
        let mut times = [[0; 4]; 2];
        for bottle in (0..4_000).filter_map(|_| bottle_of_strength(&mut generator)) {
            let record = Record::read(bottle.words()).expect("a record");
            let check = Conductivity::of(&record).expect("all ions");
            let ends = [check.weighed.least, check.weighed.greatest];
            for (times, weighed) in times.iter_mut().zip(ends) {
                let sum = weighed + i128::from(record.ph.floor());
                let (lower, upper) = (lower_root(sum), upper_root(sum));
                let (low_e, high_e) = (thousandths_up_to(lower), thousandths_from(upper));
                times[0] += u32::from(lower == upper);
                times[1] += u32::from(high_e == low_e + 2);
                times[2] += u32::from(thousandths_from(upper + 1) > high_e);
                times[3] += u32::from(low_e > 100);
            }
        }
        assert!(
            times.iter().flatten().all(|&times| times > 100),
            "{times:?}"
        );
    }

    /// Below readings that span several thousandths of e.
    #[test]
    fn wide_brackets_are_common() {
        let mut generator = Generator::new(8);
        let mut wide = 0;
        for bottle in (0..2_000).filter_map(|_| bottle_of_strength(&mut generator)) {
            let record = Record::read(bottle.words()).expect("a record");
            let check = Conductivity::of(&record).expect("all ions");
            let low = thousandths_up_to(lower_root(check.weighed.least));
            wide += u32::from(thousandths_from(upper_root(check.weighed.greatest)) > low + 3);
        }
        assert!(wide > 100, "{wide}");
    }
}
