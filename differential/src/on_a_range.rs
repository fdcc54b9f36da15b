//! Bottles whose Na/Cl or nitrogen changes its verdict with the next amount,
//! where a below reading is at one end of its range.

use crate::bottles::everyday;
use crate::floats::{any_float, any_limit_with, any_reading};
use crate::numbers::{
    AMMONIUM, CHLORIDE, LEAST_LIMIT, MOST_AMOUNT, MOST_TRACE, NITRATE, SODIUM, TOTAL_NITROGEN,
};
use reference::cases::bottle::Bottle;
use reference::cases::generator::Generator;
use reference::ions::TABLE;

/// Now the one, now the other.
pub fn bottle_on_a_range(generator: &mut Generator) -> Bottle {
    let bottle = everyday(generator);
    match generator.below(3) {
        0 => ratio(generator, &bottle),
        1 => nitrogen_below(generator, &bottle),
        _ => total_below(generator, &bottle),
    }
}

/// The amount of a limit: a trace as often as anything.
fn limit_amount(generator: &mut Generator) -> u32 {
    let most = generator.pick(&[30, MOST_TRACE, 30_000, MOST_AMOUNT]);
    generator.between(LEAST_LIMIT, most)
}

fn measured(generator: &mut Generator, bottle: &Bottle, place: usize, amount: u32) -> Bottle {
    let amount = amount.min(MOST_AMOUNT);
    bottle.reading(place, 1, any_float(generator, amount))
}

fn below(generator: &mut Generator, bottle: &Bottle, place: usize, amount: u32) -> Bottle {
    bottle.below(place, any_limit_with(generator, amount))
}

/// Sodium below its limit, and chloride about the double of that in charge, or
/// about two thirds of it; some with chloride below its own limit.
fn ratio(generator: &mut Generator, bottle: &Bottle) -> Bottle {
    let limit = match generator.below(3) {
        // Those of which the double and two thirds are whole.
        0 => TABLE[CHLORIDE].factor as u32 * generator.between(1, 200),
        _ => limit_amount(generator),
    };
    let bottle = below(generator, bottle, SODIUM, limit);
    let charge = TABLE[SODIUM].factor * i128::from(limit) * generator.pick(&[2, 6, 1]);
    let chloride = charge / TABLE[CHLORIDE].factor / generator.pick(&[1, 9]);
    let chloride = (chloride.min(i128::from(MOST_AMOUNT)) as u32 + generator.below(3)).max(1) - 1;
    match generator.below(12) {
        0 => {
            let limit = limit_amount(generator);
            let bottle = below(generator, &bottle, CHLORIDE, limit);
            match generator.below(3) {
                0 => bottle.missing(SODIUM),
                1 => measured(generator, &bottle, SODIUM, limit),
                _ => bottle,
            }
        }
        1 => bottle.missing(CHLORIDE),
        _ => measured(generator, &bottle, CHLORIDE, chloride),
    }
}

/// Nitrate, ammonium or both below their limits, and total nitrogen about the
/// least sum of them or about the greatest.
fn nitrogen_below(generator: &mut Generator, bottle: &Bottle) -> Bottle {
    let [nitrate, ammonium] = [(); 2].map(|()| limit_amount(generator).min(MOST_AMOUNT / 2));
    let both = generator.once_in(2);
    let bottle = below(generator, bottle, NITRATE, nitrate);
    let bottle = match both {
        true => below(generator, &bottle, AMMONIUM, ammonium),
        false => measured(generator, &bottle, AMMONIUM, ammonium),
    };
    let least = if both { 0 } else { ammonium };
    let sum = generator.pick(&[least, nitrate + ammonium, nitrate / 2 + ammonium]);
    let total = (sum + generator.below(3)).max(1) - 1;
    measured(generator, &bottle, TOTAL_NITROGEN, total)
}

/// Total nitrogen below its limit, and the others about that, or next to none.
fn total_below(generator: &mut Generator, bottle: &Bottle) -> Bottle {
    let limit = limit_amount(generator);
    let bottle = below(generator, bottle, TOTAL_NITROGEN, limit);
    let (nitrate, ammonium) = match generator.below(4) {
        0 => (generator.below(2), generator.below(2)),
        _ => {
            let nitrate = generator.below(limit + 1);
            let sum = (limit + generator.below(3)).max(1) - 1;
            (nitrate, sum.saturating_sub(nitrate))
        }
    };
    let bottle = measured(generator, &bottle, NITRATE, nitrate);
    match generator.below(4) {
        0 => {
            let (mark, bits) = any_reading(generator, ammonium.min(MOST_AMOUNT));
            bottle.reading(AMMONIUM, mark, bits)
        }
        _ => measured(generator, &bottle, AMMONIUM, ammonium),
    }
}

#[cfg(test)]
mod tests {
    use super::*;
    use crate::answers::judge;
    use crate::numbers::{NITROGEN_CHECK, RATIO_CHECK};
    use reference::record::Record;

    /// Sodium's limit exactly half of chloride in charge; total nitrogen exactly
    /// the greatest sum, exactly the least; its limit exactly the sum.
    #[test]
    fn both_ends_are_met_exactly_and_often() {
        let mut generator = Generator::new(31);
        let mut times = [0; 4];
        for _ in 0..20_000 {
            let bottle = bottle_on_a_range(&mut generator);
            let record = Record::read(bottle.words()).expect("a record");
            let range = |place: usize| record.range(place);
            if let (Some(sodium), Some(chloride)) = (range(SODIUM), range(CHLORIDE)) {
                let half = 8_700 * u64::from(sodium.greatest) == 2_821 * u64::from(chloride.least);
                times[0] += u32::from(half && sodium.least == 0 && chloride.least > 0);
            }
            if let (Some(total), Some(nitrate), Some(ammonium)) =
                (range(TOTAL_NITROGEN), range(NITRATE), range(AMMONIUM))
            {
                let is_range = nitrate.least < nitrate.greatest;
                let greatest = nitrate.greatest + ammonium.greatest;
                let least = nitrate.least + ammonium.least;
                times[1] += u32::from(is_range && total.least == greatest);
                times[2] += u32::from(is_range && total.greatest == least);
                times[3] += u32::from(!is_range && total.least == 0 && total.greatest == least);
            }
        }
        assert!(times.iter().all(|&times| times > 80), "{times:?}");
    }

    #[test]
    fn every_verdict_is_common() {
        let mut generator = Generator::new(32);
        let mut times = [[0; 5]; 2];
        for _ in 0..10_000 {
            let bottle = bottle_on_a_range(&mut generator);
            let verdicts = judge(bottle.words()).expect("a record");
            for (times, check) in times.iter_mut().zip([RATIO_CHECK, NITROGEN_CHECK]) {
                times[verdicts[check] as usize] += 1;
            }
        }
        let common = |times: &[u32; 5]| times.iter().all(|&times| times > 50);
        assert!(times.iter().all(common), "{times:?}");
    }
}
