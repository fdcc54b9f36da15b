//! Bottles drawn at random whose records their own tests let pass.

use crate::below::some_below;
use crate::floats::{any_reading, scattered_reading};
use crate::numbers::{
    AMMONIUM, CONDUCTIVITY_TENTH, IONS, LEAST_PH, MOST_ALKALINITY, MOST_AMOUNT, MOST_CONDUCTIVITY,
    MOST_PH, MOST_TRACE, NITRATE, ORGANIC_CARBON, READINGS, SODIUM, SOIL_WATER, SQUARE_UNIT,
    TOTAL_NITROGEN, WET_ONLY,
};
use crate::random::Draw;
use crate::sample_numbers::any_number;
use reference::cases::bottle::Bottle;
use reference::cases::conducting::{bracket_of, tenths_at_edges};
use reference::cases::generator::Generator;
use reference::hydrogen::Ph;
use reference::ions::{
    alkalinity_charge, charge, ALKALINITY_CONDUCTANCE, ANIONS, CATIONS, HYDROGEN_CONDUCTANCE, TABLE,
};

/// Now as from the field, now anything a record may hold; of each some with one to
/// ten readings below their limits, and some with a measured conductivity next to
/// an end of their bracket.
pub fn any_bottle(generator: &mut Generator) -> Bottle {
    let bottle = if generator.once_in(4) {
        scattered(generator)
    } else {
        everyday(generator)
    };
    let bottle = match generator.below(4) {
        0 => some_below(generator, &bottle),
        _ => bottle,
    };
    if generator.once_in(8) {
        on_an_end(generator, bottle)
    } else {
        bottle
    }
}

/// The bottle measured next to an end of its bracket, where it has one.
fn on_an_end(generator: &mut Generator, bottle: Bottle) -> Bottle {
    match tenths_at_edges(&bottle).as_slice() {
        [] => bottle,
        tenths => bottle.conductivity(generator.pick(tenths)),
    }
}

/// Any record that isn't refused, hardly ever one that makes sense.
pub fn scattered(generator: &mut Generator) -> Bottle {
    let mut bottle = Bottle::printed()
        .number(any_number(generator))
        .kind(generator.between(WET_ONLY, SOIL_WATER))
        .ph(generator.between(LEAST_PH, MOST_PH))
        .conductivity(1 + generator.of_any_size(MOST_CONDUCTIVITY - 1))
        .alkalinity(generator.of_any_size(MOST_ALKALINITY));
    for place in 0..READINGS {
        let (mark, bits) = scattered_reading(generator);
        bottle = bottle.reading(place, mark, bits);
    }
    some_missing(generator, bottle)
}

/// A bottle as from the field: about balanced, its conductivity about what its
/// ions make, so that every verdict occurs.
pub fn everyday(generator: &mut Generator) -> Bottle {
    let mut draft = Draft::drawn(generator);
    draft.balance(generator);
    let conductivity = draft.conductivity(generator);
    let mut bottle = Bottle::printed()
        .number(any_number(generator))
        .kind(generator.between(WET_ONLY, SOIL_WATER))
        .ph(draft.ph)
        .conductivity(conductivity)
        .alkalinity(draft.alkalinity);
    for (place, amount) in draft.amounts.into_iter().enumerate() {
        let (mark, bits) = any_reading(generator, amount);
        bottle = bottle.reading(place, mark, bits);
    }
    some_missing(generator, bottle)
}

/// The amount of a trace: a few tenths of a µg/L as often as hundreds, or whole
/// µg/L, which another analysis can be exactly a tenth off.
pub fn trace(generator: &mut Generator) -> u32 {
    if generator.once_in(3) {
        10 * generator.between(1, MOST_TRACE / 10)
    } else {
        generator.of_any_size(MOST_TRACE)
    }
}

/// In one bottle of four readings are missing.
fn some_missing(generator: &mut Generator, mut bottle: Bottle) -> Bottle {
    if generator.once_in(4) {
        for _ in 0..generator.between(1, 3) {
            bottle = bottle.missing(generator.place(READINGS));
        }
    }
    bottle
}

/// A bottle in the making.
struct Draft {
    ph: u32,
    alkalinity: u32,
    amounts: [u32; READINGS],
}

impl Draft {
    fn drawn(generator: &mut Generator) -> Draft {
        // From thin rain, 5 µg/L, to what no field has, 40 mg/L and the most
        // there may be; in any of it one ion in eight is a trace.
        let most = generator.pick(&[50, 500, 5_000, 20_000, 60_000, 400_000, MOST_AMOUNT]);
        let mut amounts = [0; READINGS];
        for amount in &mut amounts[..IONS] {
            *amount = match generator.below(8) {
                0 => trace(generator),
                _ => generator.below(most),
            };
        }
        // From 10 tenths of a µg/L short to 29 over: equality and one short are
        // common, and so is what whole µg/L would take for either.
        let nitrogen = amounts[AMMONIUM] + amounts[NITRATE];
        let total = (nitrogen + generator.below(40)).saturating_sub(10);
        amounts[TOTAL_NITROGEN] = total.min(MOST_AMOUNT);
        amounts[ORGANIC_CARBON] = generator.below(90_000);
        let ph = match generator.below(3) {
            0 => 100 * generator.between(LEAST_PH / 100, MOST_PH / 100),
            1 => generator.between(LEAST_PH, MOST_PH),
            _ => generator.between(420, 720),
        };
        Draft {
            ph,
            alkalinity: 0,
            amounts,
        }
    }

    fn hydrogen(&self) -> i128 {
        Ph::new(self.ph).map_or(0, |ph| i128::from(ph.floor()))
    }

    fn charges(&self, ions: std::ops::Range<usize>) -> i128 {
        ions.map(|ion| charge(ion, self.amounts[ion])).sum()
    }

    /// Fills the smaller side up with alkalinity or with sodium, now closely,
    /// now carelessly.
    fn balance(&mut self, generator: &mut Generator) {
        let percent = generator.pick(&[3, 20, 60]);
        let surplus = self.hydrogen() + self.charges(CATIONS) - self.charges(ANIONS);
        if surplus > 0 {
            let tenths = (surplus / alkalinity_charge(1)).min(120_000) as u32;
            self.alkalinity = generator.near(tenths, percent);
        } else {
            let sodium = (-surplus / charge(SODIUM, 1)).min(900_000) as u32;
            let more = self.amounts[SODIUM] + generator.near(sodium, percent);
            self.amounts[SODIUM] = more.min(MOST_AMOUNT);
        }
    }

    /// A measured conductivity about the calculated one: a y² of its bracket times
    /// the plain sum.
    fn conductivity(&self, generator: &mut Generator) -> u32 {
        let ions = std::array::from_fn(|ion| self.amounts[ion]);
        let square = Ph::new(self.ph).map_or(SQUARE_UNIT, |ph| {
            bracket_of(&ions, self.alkalinity, ph).greatest
        });
        let part = |ion: usize| TABLE[ion].conductance * charge(ion, ions[ion]);
        let alkalinity = ALKALINITY_CONDUCTANCE * alkalinity_charge(self.alkalinity);
        let others = alkalinity + (0..IONS).map(part).sum::<i128>();
        let plain = HYDROGEN_CONDUCTANCE * self.hydrogen() + others;
        let calculated = square * plain / SQUARE_UNIT;
        let tenths = (calculated / CONDUCTIVITY_TENTH).min(70_000) as u32;
        generator.near(tenths, 35).clamp(1, MOST_CONDUCTIVITY)
    }
}

#[cfg(test)]
mod tests {
    use super::*;
    use crate::answers::judge;
    use crate::numbers::{CHECKS, MAGNESIUM, POTASSIUM};
    use reference::record::Record;

    #[test]
    fn every_bottle_is_a_record() {
        let mut generator = Generator::new(1);
        for _ in 0..5_000 {
            assert!(judge(any_bottle(&mut generator).words()).is_ok());
        }
    }

    #[test]
    fn every_verdict_is_common() {
        let mut generator = Generator::new(2);
        let mut times = [[0; 5]; CHECKS];
        for _ in 0..5_000 {
            let verdicts = judge(any_bottle(&mut generator).words());
            for (check, verdict) in verdicts.into_iter().flatten().enumerate() {
                times[check][verdict as usize] += 1;
            }
        }
        // Conductivity applies to every kind.
        for (check, first) in [0, 1, 0, 0].into_iter().enumerate() {
            let common = times[check][first..].iter().all(|&times| times > 50);
            assert!(common, "{times:?}");
        }
    }

    /// Traces of magnesium and of potassium beside ions that are none; total
    /// nitrogen equal to what it is compared with, and a tenth of a µg/L short.
    #[test]
    fn traces_and_the_limit_of_nitrogen_are_common() {
        let mut generator = Generator::new(3);
        let mut traces = [0; 2];
        let mut nitrogen = [0; 2];
        for _ in 0..5_000 {
            let bottle = everyday(&mut generator);
            let record = Record::read(bottle.words()).expect("a record");
            let beside_more =
                (0..IONS).any(|ion| record.amount(ion).is_some_and(|a| a > 10 * MOST_TRACE));
            for (times, ion) in traces.iter_mut().zip([MAGNESIUM, POTASSIUM]) {
                let is_trace = record
                    .amount(ion)
                    .is_some_and(|amount| (1..=MOST_TRACE).contains(&amount));
                *times += u32::from(beside_more && is_trace);
            }
            let [total, nitrate, ammonium] =
                [TOTAL_NITROGEN, NITRATE, AMMONIUM].map(|place| record.amount(place));
            if let (Some(total), Some(nitrate), Some(ammonium)) = (total, nitrate, ammonium) {
                let sum = nitrate + ammonium;
                nitrogen[0] += u32::from(total == sum);
                nitrogen[1] += u32::from(total + 1 == sum);
            }
        }
        assert!(traces.iter().all(|&times| times > 200), "{traces:?}");
        assert!(nitrogen.iter().all(|&times| times > 50), "{nitrogen:?}");
    }
}
