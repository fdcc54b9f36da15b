//! The bottles of the stored inputs: records written down or drawn at random.

use super::floats::{float_of, limit_of};
use super::generator::Generator;
use super::sample_numbers::{drawn, Parts};
use crate::hydrogen::Ph;
use crate::ions::{
    alkalinity_charge, charge, ALKALINITY_CONDUCTANCE, ANIONS, CATIONS, HYDROGEN_CONDUCTANCE, TABLE,
};
use crate::numbers::{
    bits_of, mark_of, ALKALINITY, AMMONIUM, BULK, CHLORIDE, CONDUCTIVITY, CONDUCTIVITY_TENTH, IONS,
    KIND, LEAST_BELOW, LEAST_PH, MOST_BELOW, MOST_CONDUCTIVITY, MOST_PH, NITRATE, NUMBER_HIGH,
    NUMBER_LOW, ORGANIC_CARBON, PH, READINGS, RECORD_WORDS, SODIUM, SOIL_WATER, THROUGHFALL,
    TOTAL_NITROGEN, WET_ONLY,
};
use crate::sample_number::parts_of;

/// The words of a record, which its own tests may refuse.
#[derive(Clone, Debug, PartialEq, Eq)]
pub struct Bottle {
    words: [u32; RECORD_WORDS],
}

impl Bottle {
    /// "The printed sample" of document 01, with a high word of 0 in front.
    pub fn printed() -> Bottle {
        let floats = [
            0x3E80_0000,
            0x3F00_0000,
            0,
            0x3F80_0000,
            0,
            0x3F00_0000,
            0x3E80_0000,
            0x3FC0_0000,
            0x3F00_0000,
        ];
        let mut bottle = Bottle::without_readings();
        for (place, bits) in floats.into_iter().enumerate() {
            bottle = bottle.reading(place, 1, bits);
        }
        bottle
    }

    fn without_readings() -> Bottle {
        let empty = Bottle {
            words: [0; RECORD_WORDS],
        };
        empty.number(7).kind(BULK).ph(500).conductivity(150)
    }

    /// The bottle of the proved cases 5 to 12: "p 500, the eight ions measured
    /// as 0, kind 2", nitrogen and carbon missing.
    pub fn without_ions() -> Bottle {
        (0..IONS).fold(Bottle::without_readings(), |bottle, ion| {
            bottle.amount(ion, 0)
        })
    }

    /// A throughfall bottle with less total nitrogen than nitrate and
    /// ammonium: never consistent, whatever else is changed in it.
    pub fn doubtful() -> Bottle {
        let amounts = [
            8_000, 10_000, 4_000, 20_000, 15_000, 9_000, 7_000, 30_000, 10_000, 60_000,
        ];
        let mut bottle = Bottle::without_readings()
            .number(41)
            .kind(THROUGHFALL)
            .alkalinity(300);
        for (place, amount) in amounts.into_iter().enumerate() {
            bottle = bottle.amount(place, amount);
        }
        bottle.conductivity(400)
    }

    pub fn words(&self) -> &[u32] {
        &self.words
    }

    pub fn word(&self, place: usize, value: u32) -> Bottle {
        let mut bottle = self.clone();
        bottle.words[place] = value;
        bottle
    }

    pub fn number(&self, number: u64) -> Bottle {
        self.parts(parts_of(number))
    }

    /// Both words of the number, whatever number they make.
    pub fn parts(&self, (high, low): Parts) -> Bottle {
        self.word(NUMBER_HIGH, high).word(NUMBER_LOW, low)
    }

    pub fn kind(&self, kind: u32) -> Bottle {
        self.word(KIND, kind)
    }

    pub fn ph(&self, hundredths: u32) -> Bottle {
        self.word(PH, hundredths)
    }

    pub fn conductivity(&self, tenths: u32) -> Bottle {
        self.word(CONDUCTIVITY, tenths)
    }

    pub fn alkalinity(&self, tenths: u32) -> Bottle {
        self.word(ALKALINITY, tenths)
    }

    pub fn reading(&self, place: usize, mark: u32, bits: u32) -> Bottle {
        self.word(mark_of(place), mark).word(bits_of(place), bits)
    }

    pub fn mark_and_bits(&self, place: usize) -> (u32, u32) {
        (self.words[mark_of(place)], self.words[bits_of(place)])
    }

    pub fn amount(&self, place: usize, amount: u32) -> Bottle {
        self.reading(place, 1, float_of(amount))
    }

    pub fn below(&self, place: usize, limit_bits: u32) -> Bottle {
        self.reading(place, 2, limit_bits)
    }

    pub fn missing(&self, place: usize) -> Bottle {
        self.reading(place, 0, 0)
    }
}

/// A bottle as it might come from the field: about balanced, its conductivity
/// about what its ions make, so that every verdict occurs.
pub fn plausible(generator: &mut Generator) -> Bottle {
    let mut draft = Draft::drawn(generator);
    draft.balance(generator);
    draft.measure_conductivity(generator);
    let mut bottle = draft.bottle(generator);
    for place in 0..READINGS {
        if generator.once_in(60) {
            bottle = bottle.missing(place);
        } else if generator.once_in(25) && draft.amounts[place] >= LEAST_BELOW {
            bottle = bottle.below(place, limit_of(draft.amounts[place].min(MOST_BELOW)));
        }
    }
    bottle
}

/// A plausible bottle in the making.
struct Draft {
    ph: u32,
    conductivity: u32,
    alkalinity: u32,
    amounts: [u32; READINGS],
}

impl Draft {
    fn drawn(generator: &mut Generator) -> Draft {
        const USUAL: [u32; IONS] = [8_000, 15_000, 5_000, 25_000, 12_000, 15_000, 9_000, 40_000];
        // Now rain, now throughfall, now runoff: from thin to thick.
        let strength = generator.pick(&[5, 20, 60, 100, 200]);
        let mut amounts = [0; READINGS];
        for (amount, usual) in amounts.iter_mut().zip(USUAL) {
            *amount = generator.below(usual * strength / 100 + 1);
        }
        let nitrogen = amounts[AMMONIUM] + amounts[NITRATE];
        amounts[TOTAL_NITROGEN] = nitrogen.saturating_sub(200) + generator.below(1_200);
        amounts[ORGANIC_CARBON] = generator.below(90_000);
        let ph = match generator.below(4) {
            0 => 100 * generator.between(4, 8),
            1 => generator.between(LEAST_PH, MOST_PH),
            _ => generator.between(420, 720),
        };
        Draft {
            ph,
            conductivity: 1,
            alkalinity: 0,
            amounts,
        }
    }

    fn charges(&self, ions: std::ops::Range<usize>) -> i128 {
        ions.map(|ion| charge(ion, self.amounts[ion])).sum()
    }

    fn hydrogen(&self) -> i128 {
        Ph::new(self.ph).map_or(0, |ph| i128::from(ph.floor()))
    }

    /// Fills the smaller side up with alkalinity or with sodium, now closely,
    /// now carelessly.
    fn balance(&mut self, generator: &mut Generator) {
        let percent = generator.pick(&[5, 20, 60, 90]);
        let surplus = self.hydrogen() + self.charges(CATIONS) - self.charges(ANIONS);
        if surplus > 0 {
            let tenths = (surplus / alkalinity_charge(1)).min(150_000) as u32;
            self.alkalinity = generator.near(tenths, percent);
        } else {
            let sodium = (-surplus / charge(SODIUM, 1)) as u32;
            self.amounts[SODIUM] += generator.near(sodium, percent);
        }
        if generator.once_in(3) {
            self.amounts[CHLORIDE] = generator.near(self.amounts[CHLORIDE], 30);
        }
    }

    fn measure_conductivity(&mut self, generator: &mut Generator) {
        let part = |ion: usize| TABLE[ion].conductance * charge(ion, self.amounts[ion]);
        let ions: i128 = (0..IONS).map(part).sum();
        let alkalinity = ALKALINITY_CONDUCTANCE * alkalinity_charge(self.alkalinity);
        let calculated = HYDROGEN_CONDUCTANCE * self.hydrogen() + alkalinity + ions;
        let tenths = (calculated / CONDUCTIVITY_TENTH).min(90_000) as u32;
        self.conductivity = generator.near(tenths, 35).clamp(1, MOST_CONDUCTIVITY);
    }

    fn bottle(&self, generator: &mut Generator) -> Bottle {
        let mut bottle = Bottle::without_readings()
            .number(drawn(generator))
            .kind(generator.between(WET_ONLY, SOIL_WATER))
            .ph(self.ph)
            .conductivity(self.conductivity)
            .alkalinity(self.alkalinity);
        for (place, &amount) in self.amounts.iter().enumerate() {
            bottle = bottle.amount(place, amount);
        }
        bottle
    }
}
