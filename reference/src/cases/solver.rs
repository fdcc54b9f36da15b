//! Bottles found by search whose ion balance changes from within to outside at
//! a chosen place of hydrogen.
//!
//! The inequality holds from a least to a greatest hydrogen. An end of that span
//! is always `unit × N / divisor` u with a whole number N, as all charges but
//! hydrogen's are multiples of 10^3 u. The searches below look for amounts and
//! an alkalinity that give a wanted N.

use super::bottle::Bottle;
use super::generator::Generator;
use crate::ions::{ANIONS, CATIONS, TABLE};
use crate::numbers::{
    ALKALINITY_CHARGE, AMOUNT_CHARGE, CHLORIDE, IONS, MOST_ALKALINITY, MOST_AMOUNT,
};

/// An end: of the span of hydrogen for which an inequality holds, of the
/// calculated conductivity that is within, or of a bracket.
#[derive(Clone, Copy, Debug, PartialEq, Eq)]
pub enum End {
    Least,
    Greatest,
}

pub const ENDS: [End; 2] = [End::Least, End::Greatest];

/// An end of the span of the ion balance, at a measured conductivity in tenths
/// of µS/cm.
#[derive(Clone, Copy, Debug)]
pub struct Bound {
    pub tenths: u32,
    pub end: End,
}

impl Bound {
    /// (unit, divisor): the end is unit × N / divisor u.
    pub fn unit_and_divisor(self) -> (i128, i128) {
        (AMOUNT_CHARGE, balance_weights(self.tenths, self.end).1)
    }

    /// The greatest N whose end is at most this whole hydrogen.
    pub fn last_up_to(self, hydrogen: i128) -> i128 {
        let (unit, divisor) = self.unit_and_divisor();
        (hydrogen * divisor).div_euclid(unit)
    }

    /// Whether the end can be this whole hydrogen.
    pub fn reaches(self, hydrogen: i128) -> bool {
        let (unit, divisor) = self.unit_and_divisor();
        (hydrogen * divisor) % unit == 0
    }

    /// Whether the end for N lies strictly between two whole numbers.
    pub fn is_between(self, n: i128, hydrogen: i128) -> bool {
        let (unit, divisor) = self.unit_and_divisor();
        hydrogen * divisor < unit * n && unit * n < (hydrogen + 1) * divisor
    }

    /// A bottle with this end at N, or nothing where the search gives up.
    pub fn bottle(self, generator: &mut Generator, ph: u32, n: i128) -> Option<Bottle> {
        self.bottle_with(generator, ph, n, &Fixed::default())
    }

    /// The same with some amounts given.
    pub fn bottle_with(
        self,
        generator: &mut Generator,
        ph: u32,
        n: i128,
        fixed: &Fixed,
    ) -> Option<Bottle> {
        let ions = balance_ions(generator, self, n, fixed)?;
        Some(ions.bottle().ph(ph).conductivity(self.tenths))
    }
}

/// The amounts that a search must leave as they are; the others are its own.
pub type Fixed = [Option<u32>; IONS];

/// The eight amounts and the alkalinity of a bottle.
pub struct Ions {
    pub amounts: [u32; IONS],
    pub alkalinity: u32,
}

impl Ions {
    pub fn bottle(&self) -> Bottle {
        let bottle = Bottle::without_ions().alkalinity(self.alkalinity);
        let amounts = self.amounts.iter().enumerate();
        amounts.fold(bottle, |bottle, (ion, &amount)| bottle.amount(ion, amount))
    }
}

/// The weights of An and of the other cations in N, both in units of 10^3 u:
/// N = weight × An − other weight × cations, and the other weight is the
/// divisor, too. With L = 20 the span goes from (9 An − 11 C) / 11 to
/// (11 An − 9 C) / 9; with L = 10 from (19 An − 21 C) / 21 to (21 An − 19 C) / 19.
pub fn balance_weights(tenths: u32, end: End) -> (i128, i128) {
    match (tenths <= 200, end) {
        (true, End::Least) => (9, 11),
        (true, End::Greatest) => (11, 9),
        (false, End::Least) => (19, 21),
        (false, End::Greatest) => (21, 19),
    }
}

fn charges(amounts: &[u32; IONS], ions: std::ops::Range<usize>) -> i128 {
    ions.map(|ion| i128::from(amounts[ion]) * TABLE[ion].factor)
        .sum()
}

/// Draws cations until the anions they need are a whole number, then searches
/// anions.
fn balance_ions(generator: &mut Generator, bound: Bound, n: i128, fixed: &Fixed) -> Option<Ions> {
    let (anion_weight, cation_weight) = balance_weights(bound.tenths, bound.end);
    for _ in 0..10_000 {
        let mut amounts = [0; IONS];
        for ion in CATIONS {
            amounts[ion] = fixed[ion].unwrap_or_else(|| generator.below(120_000));
        }
        let weighed = n + cation_weight * charges(&amounts, CATIONS);
        if weighed >= 0 && weighed % anion_weight == 0 {
            let anions = weighed / anion_weight;
            if let Some(ions) = anions_of(generator, amounts, anions, fixed) {
                return Some(ions);
            }
        }
    }
    None
}

/// A tenth of a µeq/L in the unit of the ions' charges, 10^3 u.
pub const TENTH_CHARGES: i128 = ALKALINITY_CHARGE / AMOUNT_CHARGE;

/// Draws sulphate and nitrate, then searches the chloride that leaves a whole
/// number of tenths of µeq/L to alkalinity. A given chloride isn't kept.
fn anions_of(
    generator: &mut Generator,
    mut amounts: [u32; IONS],
    anions: i128,
    fixed: &Fixed,
) -> Option<Ions> {
    for ion in ANIONS {
        amounts[ion] = fixed[ion].unwrap_or_else(|| generator.below(60_000));
    }
    amounts[CHLORIDE] = 0;
    let rest = anions - charges(&amounts, ANIONS);
    let (chloride, alkalinity) = split(rest, TABLE[CHLORIDE].factor, TENTH_CHARGES)?;
    amounts[CHLORIDE] = chloride;
    (alkalinity <= MOST_ALKALINITY).then_some(Ions {
        amounts,
        alkalinity,
    })
}

/// The first two whole numbers up to the greatest amount with
/// first × a + second × b = rest: none where a divisor of both a and b doesn't
/// divide that. The remainder of what is left by b is carried along, so that no
/// step has to divide.
pub fn split(rest: i128, a: i128, b: i128) -> Option<(u32, u32)> {
    if rest < 0 || rest % common_divisor(a, b) != 0 {
        return None;
    }
    let (step, mut remainder) = ((a % b) as i64, (rest % b) as i64);
    let last = (rest / a).min(i128::from(MOST_AMOUNT)) as u32;
    for first in 0..=last {
        if remainder == 0 {
            let second = (rest - i128::from(first) * a) / b;
            return (second <= i128::from(MOST_AMOUNT)).then_some((first, second as u32));
        }
        remainder -= step;
        if remainder < 0 {
            remainder += b as i64;
        }
    }
    None
}

/// The greatest number that divides both, by Euclid's steps.
fn common_divisor(a: i128, b: i128) -> i128 {
    match b {
        0 => a,
        _ => common_divisor(b, a % b),
    }
}

#[cfg(test)]
mod tests {
    use super::*;
    use crate::checks::IonBalance;
    use crate::record::Record;

    #[test]
    fn the_end_of_the_span_is_where_it_was_wanted() {
        let mut generator = Generator::new(3);
        let hydrogen = 10_000_000_000;
        for end in ENDS {
            for tenths in [100, 101, 200, 201] {
                let bound = Bound { tenths, end };
                let n = bound.last_up_to(hydrogen) + 1;
                let bottle = bound.bottle(&mut generator, 500, n).expect("a bottle");
                let record = Record::read(bottle.words()).expect("a record");
                let span = IonBalance::of(&record)
                    .expect("all ions")
                    .spans()
                    .with_every;
                let found = match end {
                    End::Least => span.least,
                    End::Greatest => span.greatest,
                };
                let (unit, divisor) = bound.unit_and_divisor();
                let right = found.numerator * divisor == unit * n * found.denominator;
                assert!(right, "{bound:?}");
            }
        }
    }

    #[test]
    fn a_number_is_split_where_it_can_be() {
        assert_eq!(split(31, 4, 9), Some((1, 3)));
        assert_eq!(split(30, 4, 6), Some((0, 5)));
        assert_eq!(split(31, 4, 6), None);
        assert_eq!(split(5, 4, 9), None);
        assert_eq!(split(-4, 4, 9), None);
    }
}
