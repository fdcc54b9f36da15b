//! The choices that are tried for a record.

use super::super::super::*;
use super::mark;
use super::sides::{summed, Choice, FINE, PARTS};
use crate::activity::Bracket;
use crate::cases::generator::Generator;
use crate::ions::{ALKALINITY_VALENCE, HYDROGEN_VALENCE, TABLE};
use crate::numbers::{bits_of, IONS, READINGS};

/// The places of the below readings.
fn below_places(record: &Record) -> Vec<usize> {
    let is_below = |&place: &usize| mark(record, place) == 2;
    (0..READINGS).filter(is_below).collect()
}

/// A reading's float as an amount, whatever its mark says.
pub fn amount_of_its_float(record: &Record, place: usize) -> i128 {
    let value = f64::from(f32::from_bits(record.words[bits_of(place)]));
    // 24 bits times 10,000 are exact in an f64; half a tenth goes up.
    (10_000.0 * value + 0.5).floor() as i128 * PARTS
}

/// Amounts with the below readings chosen: bit by bit 0 or the limit.
fn corner(record: &Record, places: &[usize], bits: u32) -> [i128; READINGS] {
    let mut amounts: [i128; READINGS] =
        std::array::from_fn(|place| amount_of_its_float(record, place));
    for (bit, &place) in places.iter().enumerate() {
        if bits >> bit & 1 == 0 {
            amounts[place] = 0;
        }
    }
    amounts
}

/// Every corner, then as many amounts between: each below reading a thousandth of
/// an amount from an end or anywhere.
fn all_amounts(generator: &mut Generator, record: &Record) -> Vec<[i128; READINGS]> {
    let places = below_places(record);
    let corners = 1u32 << places.len();
    let mut all: Vec<_> = (0..corners)
        .map(|bits| corner(record, &places, bits))
        .collect();
    for bits in 0..corners.min(64) {
        let mut amounts = corner(record, &places, bits);
        for &place in &places {
            let limit = amount_of_its_float(record, place);
            amounts[place] = match generator.below(3) {
                0 => (amounts[place] - 1).max(1),
                1 => i128::from(generator.below(limit as u32 + 1)),
                _ => amounts[place],
            };
        }
        all.push(amounts);
    }
    all
}

/// "The least ionic strength takes each such reading at 0, the greatest at its
/// limit, giving one bracket": the least and the greatest of all corners.
fn bracket(record: &Record, amounts: &[[i128; READINGS]]) -> Bracket {
    let mut factors = [0; IONS + 2];
    factors[0] = HYDROGEN_VALENCE;
    factors[1] = ALKALINITY_VALENCE;
    for ion in 0..IONS {
        factors[ion + 2] = TABLE[ion].valence;
    }
    let h = i128::from(record.ph.floor());
    let top = h + i128::from(!record.ph.has_whole_hydrogen());
    let sums = |hydrogen: i128| {
        amounts.iter().map(move |&amounts| {
            let choice = Choice {
                amounts,
                hydrogen: hydrogen * FINE,
                square: 0,
            };
            // Twice the strength at a corner is a whole number of u.
            summed(record, &choice, factors).div_euclid(FINE)
        })
    };
    let least = sums(h).min().expect("a corner");
    Bracket::of(least, sums(top).max().expect("a corner"))
}

/// Hydrogen next to both ends and between, or as it is; y² at both ends and
/// between.
pub fn choices(generator: &mut Generator, record: &Record) -> Vec<Choice> {
    let amounts = all_amounts(generator, record);
    let Bracket { least, greatest } = bracket(record, &amounts);
    let h = FINE * i128::from(record.ph.floor());
    let hydrogens = if record.ph.has_whole_hydrogen() {
        vec![h]
    } else {
        let between = i128::from(generator.between(2, 999_998));
        vec![h + 1, h + between, h + FINE - 1]
    };
    let mut all = Vec::new();
    for amounts in amounts {
        for &hydrogen in &hydrogens {
            for square in [least, (least + greatest) / 2, greatest] {
                all.push(Choice {
                    amounts,
                    hydrogen,
                    square,
                });
            }
        }
    }
    all
}
