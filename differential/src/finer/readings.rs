//! A below reading made finer: a lower limit, or measured inside the old range.

use crate::answers::judge;
use crate::floats::{any_float, any_limit_with, ends};
use crate::numbers::{LEAST_LIMIT, LEAST_LIMIT_BITS};
use crate::random::Draw;
use crate::records::last_before_a_change;
use reference::cases::bottle::Bottle;
use reference::cases::generator::Generator;
use reference::readings::Reading;

pub const MEASURED: u32 = 1;
pub const BELOW: u32 = 2;

/// A lower limit more often than a measured value, which ends a chain; the least
/// limit can't be lower.
pub fn finer_reading(generator: &mut Generator, bottle: &Bottle, place: usize) -> (u32, u32) {
    let (_, limit) = bottle.mark_and_bits(place);
    if limit > LEAST_LIMIT_BITS && !generator.once_in(3) {
        (BELOW, lower_limit(generator, bottle, place))
    } else {
        (MEASURED, measured_inside(generator, bottle, place))
    }
}

/// One step of the float lower, any lower float, one of any lower amount, or the
/// limit at which a verdict changes.
fn lower_limit(generator: &mut Generator, bottle: &Bottle, place: usize) -> u32 {
    let (_, limit) = bottle.mark_and_bits(place);
    let lower = match generator.below(8) {
        0 => limit - 1,
        1..=3 => generator.between(LEAST_LIMIT_BITS, limit),
        4 => at_a_change(generator, bottle, place, BELOW, [LEAST_LIMIT_BITS, limit]),
        _ => {
            let amount = generator.between(LEAST_LIMIT, greatest_amount(bottle, place));
            any_limit_with(generator, amount)
        }
    };
    lower.min(limit - 1)
}

/// Nothing, the limit's own float, one above it that rounds to the same amount,
/// any float or amount of the range, or the float at which a verdict changes.
fn measured_inside(generator: &mut Generator, bottle: &Bottle, place: usize) -> u32 {
    let (_, limit) = bottle.mark_and_bits(place);
    let greatest = greatest_amount(bottle, place);
    let (_, last) = ends(greatest);
    match generator.below(10) {
        0 => 0,
        1 => limit,
        2 => last,
        3 => generator.between(limit, last),
        4 => generator.of_any_size(limit),
        5 => at_a_change(generator, bottle, place, MEASURED, [0, last]),
        _ => {
            let amount = generator.below(greatest + 1);
            any_float(generator, amount)
        }
    }
}

/// The amount of the limit, at which the range ends.
fn greatest_amount(bottle: &Bottle, place: usize) -> u32 {
    let (mark, bits) = bottle.mark_and_bits(place);
    let range = Reading::from_words(mark, bits)
        .ok()
        .and_then(Reading::range);
    range.map_or(LEAST_LIMIT, |range| range.greatest)
}

/// From one float to another: the last before a verdict changes, or the first
/// after it. Where both ends have the same verdicts, one of these two.
fn at_a_change(
    generator: &mut Generator,
    bottle: &Bottle,
    place: usize,
    mark: u32,
    [from, to]: [u32; 2],
) -> u32 {
    let verdicts_at = |bits: u32| judge(bottle.reading(place, mark, bits).words());
    if verdicts_at(from) == verdicts_at(to) {
        return generator.pick(&[from, to]);
    }
    last_before_a_change(from, to, verdicts_at) + generator.below(2)
}
