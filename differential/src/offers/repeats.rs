//! The same bottle analysed again.

use crate::floats::any_reading;
use crate::numbers::{
    ALKALINITY, CONDUCTIVITY, LEAST_PH, MOST_ALKALINITY, MOST_AMOUNT, MOST_CONDUCTIVITY, MOST_PH,
    PH, READINGS,
};
use crate::random::Draw;
use reference::cases::bottle::Bottle;
use reference::cases::generator::Generator;
use reference::readings::Reading;

/// A repeat: exactly the same, or with one, two or three of the things moved
/// that agreement is about (or total nitrogen or carbon, which it isn't about).
pub fn repeated(generator: &mut Generator, bottle: &Bottle) -> Bottle {
    let moves = generator.pick(&[0, 1, 1, 1, 2, 3]);
    (0..moves).fold(bottle.clone(), |bottle, _| moved(generator, &bottle))
}

fn moved(generator: &mut Generator, bottle: &Bottle) -> Bottle {
    let words = bottle.words();
    match generator.below(5) {
        0 => bottle.ph(moved_ph(generator, words[PH])),
        1 => {
            let moved = moved_value(generator, words[CONDUCTIVITY], MOST_CONDUCTIVITY);
            bottle.conductivity(moved.max(1))
        }
        2 => bottle.alkalinity(moved_value(generator, words[ALKALINITY], MOST_ALKALINITY)),
        _ => {
            let place = generator.place(READINGS);
            moved_reading(generator, bottle, place)
        }
    }
}

/// A p up to 12 off: 10 agrees, 11 doesn't.
fn moved_ph(generator: &mut Generator, p: u32) -> u32 {
    let step = generator.pick(&[0, 1, 9, 10, 10, 11, 11, 12]);
    let moved = if generator.once_in(2) {
        p + step
    } else {
        p - step
    };
    moved.clamp(LEAST_PH, MOST_PH)
}

/// A value that just agrees or just doesn't: from nine tenths of it to ten
/// ninths, one beside either, or anything about that.
fn moved_value(generator: &mut Generator, value: u32, most: u32) -> u32 {
    let least_agreeing = (9 * value).div_ceil(10);
    let greatest_agreeing = 10 * value / 9;
    let moved = match generator.below(8) {
        0 | 1 => least_agreeing,
        2 => least_agreeing.saturating_sub(1),
        3 | 4 => greatest_agreeing,
        5 => greatest_agreeing + 1,
        6 => generator.near(value, 12),
        // A number of which a tenth is whole.
        _ => value / 10 * 10,
    };
    moved.min(most)
}

/// Another amount, as measured or as below; now and then missing, or back.
fn moved_reading(generator: &mut Generator, bottle: &Bottle, place: usize) -> Bottle {
    let (mark, bits) = bottle.mark_and_bits(place);
    let reading = Reading::from_words(mark, bits);
    let amount = reading.ok().and_then(Reading::amount);
    if generator.once_in(10) && amount.is_some() {
        return bottle.missing(place);
    }
    let amount = match amount {
        Some(amount) => moved_value(generator, amount, MOST_AMOUNT),
        None if generator.once_in(4) => generator.below(3),
        None => return bottle.clone(),
    };
    let (mark, bits) = any_reading(generator, amount);
    bottle.reading(place, mark, bits)
}

#[cfg(test)]
mod tests {
    use super::*;
    use reference::docket::agree;
    use reference::record::Record;

    #[test]
    fn repeats_agree_about_as_often_as_not() {
        let mut generator = Generator::new(7);
        let bottle = Bottle::doubtful();
        let first = Record::read(bottle.words()).expect("a record");
        let mut agreeing = 0;
        for _ in 0..1_000 {
            let repeat = repeated(&mut generator, &bottle);
            let second = Record::read(repeat.words()).expect("a record");
            agreeing += u32::from(agree(&first, &second));
        }
        assert!((300..900).contains(&agreeing), "{agreeing} agree");
    }
}
