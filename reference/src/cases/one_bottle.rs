//! The input of `follow`: one bottle whose readings move until the third
//! analysis agrees with the second: potassium measured as 3.4 µg/L and below a
//! limit with a half of 3.5 µg/L, which whole µg/L would set apart, and the limit
//! itself too. The bottle's number has fifteen digits; some offers are of a
//! bottle with another high or low word.

use super::bottle::Bottle;
use super::floats::limit_of;
use crate::numbers::{
    mark_of, CALCIUM, CHLORIDE, MOST_ALKALINITY, MOST_PH, POTASSIUM, SODIUM, STEMFLOW, WORD_BYTES,
};
use crate::sample_number::parts_of;
use crate::words::to_bytes;

/// The bottle's number, and its words: 28,744 and 2,249,056,121.
const BARCODE: u64 = 123_456_789_012_345;

pub fn follow_input() -> Vec<u8> {
    let (high, low) = parts_of(BARCODE);
    let first = Bottle::doubtful().number(BARCODE);
    let second = first
        .ph(531)
        .conductivity(352)
        .amount(CHLORIDE, 24_800)
        .amount(POTASSIUM, 34);
    let third = second
        .ph(527)
        .amount(CALCIUM, 10_710)
        .amount(SODIUM, 18_800)
        .below(POTASSIUM, limit_of(35));
    let offers = [
        first.ph(MOST_PH + 1),
        first.clone(),
        first.parts((high + 1, low)),
        first.parts((high, low + 1)),
        first.parts((low, high)),
        second.reading(CHLORIDE, 1, 0x8000_0000),
        second.clone(),
        second.kind(STEMFLOW),
        first.alkalinity(MOST_ALKALINITY + 1).number(42),
        second.parts((0, low)),
        third.clone(),
        third.clone(),
        third.parts((high + 1, low)),
        third.conductivity(0),
    ];
    let mut bytes: Vec<u8> = Vec::new();
    for offer in &offers {
        bytes.extend(to_bytes(offer.words()));
    }
    // A rest that is no whole record: the words up to its second reading, and
    // two bytes.
    let rest = WORD_BYTES * mark_of(CALCIUM) + 2;
    bytes.extend(&to_bytes(third.words())[..rest]);
    bytes
}

#[cfg(test)]
mod tests {
    use crate::follow;

    #[test]
    fn the_bottle_agrees_at_the_third() {
        let lines = [
            "refused 4 open 0",
            "taken open 1",
            "refused 12 open 1",
            "refused 12 open 1",
            "refused 2 open 1",
            "refused 7 open 1",
            "taken open 2",
            "refused 12 open 2",
            "refused 6 open 2",
            "refused 12 open 2",
            "taken confirmed 3",
            "refused 11 confirmed 3",
            "refused 11 confirmed 3",
            "refused 5 confirmed 3",
            "refused 1 confirmed 3",
        ];
        assert_eq!(
            follow::text(&super::follow_input()),
            lines.join("\n") + "\n"
        );
    }
}
