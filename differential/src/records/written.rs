//! Records written down: every tie, the limits of Na/Cl, nitrogen, organic
//! carbon and the sample number exactly, and chloride next to none.

use crate::floats::ends;
use crate::numbers::{
    AMMONIUM, CARBON_LINE, CHLORIDE, LEAST_LIMIT_BITS, MOST_AMOUNT, NITRATE, ORGANIC_CARBON,
    SODIUM, SOIL_WATER, TOTAL_NITROGEN, WET_ONLY,
};
use crate::sample_numbers;
use reference::cases::bottle::Bottle;
use reference::cases::floats::{limit_of, ties, DOUBLE};
use reference::readings::Reading;

pub fn all() -> Vec<Vec<u32>> {
    let bottles = numbers()
        .chain(ties_in_nitrogen())
        .chain(exact_ratios())
        .chain(little_chloride())
        .chain(nitrogen_sums())
        .chain(organic_carbon());
    bottles.map(|bottle| bottle.words().to_vec()).collect()
}

/// The printed sample under every number that is written down.
fn numbers() -> impl Iterator<Item = Bottle> {
    let numbers = sample_numbers::written().into_iter();
    numbers.map(|number| Bottle::printed().number(number))
}

fn amount(bits: u32) -> u32 {
    let amount = Reading::measured(bits).ok().and_then(Reading::amount);
    amount.unwrap_or(0)
}

/// Nitrate on a tie and beside it, total nitrogen its amount and one less:
/// there the nitrogen check tells how the tie went. Likewise as a limit, the end
/// of nitrate's range. A tie is an odd number of 32nds of a mg/L, each of which
/// is 312.5 tenths of a µg/L.
fn ties_in_nitrogen() -> impl Iterator<Item = Bottle> {
    let bottle = Bottle::printed().amount(AMMONIUM, 0);
    let floats = ties().into_iter().flat_map(|tie| [tie - 1, tie, tie + 1]);
    floats.flat_map(move |bits| {
        let amount = amount(bits);
        let nitrates = [1, 2].map(|mark| bottle.reading(NITRATE, mark, bits));
        nitrates.into_iter().flat_map(move |nitrate| {
            [amount - 1, amount].map(|total| nitrate.amount(TOTAL_NITROGEN, total))
        })
    })
}

/// 4350 × 2,821 to 2821 × 8,700 is 0.5, and 4350 × 2,821 to 2821 × 2,900 is
/// 1.5; with multiples of both up to nearly 200 mg/L, and a tenth of a µg/L
/// beside.
fn exact_ratios() -> impl Iterator<Item = Bottle> {
    let ratios = [(2_821, 8_700), (2_821, 2_900)];
    let multiples = ratios.into_iter().flat_map(|(sodium, chloride)| {
        let times = (1..=22).flat_map(|times| [times, 10 * times]);
        times.map(move |times| (times * sodium, times * chloride))
    });
    multiples.flat_map(|(sodium, chloride)| {
        let beside = [(1, 1), (0, 1), (2, 1), (1, 0), (1, 2)];
        beside.into_iter().flat_map(move |(more, other)| {
            (WET_ONLY..=SOIL_WATER).map(move |kind| {
                let bottle = Bottle::printed()
                    .kind(kind)
                    .amount(SODIUM, sodium + more - 1);
                bottle.amount(CHLORIDE, chloride + other - 1)
            })
        })
    })
}

/// Chloride of amount 0, to which Na/Cl doesn't apply, and of one tenth of a
/// µg/L, to which it does; below the least limit, to which it doesn't either.
fn little_chloride() -> impl Iterator<Item = Bottle> {
    let (first, last) = ends(1);
    let readings = [
        (1, 0),
        (1, first - 1),
        (1, first),
        (1, last),
        (2, LEAST_LIMIT_BITS),
    ];
    readings.into_iter().flat_map(|(mark, bits)| {
        (WET_ONLY..=SOIL_WATER).flat_map(move |kind| {
            let bottle = Bottle::printed().kind(kind).reading(CHLORIDE, mark, bits);
            let sodium = [0, 1, 2, 5].map(|amount| bottle.amount(SODIUM, amount));
            sodium.into_iter().chain([bottle.missing(SODIUM)])
        })
    })
}

/// Total nitrogen at the sum, one short of it and one over. Of these amounts
/// 4, 5, 14 and 15 are where whole µg/L would go down and up, and 312 and 313
/// are the two sides of a tie.
fn nitrogen_sums() -> impl Iterator<Item = Bottle> {
    let (quarter, half) = (MOST_AMOUNT / 4, MOST_AMOUNT / 2);
    let amounts = [0, 1, 4, 5, 14, 15, 312, 313, 9_999, quarter, half];
    let pairs = amounts
        .into_iter()
        .flat_map(move |nitrate| amounts.map(|ammonium| (nitrate, ammonium)));
    pairs.flat_map(|(nitrate, ammonium)| {
        let bottle = Bottle::printed().amount(NITRATE, nitrate);
        let bottle = bottle.amount(AMMONIUM, ammonium);
        (0..3).map(move |more| {
            let total = (nitrate + ammonium + more).saturating_sub(1);
            bottle.amount(TOTAL_NITROGEN, total.min(MOST_AMOUNT))
        })
    })
}

/// Runoff's line, the amount on it and the one before, measured and as half a
/// limit, with all ions and with one missing. No tie goes up onto the line, as
/// those next to it are 49,687.5 and 50,312.5: the line's first float is above
/// 49,999.5, and that before it below.
fn organic_carbon() -> impl Iterator<Item = Bottle> {
    let (line, _) = ends(CARBON_LINE);
    let readings = [
        (1, line - 1),
        (1, line),
        (1, 0),
        (2, line + DOUBLE - 1),
        (2, line + DOUBLE),
        (2, limit_of(CARBON_LINE - 1)),
        (0, 0),
    ];
    readings.into_iter().flat_map(|(mark, bits)| {
        let carbon = Bottle::printed().reading(ORGANIC_CARBON, mark, bits);
        (WET_ONLY..=SOIL_WATER).flat_map(move |kind| {
            let bottle = carbon.kind(kind);
            [bottle.missing(CHLORIDE), bottle.conductivity(201), bottle]
        })
    })
}

#[cfg(test)]
mod tests {
    use super::*;
    use crate::answers::judge;
    use crate::numbers::{BALANCE_CHECK, KIND, NITROGEN_CHECK, RATIO_CHECK, RUNOFF};

    fn verdicts(bottles: impl Iterator<Item = Bottle>, check: usize) -> Vec<u32> {
        let judged = bottles.map(|bottle| judge(bottle.words()).expect("a record"));
        judged.map(|verdicts| verdicts[check]).collect()
    }

    /// One less than nitrate's amount is outside, its amount within: so each
    /// float has the amount that it is written down with. One less than its
    /// limit's amount is undecided.
    #[test]
    fn ties_show_in_nitrogen() {
        let verdicts = verdicts(ties_in_nitrogen(), NITROGEN_CHECK);
        assert!(verdicts.chunks(4).all(|four| four == [2, 1, 3, 1]));
        // 3,200 ties, with the floats beside them.
        assert_eq!(verdicts.len(), 4 * 3 * 3_200);
    }

    /// By kind, in the order in which chloride is written down.
    #[test]
    fn chloride_counts_from_a_tenth_on() {
        let verdicts = verdicts(little_chloride(), RATIO_CHECK);
        let of_bulk = |chloride: usize| &verdicts[(6 * chloride + 1) * 5..][..5];
        assert_eq!(of_bulk(0), [0; 5]);
        assert_eq!(of_bulk(1), [0; 5]);
        assert_eq!(of_bulk(2), [2, 2, 2, 2, 4]);
        assert_eq!(of_bulk(3), [2, 2, 2, 2, 4]);
        // Below its limit it may be none.
        assert_eq!(of_bulk(4), [0; 5]);
    }

    /// Measured and as half a limit: the float before the line is judged, the
    /// line's first isn't. In the order of the readings above, the last
    /// of which is missing.
    #[test]
    fn carbon_on_its_line_is_not_judged() {
        let runoff = organic_carbon().filter(|bottle| bottle.words()[KIND] == RUNOFF);
        let verdicts = verdicts(runoff, BALANCE_CHECK);
        let expected = [true, false, true, true, false, true, false];
        for (three, applies) in verdicts.chunks(3).zip(expected) {
            assert!(three.iter().all(|&verdict| (verdict != 0) == applies));
        }
        assert_eq!(verdicts.len(), 3 * expected.len());
    }
}
