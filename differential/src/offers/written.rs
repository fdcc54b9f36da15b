//! Pairs of records that agree or not by how half a limit is rounded.

use crate::floats::ends;
use crate::numbers::{MOST_BITS, POTASSIUM};
use reference::cases::bottle::Bottle;
use reference::cases::floats::{ties, DOUBLE};
use reference::readings::Reading;

/// Potassium below a limit with half of it on a tie or beside one, then measured
/// as the most that agrees with that: with one tenth of a µg/L less in the half it
/// wouldn't. Then by one more than agrees.
pub fn ties_in_halves() -> impl Iterator<Item = [Bottle; 2]> {
    let halves = ties().into_iter().flat_map(|tie| [tie - 1, tie, tie + 1]);
    let limits = halves.map(|half| half + DOUBLE);
    limits
        .filter(|&limit| limit <= MOST_BITS)
        .flat_map(|limit| {
            let below = Bottle::doubtful().below(POTASSIUM, limit);
            let half = Reading::below(limit).ok().and_then(Reading::amount);
            let most = 10 * half.unwrap_or(0) / 9;
            [most, most + 1].map(|amount| {
                let measured = below.reading(POTASSIUM, 1, ends(amount).0);
                [below.clone(), measured]
            })
        })
}

#[cfg(test)]
mod tests {
    use super::*;
    use reference::docket::agree;
    use reference::record::Record;

    #[test]
    fn the_most_agrees_and_one_more_does_not() {
        let agreeing: Vec<bool> = ties_in_halves()
            .map(|pair| {
                let records = pair.map(|bottle| Record::read(bottle.words()).expect("a record"));
                agree(&records[0], &records[1])
            })
            .collect();
        assert!(agreeing.chunks(2).all(|two| two == [true, false]));
        // The limits of the 1,600 ties up to 100 mg/L.
        assert_eq!(agreeing.len(), 2 * 3 * 1_600);
    }
}
