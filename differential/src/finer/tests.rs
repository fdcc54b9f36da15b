use super::chain::reading;
use super::*;
use crate::answers::judge;
use crate::case::Case;
use crate::floats::ends;
use crate::numbers::{
    BALANCE_CHECK, CHECKS, CONDUCTIVITY_CHECK, KIND, LEAST_LIMIT_BITS, NITROGEN_CHECK,
    ORGANIC_CARBON, PH, READINGS, SOIL_WATER,
};
use reference::finer::is_finer;
use reference::readings::Reading;

fn chains(seed: u64, count: usize) -> Vec<Chain> {
    let mut generator = Generator::new(seed);
    (0..count).map(|_| drawn(&mut generator)).collect()
}

fn own_verdicts(chain: &Chain) -> Vec<[u32; CHECKS]> {
    let judged = chain.records.iter().map(|words| judge(words));
    judged.map(|verdicts| verdicts.expect("a record")).collect()
}

/// Each of the one before, and the last of the first; DOC stays.
#[test]
fn every_record_is_a_finer_one() {
    for chain in chains(61, 5_000) {
        assert!(chain.is_one());
        let (Some(first), Some(last)) = (chain.records.first(), chain.records.last()) else {
            panic!("no record");
        };
        assert!(is_finer(first, last));
        let carbon = |words: &[u32]| reading(words, ORGANIC_CARBON);
        assert_eq!(carbon(first), carbon(last));
    }
}

/// The request's own promise, of the other implementation alone: no verdict is
/// overturned, every change that may happen occurs, and so does every verdict that
/// stays.
#[test]
fn every_change_that_may_happen_is_common() {
    let mut changes = Changes::default();
    for chain in chains(62, 10_000) {
        let verdicts = own_verdicts(&chain);
        assert_eq!(chain.overturned(&verdicts), None, "{}", chain.describe());
        changes.add(&verdicts);
    }
    let allowed = changes.of_allowed();
    assert!(allowed.iter().all(|&times| times > 20), "{allowed:?}");
    let stayed = changes.stayed();
    // Conductivity applies to every kind.
    for (check, first) in [0, 1, 0, 0].into_iter().enumerate() {
        let all = stayed[check][first..].iter().all(|&times| times > 100);
        assert!(all, "{stayed:?}");
    }
}

/// One to five steps; each kind, with a pH that is whole and with others; some
/// reading missing, DOC below its limit.
#[test]
fn every_kind_of_chain_is_common() {
    let (mut steps, mut kinds, mut others) = ([0; 6], [[0; 2]; 7], [0; 2]);
    for chain in chains(63, 5_000) {
        let first = &chain.records[0];
        steps[chain.records.len() - 1] += 1;
        let is_whole = usize::from(first[PH] % 100 == 0);
        kinds[first[KIND] as usize][is_whole] += 1;
        let is_missing = |place: usize| reading(first, place).0 == 0;
        others[0] += u32::from((0..READINGS).any(is_missing));
        others[1] += u32::from(reading(first, ORGANIC_CARBON).0 == 2);
    }
    assert!(steps[1..].iter().all(|&times| times > 300), "{steps:?}");
    let kinds = &kinds[1..=SOIL_WATER as usize];
    assert!(
        kinds.iter().flatten().all(|&times| times > 100),
        "{kinds:?}"
    );
    assert!(others.iter().all(|&times| times > 300), "{others:?}");
}

/// The ways in which a below reading becomes a finer one, in the order in which
/// `every_way_is_common` names them.
fn ways(limit: u32, (mark, bits): (u32, u32)) -> [bool; 8] {
    let range = Reading::below(limit).ok().and_then(Reading::range);
    let (_, last) = ends(range.map_or(0, |range| range.greatest));
    let (is_below, is_measured) = (mark == 2, mark == 1);
    [
        is_below && bits == limit - 1,
        is_below && bits == LEAST_LIMIT_BITS,
        is_below && bits < limit - 1,
        is_measured && bits == 0,
        is_measured && (1..limit).contains(&bits),
        is_measured && bits == limit,
        is_measured && limit < bits,
        is_measured && limit < bits && bits == last,
    ]
}

/// A limit that is one step of its float lower, the least, any; measured as 0,
/// under the old limit, at it, above it and yet of its amount, at that amount's
/// end. Steps at which nothing changes are rare.
#[test]
fn every_way_is_common() {
    let (mut times, mut unchanged, mut steps) = ([0; 8], 0, 0);
    for chain in chains(64, 5_000) {
        for pair in chain.records.windows(2) {
            steps += 1;
            unchanged += u32::from(pair[0] == pair[1]);
            for place in 0..READINGS {
                let (old, new) = (reading(&pair[0], place), reading(&pair[1], place));
                let ways = ways(old.1, new).map(|way| way && old.0 == 2 && old != new);
                times = std::array::from_fn(|way| times[way] + u32::from(ways[way]));
            }
        }
    }
    assert!(times.iter().all(|&times| times > 50), "{times:?}");
    assert!(
        (1..steps / 50).contains(&unchanged),
        "{unchanged} of {steps}"
    );
}

#[test]
fn smaller_chains_are_chains() {
    for chain in chains(65, 20) {
        let held_to = HeldTo::TheRule;
        let case = ChainCase { chain, held_to };
        for smaller in case.smaller() {
            assert!(smaller.chain.is_one() && smaller.chain != case.chain);
            assert!(smaller.held_to == held_to);
        }
        assert!(case.smaller().count() > 100);
    }
}

/// A 3 may not become 0, and nothing else may become a 3: where the last record
/// has such a verdict, its pair is told.
#[test]
fn a_verdict_that_may_not_follow_is_told() {
    for chain in chains(66, 500) {
        let verdicts = own_verdicts(&chain);
        let last = verdicts.len() - 1;
        for check in [BALANCE_CHECK, CONDUCTIVITY_CHECK, NITROGEN_CHECK] {
            let mut other = verdicts.clone();
            other[last][check] = match verdicts[last - 1][check] {
                3 => 0,
                _ => 3,
            };
            assert_eq!(chain.overturned(&other), Some((last - 1, last)));
        }
    }
}
