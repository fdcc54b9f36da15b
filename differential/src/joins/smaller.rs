//! Simpler pairs of batches: one of them made simpler, or both in a setup that
//! they have to have in common.

use crate::batches::{fewer_charts, fewer_samples, replaced, smaller_batches, ChartParts, Layout};
use crate::shrink::stretches;
use reference::cases::batches::chart;
use std::ops::Range;

/// A pair of more words is large: each try of it takes long, so it only loses
/// charts and samples, and those in stretches of a few sizes.
const LARGE: usize = 2_000;
/// The whole, its halves and so on to its sixteenths.
const BOLD: usize = 31;

type Pair = [Vec<u32>; 2];

/// Pairs with fewer samples, fewer charts, fewer values, simpler words.
pub fn smaller_pairs<'a>(first: &'a [u32], second: &'a [u32]) -> impl Iterator<Item = Pair> + 'a {
    let is_large = first.len() + second.len() > LARGE;
    let bold = if is_large { BOLD } else { usize::MAX };
    let fewer_samples = in_either(first, second, move |words| fewer_samples(words).take(bold));
    let fewer_charts = in_either(first, second, fewer_charts);
    let others = (!is_large).then(|| {
        let alone = in_either(first, second, smaller_batches);
        simpler_shared_setups(first, second).chain(alone)
    });
    fewer_charts
        .chain(fewer_samples)
        .chain(others.into_iter().flatten())
}

/// One of the two made simpler, the other as it is.
fn in_either<'a, I: Iterator<Item = Vec<u32>> + 'a>(
    first: &'a [u32],
    second: &'a [u32],
    simpler: impl Fn(&'a [u32]) -> I,
) -> impl Iterator<Item = Pair> + 'a {
    let of_first = simpler(first).map(|first| [first, second.to_vec()]);
    let of_second = simpler(second).map(|second| [first.to_vec(), second]);
    of_first.chain(of_second)
}

/// The setups of a chart that is in both made simpler in the same places.
fn simpler_shared_setups<'a>(
    first: &'a [u32],
    second: &'a [u32],
) -> impl Iterator<Item = Pair> + 'a {
    shared(first, second)
        .into_iter()
        .flat_map(move |[part, other]| {
            let [chart_of_first, chart_of_second] =
                [&first[part.clone()], &second[other.clone()]].map(ChartParts::of);
            simpler_setups(chart_of_first.setup, chart_of_second.setup).map(move |setups| {
                let [of_first, of_second] = setups;
                [
                    with_setup(first, &part, &of_first),
                    with_setup(second, &other, &of_second),
                ]
            })
        })
}

/// Where the charts that are in both stand in the first and in the second.
fn shared(first: &[u32], second: &[u32]) -> Vec<[Range<usize>; 2]> {
    let element_of =
        |words: &[u32], part: &Range<usize>| ChartParts::of(&words[part.clone()]).element;
    let [of_first, of_second] = [first, second].map(|words| Layout::of(words).charts);
    let with_other = |part: Range<usize>| {
        let element = element_of(first, &part);
        let mut others = of_second.iter();
        let other = others.find(|other| element_of(second, other) == element)?;
        Some([part, other.clone()])
    };
    of_first.into_iter().filter_map(with_other).collect()
}

fn with_setup(words: &[u32], part: &Range<usize>, setup: &[u32]) -> Vec<u32> {
    let ChartParts { element, later, .. } = ChartParts::of(&words[part.clone()]);
    replaced(words, part, &chart(element, setup, later))
}

/// Both setups without the same stretch, or with 0 in a stretch that is the
/// same in both.
fn simpler_setups<'a>(first: &'a [u32], second: &'a [u32]) -> impl Iterator<Item = Pair> + 'a {
    let common = first.len().min(second.len());
    let shorter = stretches(common).map(move |(start, end)| {
        [first, second].map(|setup| [&setup[..start], &setup[end..]].concat())
    });
    let same = stretches(common).filter(move |&(start, end)| {
        let values = &first[start..end];
        values == &second[start..end] && values.iter().any(|&value| value != 0)
    });
    let flatter = same.map(move |(start, end)| {
        [first, second].map(|setup| {
            let mut setup = setup.to_vec();
            setup[start..end].fill(0);
            setup
        })
    });
    shorter.chain(flatter)
}

#[cfg(test)]
mod tests {
    use super::*;
    use reference::cases::batches::{batch, flat};
    use reference::cases::bottle::Bottle;

    fn with_charts(charts: &[Vec<u32>]) -> Vec<u32> {
        batch(charts, &[])
    }

    #[test]
    fn a_shared_setup_becomes_simpler_in_both() {
        let first = with_charts(&[chart(3, &flat(), &[7])]);
        let second = with_charts(&[chart(2, &flat(), &[8]), chart(3, &flat(), &[9])]);
        let zeros = [0; 10];
        let due = [
            with_charts(&[chart(3, &zeros, &[7])]),
            with_charts(&[chart(2, &flat(), &[8]), chart(3, &zeros, &[9])]),
        ];
        assert!(smaller_pairs(&first, &second).any(|pair| pair == due));
    }

    #[test]
    fn setups_that_differ_lose_the_same_places() {
        let pairs: Vec<Pair> = simpler_setups(&[1, 2, 3], &[1, 4]).collect();
        for due in [[vec![2, 3], vec![4]], [vec![0, 2, 3], vec![0, 4]]] {
            assert!(pairs.contains(&due), "{pairs:?}");
        }
        assert!(pairs.iter().all(|[first, _]| first[..] != [1, 0, 3]));
    }

    #[test]
    fn a_large_pair_has_few_smaller_ones() {
        let large = batch(&[chart(3, &flat(), &[7])], &vec![Bottle::printed(); 400]);
        let tries = smaller_pairs(&large, &large).count();
        assert_eq!(tries, 2 * (1 + BOLD));
    }
}
