//! The search for the smallest case that still shows a difference.

use crate::case::Case;

/// The search gives up after so many tries and keeps what it has.
const MOST_TRIES: usize = 20_000;

/// The smallest case found that still fails, with what its failing looks like:
/// the first smaller case that fails takes the place of the last one.
pub fn smallest<C: Case, F>(case: C, failing: F, fails: impl Fn(&C) -> Option<F>) -> (C, F) {
    let mut found = (case, failing);
    let mut tries = 0;
    loop {
        let next = found.0.smaller().find_map(|smaller| {
            tries += 1;
            fails(&smaller).map(|failing| (smaller, failing))
        });
        match next {
            Some(smaller) if tries < MOST_TRIES => found = smaller,
            _ => return found,
        }
    }
}

/// The list with a stretch left out: halves first, then quarters, down to
/// single items.
pub fn shorter<T: Clone>(items: &[T]) -> impl Iterator<Item = Vec<T>> + '_ {
    stretches(items.len())
        .map(|(start, end)| [items[..start].to_vec(), items[end..].to_vec()].concat())
}

/// Stretches that cover a list: its whole, its halves, its quarters and so on.
pub fn stretches(length: usize) -> impl Iterator<Item = (usize, usize)> {
    let lengths = std::iter::successors(Some(length), |&stretch| Some(stretch / 2));
    lengths
        .take_while(|&stretch| stretch > 0)
        .flat_map(move |stretch| {
            let starts = (0..length).step_by(stretch);
            starts.map(move |start| (start, (start + stretch).min(length)))
        })
}

/// Simpler values for a word: the plain one, 0, then ever smaller steps down.
/// The plain value is the simplest; any other is simpler than a greater one.
pub fn simpler_word(word: u32, plain: u32) -> impl Iterator<Item = u32> {
    let steps = std::iter::successors(Some(word), |&step| Some(step / 2));
    let down = steps
        .take_while(|&step| step > 0)
        .map(move |step| word - step);
    let all = [plain].into_iter().chain(down);
    all.filter(move |_| word != plain)
}

/// The words with one of them made simpler; `plain` tells the plain value of
/// each place.
pub fn simpler_words<'a>(
    words: &'a [u32],
    plain: impl Fn(usize) -> u32 + 'a,
) -> impl Iterator<Item = Vec<u32>> + 'a {
    words.iter().enumerate().flat_map(move |(place, &word)| {
        simpler_word(word, plain(place)).map(move |simpler| {
            let mut words = words.to_vec();
            words[place] = simpler;
            words
        })
    })
}

/// The words with a whole stretch of them set to 0, which is quicker than one
/// after the other.
pub fn flatter(words: &[u32]) -> impl Iterator<Item = Vec<u32>> + '_ {
    let stretches = stretches(words.len()).filter(|&(start, end)| end - start > 1);
    let uneven = stretches.filter(|&(start, end)| words[start..end].iter().any(|&word| word != 0));
    uneven.map(|(start, end)| {
        let mut words = words.to_vec();
        words[start..end].fill(0);
        words
    })
}

/// Simpler lengths for a lent slice.
pub fn simpler_room(room: usize, plain: usize) -> impl Iterator<Item = usize> {
    simpler_word(room as u32, plain as u32).map(|room| room as usize)
}

#[cfg(test)]
mod tests {
    use super::*;
    use crate::case::Difference;
    use crate::library::Library;

    /// A list of numbers; what is wrong with it each test says itself.
    #[derive(Clone, Debug, PartialEq)]
    struct List(Vec<u32>);

    impl Case for List {
        fn difference(&self, _: &dyn Library) -> Option<Difference> {
            None
        }

        fn smaller(&self) -> impl Iterator<Item = List> {
            let simpler = simpler_words(&self.0, |_| 5);
            shorter(&self.0).chain(simpler).map(List)
        }

        fn describe(&self) -> String {
            format!("{:?}", self.0)
        }
    }

    fn shrink(list: &[u32], fails: impl Fn(&[u32]) -> bool) -> Vec<u32> {
        smallest(List(list.to_vec()), (), |list| fails(&list.0).then_some(()))
            .0
             .0
    }

    #[test]
    fn one_great_number_is_left() {
        let list: Vec<u32> = (0..1_000).map(|n| n * 7_919 % 10_007).collect();
        assert_eq!(shrink(&list, |list| list.iter().any(|&n| n >= 500)), [500]);
    }

    #[test]
    fn two_that_need_each_other_are_left() {
        let list: Vec<u32> = (0..300).collect();
        let both = |list: &[u32]| list.contains(&17) && list.contains(&250);
        assert_eq!(shrink(&list, both), [17, 250]);
    }

    #[test]
    fn a_length_is_kept_and_the_words_become_plain() {
        assert_eq!(shrink(&[9, 0, 700, 8], |list| list.len() >= 3), [5, 5, 5]);
    }

    #[test]
    fn what_always_fails_becomes_empty() {
        assert_eq!(shrink(&[u32::MAX; 40], |_| true), [0; 0]);
    }

    #[test]
    fn a_case_that_has_no_smaller_failing_one_stays() {
        let list = [4, 4, 4];
        assert_eq!(shrink(&list, |smaller| smaller == list), list);
    }

    #[test]
    fn flat_stretches_come_to_an_end() {
        let flat: Vec<_> = flatter(&[0, 0, 3, 4]).collect();
        assert_eq!(flat, [[0, 0, 0, 0], [0, 0, 0, 0]]);
        assert_eq!(flatter(&[0; 9]).count(), 0);
    }

    #[test]
    fn words_end_at_the_plain_one() {
        assert_eq!(simpler_word(5, 5).count(), 0);
        assert_eq!(simpler_word(0, 5).collect::<Vec<_>>(), [5]);
        assert_eq!(simpler_word(8, 5).collect::<Vec<_>>(), [5, 0, 4, 6, 7]);
        assert!(simpler_word(u32::MAX, 0).all(|simpler| simpler < u32::MAX));
    }
}
