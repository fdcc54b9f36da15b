//! "samples last, then 13": what is lent.

use super::super::*;
use crate::cases::batches::{batch, chart, flat};
use crate::cases::bottle::Bottle;
use crate::cases::generator::Generator;
use crate::cases::joins::drawn_runs;
use crate::numbers::LEAST_SETUP;

fn usual() -> Vec<u32> {
    batch(&[chart(8, &flat(), &[1_000])], &[Bottle::printed()])
}

#[test]
fn the_first_words_are_the_answer_and_the_others_stay() {
    let usual = usual();
    let joined = answer(&usual, &usual).unwrap_or_default();
    let exact = joined.len();
    for room in [exact, exact + 1, exact + 100] {
        let mut lent = vec![5; room];
        assert_eq!(join(&usual, &usual, &mut lent), Ok(exact));
        assert_eq!(lent[..exact], joined);
        assert_eq!(lent[exact..], vec![5; room - exact]);
    }
}

#[test]
fn a_shorter_output_is_refused_and_stays() {
    let usual = usual();
    let exact = answer(&usual, &usual).map_or(0, |words| words.len());
    for room in 0..exact {
        let mut lent = vec![5; room];
        assert_eq!(join(&usual, &usual, &mut lent), Err(13));
        assert_eq!(lent, vec![5; room]);
    }
}

#[test]
fn every_other_refusal_comes_before_13_and_changes_nothing() {
    let usual = usual();
    let other = batch(&[chart(8, &[7; LEAST_SETUP], &[])], &[]);
    let full = batch(&[chart(8, &flat(), &[1_000; 64])], &[]);
    for (second, refusal) in [(vec![], 8), (vec![11], 9), (other, 14), (full, 15)] {
        for room in [0, 1, 500] {
            let mut lent = vec![5; room];
            assert_eq!(join(&usual, &second, &mut lent), Err(refusal));
            assert_eq!(lent, vec![5; room]);
        }
    }
}

#[test]
fn bytes_are_lent_as_words_are() {
    let mut generator = Generator::new(51);
    for _ in 0..200 {
        let runs = drawn_runs(&mut generator);
        let (first, second) = (to_bytes(&runs.first), to_bytes(&runs.second));
        let expected = answer(&runs.first, &runs.second).map(|words| to_bytes(&words));
        assert_eq!(answer_bytes(&first, &second), expected);
        let exact = expected.as_ref().map_or(3, Vec::len);
        for room in [0, exact - 1, exact, exact + 1] {
            let mut lent = vec![126; room];
            let result = join_bytes(&first, &second, &mut lent);
            match &expected {
                Ok(bytes) if room >= exact => {
                    assert_eq!(result, Ok(exact));
                    assert_eq!(lent[..exact], bytes[..]);
                    assert_eq!(lent[exact..], vec![126; room - exact]);
                }
                _ => {
                    let refusal = expected.as_ref().err().copied().unwrap_or(13);
                    assert_eq!(result, Err(refusal));
                    assert_eq!(lent, vec![126; room]);
                }
            }
        }
    }
}
