use super::all;
use crate::cases::Cases;
use crate::join::answer;
use crate::numbers::{REPLAY_ROOM, REPLAY_WORDS};
use crate::replay;
use crate::words::to_bytes;

fn cases() -> Cases {
    let mut cases = Cases::default();
    all(&mut cases);
    cases
}

/// How often each answer of a call occurs: 0 for one that isn't refused.
fn answers(cases: &Cases, call: u32) -> [usize; 16] {
    let mut times = [0; 16];
    for words in cases.of_call(call) {
        let case = [&[call, words.len() as u32], words].concat();
        let text = replay::text(&to_bytes(&case));
        let mut fields = text.split_whitespace();
        let refused = fields.next() == Some("refused");
        let number = fields.next().and_then(|field| field.parse().ok());
        let refusal: usize = number.filter(|_| refused).unwrap_or(0);
        times[refusal] += 1;
    }
    times
}

#[test]
fn every_answer_of_call_17_occurs() {
    let cases = cases();
    let times = answers(&cases, 17);
    let count = cases.of_call(17).len();
    assert!((2_200..2_800).contains(&count), "{count}");
    for (refusal, times) in times.into_iter().enumerate() {
        let never = [1, 11, 12].contains(&refusal);
        assert_eq!(times < 20, never, "{refusal}: {times} times");
    }
    assert!(times[0] > 700, "{} joined", times[0]);
    assert!(times[14] > 200 && times[15] > 60, "{times:?}");
}

#[test]
fn every_answer_of_calls_18_and_19_occurs() {
    let cases = cases();
    for (call, least, most, joining) in [(18, 600, 800, false), (19, 350, 450, true)] {
        let times = answers(&cases, call);
        let count = cases.of_call(call).len();
        assert!((least..most).contains(&count), "{count}");
        for refusal in [0].into_iter().chain(2..=10) {
            assert!(times[refusal] > 1, "{call}: {times:?}");
        }
        for refusal in 13..=15 {
            assert_eq!(times[refusal] > 1, joining, "{call}: {times:?}");
        }
    }
}

#[test]
fn joined_batches_fit_what_is_lent() {
    for words in cases().of_call(17) {
        assert!(words.len() <= REPLAY_WORDS);
        let (first, second) = words[2..].split_at(words[1] as usize);
        let length = answer(first, second).map_or(0, |joined| joined.len());
        assert!(length <= REPLAY_ROOM as usize + 1, "{length} words");
    }
}
