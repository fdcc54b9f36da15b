//! Part 6: two batches joined. What was joined is also answered as a batch, and
//! some of it joined again.

mod case;
mod charts;
mod drawn;
mod further;
mod large;
mod setups;
mod smaller;
mod written;

use crate::answers;
use crate::batches::damage;
use crate::case::{Mismatch, Run};
use crate::library::Library;
use crate::numbers::{MOST_BATCH, MOST_SAMPLES};
use crate::random::Draw;
use case::JoinCase;
use reference::cases::batches::batch;
use reference::cases::generator::Generator;

const DRAWN: u32 = 60_000;
/// Pairs whose joined batch is at its greatest or has a sample less or more,
/// half of them damaged.
const GREATEST: u32 = 100;

pub fn run(run: &mut Run) -> Result<(), Mismatch> {
    for [first, second] in written::all() {
        check_about(run, &first, &second)?;
    }
    for [first, second] in large::about_the_most_samples(&mut run.generator) {
        check_about(run, &first, &second)?;
    }
    for _ in 0..DRAWN {
        check_a_day(run)?;
    }
    for _ in 0..GREATEST {
        check_the_greatest(run)?;
    }
    Ok(())
}

/// Two batches of one day; of some days three, the third to what the first two
/// make.
fn check_a_day(run: &mut Run) -> Result<(), Mismatch> {
    let count = run.generator.pick(&[2, 2, 2, 2, 3]);
    let mut day = drawn::day(&mut run.generator, count);
    drawn::damage_some(&mut run.generator, &mut day);
    let mut batches = day.into_iter();
    let mut so_far = batches.next();
    for second in batches {
        let Some(first) = so_far else { break };
        so_far = joined_by(run.library, &first, &second);
        check(run, first, second)?;
    }
    Ok(())
}

/// Two batches of one day, as they are drawn in a run.
#[cfg(all(test, feature = "stand-in"))]
pub fn a_pair(generator: &mut Generator) -> [Vec<u32>; 2] {
    let mut day = drawn::day(generator, 2);
    drawn::damage_some(generator, &mut day);
    day.try_into().expect("two batches")
}

/// Two batches that make the greatest one; and that with nothing and with
/// itself. Or one of the two is damaged.
fn check_the_greatest(run: &mut Run) -> Result<(), Mismatch> {
    let samples = run.generator.about(MOST_SAMPLES as usize, 1);
    let mut pair = large::greatest(&mut run.generator, samples);
    if run.generator.once_in(2) {
        let place = run.generator.place(pair.len());
        damage(&mut run.generator, &mut pair[place]);
    }
    let [first, second] = pair;
    let joined = joined_by(run.library, &first, &second);
    check(run, first, second)?;
    if let Some(joined) = joined {
        check(run, joined.clone(), batch(&[], &[]))?;
        check(run, joined.clone(), joined)?;
    }
    Ok(())
}

fn check(run: &mut Run, first: Vec<u32>, second: Vec<u32>) -> Result<(), Mismatch> {
    let room = room_about(&mut run.generator, joined_length(&first, &second));
    run.check(JoinCase {
        first,
        second,
        room,
    })
}

/// A pair with the joined batch's own length lent, one less and one more.
fn check_about(run: &mut Run, first: &[u32], second: &[u32]) -> Result<(), Mismatch> {
    let exact = joined_length(first, second);
    for room in exact.saturating_sub(1)..=exact + 1 {
        run.check(JoinCase {
            first: first.to_vec(),
            second: second.to_vec(),
            room,
        })?;
    }
    Ok(())
}

/// What the library makes of the two, cut where it says that the answer ends:
/// more is lent than it needs, as a caller does who can't know its length.
fn joined_by(library: &dyn Library, first: &[u32], second: &[u32]) -> Option<Vec<u32>> {
    let mut joined = vec![0; MOST_BATCH];
    let mut length = 0;
    let answer = library.join(first, second, &mut joined, &mut length);
    joined.truncate(length);
    (answer == 0).then_some(joined)
}

/// How many words the joined batch has; of a pair that is refused, at least as
/// many as it might have had.
fn joined_length(first: &[u32], second: &[u32]) -> usize {
    match answers::join(first, second) {
        Ok(joined) => joined.len(),
        Err(_) => first.len() + second.len(),
    }
}

/// A lent length: mostly exact, else one or more words short or over, or none.
fn room_about(generator: &mut Generator, exact: usize) -> usize {
    match generator.below(12) {
        0 => 0,
        1 => generator.place(exact + 1),
        2 => exact.saturating_sub(1),
        3 => exact + 1,
        4 => exact + generator.place(100),
        _ => exact,
    }
}

#[cfg(test)]
mod tests {
    use super::*;
    use std::collections::HashSet;

    /// None, one word short to one over, and any length.
    #[test]
    fn every_length_about_a_joined_batch_s_is_lent() {
        let mut generator = Generator::new(43);
        let exact = 30;
        let rooms: HashSet<usize> = (0..20_000)
            .map(|_| room_about(&mut generator, exact))
            .collect();
        assert!((0..=exact + 99).all(|room| rooms.contains(&room)));
    }
}
