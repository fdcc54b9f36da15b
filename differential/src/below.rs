//! Bottles with one to ten readings below their limits, anywhere in them.

use crate::floats::{any_limit, any_limit_with};
use crate::numbers::{LEAST_LIMIT, LEAST_LIMIT_BITS, MOST_AMOUNT, MOST_BITS, MOST_TRACE, READINGS};
use crate::random::Draw;
use reference::cases::bottle::Bottle;
use reference::cases::generator::Generator;
use reference::readings::Reading;

/// Where the limits of a bottle come from.
#[derive(Clone, Copy)]
enum Limits {
    /// Any float from the least limit to the greatest.
    Any,
    /// Next to nothing, as a good detector has.
    Traces,
    /// About what was measured, so that the range ends there.
    Ending,
    /// About twice what was measured, so that half the limit is that.
    Halving,
    /// A hundredth to a third of what was measured.
    Parts,
}

/// The bottle with so many readings below their limits.
pub fn with_below(generator: &mut Generator, bottle: &Bottle, count: usize) -> Bottle {
    let limits = generator.pick(&[
        Limits::Any,
        Limits::Traces,
        Limits::Traces,
        Limits::Ending,
        Limits::Halving,
        Limits::Parts,
    ]);
    let mut places: Vec<usize> = (0..READINGS).collect();
    generator.shuffle(&mut places);
    places.truncate(count);
    places.into_iter().fold(bottle.clone(), |bottle, place| {
        let (mark, bits) = bottle.mark_and_bits(place);
        let reading = Reading::from_words(mark, bits);
        let amount = reading.ok().and_then(Reading::amount).unwrap_or(0);
        bottle.below(place, drawn_limit(generator, limits, amount))
    })
}

/// One to ten, few as often as many.
pub fn some_below(generator: &mut Generator, bottle: &Bottle) -> Bottle {
    let most = generator.pick(&[1, 3, READINGS as u32]);
    let count = generator.between(1, most) as usize;
    with_below(generator, bottle, count)
}

fn drawn_limit(generator: &mut Generator, limits: Limits, amount: u32) -> u32 {
    let of = |generator: &mut Generator, amount: u32| {
        any_limit_with(generator, amount.clamp(LEAST_LIMIT, MOST_AMOUNT))
    };
    match limits {
        Limits::Any => generator.between(LEAST_LIMIT_BITS, MOST_BITS),
        Limits::Traces => {
            let trace = generator.of_any_size(MOST_TRACE);
            of(generator, trace)
        }
        Limits::Ending => {
            let beside = (amount + generator.below(3)).saturating_sub(1);
            of(generator, beside)
        }
        Limits::Halving => match any_limit(generator, amount) {
            Some(limit) => limit,
            None => of(generator, amount),
        },
        Limits::Parts => {
            let part = amount / generator.between(3, 100);
            of(generator, part)
        }
    }
}

#[cfg(test)]
mod tests {
    use super::*;
    use crate::answers::judge;
    use crate::bottles::everyday;
    use crate::numbers::{mark_of, CHECKS};

    fn below_readings(bottle: &Bottle) -> usize {
        let is_below = |&place: &usize| bottle.words()[mark_of(place)] == 2;
        (0..READINGS).filter(is_below).count()
    }

    #[test]
    fn as_many_as_were_wanted() {
        let mut generator = Generator::new(21);
        for count in 1..=READINGS {
            for _ in 0..200 {
                let bottle = with_below(&mut generator, &Bottle::doubtful(), count);
                assert_eq!(below_readings(&bottle), count);
                assert!(judge(bottle.words()).is_ok());
            }
        }
    }

    /// Undecided is common in every check, and so are the others; by how many
    /// readings are below their limits.
    #[test]
    fn every_verdict_of_every_check_is_common() {
        let mut generator = Generator::new(22);
        let mut times = [[[0; 5]; CHECKS]; READINGS + 1];
        for _ in 0..20_000 {
            let bottle = everyday(&mut generator);
            let bottle = some_below(&mut generator, &bottle);
            let verdicts = judge(bottle.words()).expect("a record");
            for (check, verdict) in verdicts.into_iter().enumerate() {
                times[below_readings(&bottle)][check][verdict as usize] += 1;
            }
        }
        for check in 0..CHECKS {
            for verdict in 1..=3 {
                let all: u32 = times.iter().map(|counts| counts[check][verdict]).sum();
                assert!(all > 500, "check {check} verdict {verdict}: {all}");
            }
        }
        // With ten below readings there is no ratio, and nitrogen is undecided.
        for (count, times) in times.iter().enumerate().skip(1) {
            let undecided = times.map(|verdicts| verdicts[3] > 20);
            let due = [true, true, count < READINGS, true];
            assert_eq!(undecided, due, "{count} below: {times:?}");
            assert!(
                times[..2].iter().all(|v| v[1] > 10 && v[2] > 50),
                "{times:?}"
            );
        }
    }
}
