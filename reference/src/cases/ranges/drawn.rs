//! Bottles some of whose readings are turned to below ones.

use crate::cases::batches::batch;
use crate::cases::bottle::{plausible, Bottle};
use crate::cases::conducting::tenths_at_edges;
use crate::cases::floats::limit_with;
use crate::cases::generator::Generator;
use crate::cases::Cases;
use crate::numbers::{answer_words, KINDS, LEAST_LIMIT, MOST_AMOUNT, READINGS, REPLAY_SAMPLES};
use crate::readings::Reading;

/// The bottle with so many readings below their limits, anywhere: now with
/// limits about what was there, now with far lower ones, as a good detector has.
pub fn with_below(generator: &mut Generator, bottle: &Bottle, count: usize) -> Bottle {
    let mut places: Vec<usize> = (0..READINGS).collect();
    while places.len() > count {
        places.remove(generator.below(places.len() as u32) as usize);
    }
    let hundredths = generator.pick(&[0, 5, 20, 100, 150]);
    places.into_iter().fold(bottle.clone(), |bottle, place| {
        let (mark, bits) = bottle.mark_and_bits(place);
        let amount = Reading::from_words(mark, bits)
            .ok()
            .and_then(Reading::amount);
        let near = generator.near(amount.unwrap_or(0), 40);
        let limit = (u64::from(near) * hundredths / 100) as u32;
        bottle.below(place, limit_with(limit.clamp(LEAST_LIMIT, MOST_AMOUNT)))
    })
}

/// One to ten below readings of a plausible bottle, as it is measured and where
/// its conductivity may change its verdict; then whole batches of these.
pub fn all(cases: &mut Cases) {
    let mut generator = Generator::new(600);
    for count in 1..=READINGS {
        for _ in 0..45 {
            let bottle = plausible(&mut generator);
            let bottle = with_below(&mut generator, &bottle, count);
            cases.judge(&bottle);
            let edges = tenths_at_edges(&bottle);
            if !edges.is_empty() {
                cases.judge(&bottle.conductivity(generator.pick(&edges)));
            }
        }
    }
    for _ in 0..3 {
        let samples = drawn_samples(&mut generator);
        let room = answer_words(samples.len()) as u32;
        cases.add(12, &[vec![room], batch(&[], &samples)].concat());
    }
}

/// As many samples as a case has words for, of every kind.
fn drawn_samples(generator: &mut Generator) -> Vec<Bottle> {
    KINDS
        .cycle()
        .take(REPLAY_SAMPLES)
        .map(|kind| {
            let bottle = plausible(generator).kind(kind);
            let count = generator.between(1, 4) as usize;
            with_below(generator, &bottle, count)
        })
        .collect()
}
