//! Inputs that both sides get: records as an analyser makes them, bottles of
//! three runs, control charts, batches.

use crate::numbers::{
    ALKALINITY, BITS, CHART_ELEMENT, CHART_HEAD, CHART_LATER, CHART_SETUP, CONDUCTIVITY,
    FIRST_READING, IONS, KIND, KINDS, MARK, MOST_NUMBER, NUMBER_HIGH, NUMBER_LOW, PH, READINGS_END,
    READING_WORDS, RECORD_WORDS,
};

/// A small generator (xorshift); the same numbers in every run.
pub struct Random(u64);

impl Random {
    pub fn new(seed: u64) -> Random {
        Random(seed | 1)
    }

    fn next(&mut self) -> u64 {
        self.0 ^= self.0 << 13;
        self.0 ^= self.0 >> 7;
        self.0 ^= self.0 << 17;
        self.0
    }

    pub fn below(&mut self, n: u32) -> u32 {
        ((self.next() >> 33) % u64::from(n)) as u32
    }

    /// A sample's number, most of them of 15 digits.
    fn number(&mut self) -> u64 {
        1 + self.next() % MOST_NUMBER
    }

    /// From 0 to `most` mg/L, most of them small.
    fn milligrams(&mut self, most: f32) -> f32 {
        let part = self.below(1000) as f32 / 1000.0;
        part * part * most
    }
}

/// A record: one reading in twenty is missing, one in seven below its limit.
pub fn a_record(random: &mut Random) -> [u32; RECORD_WORDS] {
    let mut words = [0; RECORD_WORDS];
    let number = random.number();
    words[NUMBER_HIGH] = (number >> 32) as u32;
    words[NUMBER_LOW] = number as u32;
    words[KIND] = 1 + random.below(KINDS);
    words[PH] = 350 + random.below(450);
    words[CONDUCTIVITY] = 30 + random.below(600);
    words[ALKALINITY] = random.below(1500);
    for reading in words[FIRST_READING..READINGS_END].chunks_exact_mut(READING_WORDS) {
        (reading[MARK], reading[BITS]) = match random.below(140) {
            0..=6 => (0, 0),
            7..=26 => (2, 0.05f32.to_bits()),
            _ => (1, random.milligrams(4.0).to_bits()),
        };
    }
    words
}

/// Three runs of one bottle, whose readings move a little.
pub fn a_bottle(random: &mut Random) -> [[u32; RECORD_WORDS]; 3] {
    let first = a_record(random);
    let mut runs = [first; 3];
    for run in &mut runs[1..] {
        run[CONDUCTIVITY] += random.below(8);
        let ion = random.below(IONS as u32) as usize;
        let reading = &mut run[FIRST_READING + READING_WORDS * ion..];
        if reading[MARK] == 1 {
            reading[BITS] = random.milligrams(4.0).to_bits();
        }
    }
    runs
}

/// Setup values about 1,000 µg/L and later values that sometimes leave them.
pub fn a_chart(random: &mut Random, setup: usize, later: usize) -> (Vec<u32>, Vec<u32>) {
    let before = (0..setup).map(|_| 9_500 + random.below(1_000)).collect();
    let after = (0..later)
        .map(|_| match random.below(20) {
            0 => 8_000 + random.below(4_000),
            _ => 9_500 + random.below(1_000),
        })
        .collect();
    (before, after)
}

fn chart_words(element: u32, setup: &[u32], later: &[u32]) -> Vec<u32> {
    let mut head = [0; CHART_HEAD];
    head[CHART_ELEMENT] = element;
    head[CHART_SETUP] = setup.len() as u32;
    head[CHART_LATER] = later.len() as u32;
    [&head, setup, later].concat()
}

/// A chart of 30 + 30 values.
fn an_element(random: &mut Random, element: u32) -> Vec<u32> {
    let (setup, later) = a_chart(random, 30, 30);
    chart_words(element, &setup, &later)
}

/// These charts, and so many samples.
fn with_samples(random: &mut Random, charts: &[Vec<u32>], samples: usize) -> Vec<u32> {
    let mut words = vec![charts.len() as u32];
    words.extend(charts.concat());
    words.push(samples as u32);
    for _ in 0..samples {
        words.extend(a_record(random));
    }
    words
}

/// Five charts, and so many samples.
pub fn a_batch(random: &mut Random, samples: usize) -> Vec<u32> {
    let charts: Vec<_> = (1..=5).map(|e| an_element(random, e)).collect();
    with_samples(random, &charts, samples)
}

/// Two batches of so many samples each, with two charts each, of which one is in
/// both.
pub fn a_pair(random: &mut Random, samples: usize) -> [Vec<u32>; 2] {
    let (setup, later) = a_chart(random, 30, 60);
    let (before, after) = later.split_at(30);
    let of_first = [an_element(random, 1), chart_words(2, &setup, before)];
    let of_second = [chart_words(2, &setup, after), an_element(random, 3)];
    [of_first, of_second].map(|charts| with_samples(random, &charts, samples))
}
