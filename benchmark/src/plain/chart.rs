//! Control charts.

use super::Refusal;
use crate::numbers::{LEAST_SETUP, MOST_LATER, MOST_SETUP, MOST_VALUE};

struct Setup {
    n: i64,
    sum: i64,
    /// n (nQ − S²) / (n − 1) would be n² times the variance; this is n (nQ − S²).
    spread: i64,
}

impl Setup {
    fn new(values: &[u32]) -> Setup {
        let n = values.len() as i64;
        let sum: i64 = values.iter().map(|&v| i64::from(v)).sum();
        let squares: i64 = values.iter().map(|&v| i64::from(v) * i64::from(v)).sum();
        Setup {
            n,
            sum,
            spread: n * (n * squares - sum * sum),
        }
    }

    fn from_mean(&self, value: u32) -> i64 {
        self.n * i64::from(value) - self.sum
    }

    fn beyond(&self, k: i64, value: u32) -> bool {
        let d = self.from_mean(value);
        d * d * (self.n - 1) > k * k * self.spread
    }

    fn side_beyond_two(&self, value: u32) -> i64 {
        if self.beyond(2, value) {
            self.from_mean(value).signum()
        } else {
            0
        }
    }

    fn signal(&self, later: &[u32], i: usize) -> u32 {
        let mut signal = 0;
        if self.beyond(3, later[i]) {
            signal += 1;
        }
        let side = self.side_beyond_two(later[i]);
        let before = &later[i.saturating_sub(2)..i];
        if side != 0 && before.iter().any(|&v| self.side_beyond_two(v) == side) {
            signal += 2;
        }
        if i >= 6 {
            let seven = &later[i - 6..=i];
            let above = seven.iter().all(|&v| self.from_mean(v) > 0);
            let below = seven.iter().all(|&v| self.from_mean(v) < 0);
            if above || below {
                signal += 4;
            }
            let rising = seven.windows(2).all(|w| w[0] < w[1]);
            let falling = seven.windows(2).all(|w| w[0] > w[1]);
            if rising || falling {
                signal += 8;
            }
        }
        signal
    }
}

pub fn counts_fit(setup: usize, later: usize) -> bool {
    (LEAST_SETUP..=MOST_SETUP).contains(&setup) && later <= MOST_LATER
}

pub fn tested(setup: &[u32], later: &[u32]) -> Result<(), Refusal> {
    if !counts_fit(setup.len(), later.len()) {
        return Err(9);
    }
    if setup.iter().chain(later).any(|&v| v > MOST_VALUE) {
        return Err(10);
    }
    Ok(())
}

pub fn signals(setup: &[u32], later: &[u32], out: &mut [u32]) -> Result<usize, Refusal> {
    tested(setup, later)?;
    let out = out.get_mut(..later.len()).ok_or(13u32)?;
    let setup = Setup::new(setup);
    for (i, word) in out.iter_mut().enumerate() {
        *word = setup.signal(later, i);
    }
    Ok(later.len())
}

pub fn last_signal(setup: &[u32], later: &[u32]) -> Result<u32, Refusal> {
    tested(setup, later)?;
    match later.len() {
        0 => Ok(0),
        n => Ok(Setup::new(setup).signal(later, n - 1)),
    }
}
