//! The pairs of files that the program `join` is run with: the batches before
//! and after a tray change.

mod answered;
mod refused;

use crate::join::output;
use crate::words::to_bytes;

/// Two files under one name.
pub struct Pair {
    pub name: &'static str,
    pub first: Vec<u8>,
    pub second: Vec<u8>,
}

impl Pair {
    /// The files of two batches.
    fn of_words(name: &'static str, first: &[u32], second: &[u32]) -> Pair {
        Pair {
            name,
            first: to_bytes(first),
            second: to_bytes(second),
        }
    }

    /// What the program prints.
    pub fn answer(&self) -> Vec<u8> {
        output(&self.first, &self.second)
    }
}

/// An ordinary day: the pair that the program's own stored run is of.
pub fn tray_change() -> Pair {
    answered::tray_change()
}

pub fn all() -> Vec<Pair> {
    let mut pairs = answered::all();
    pairs.extend(refused::all());
    pairs
}

#[cfg(test)]
mod tests;
