//! The same checks in idiomatic safe Rust, as one would write them without a
//! prover: 64-bit arithmetic and 128-bit products, tables of all floors, the
//! standard library's root, slices and iterators.

pub mod activity;
pub mod batch;
pub mod chart;
pub mod checks;
pub mod docket;
pub mod join;
pub mod record;

use crate::numbers::{FLOORS, POWERS};

/// The number of a refusal.
pub type Refusal = u32;

/// Tables that are made before anything is judged.
#[derive(Clone, Copy)]
pub struct Floors {
    /// Of hydrogen, one for each pH.
    pub hydrogen: [u64; FLOORS],
    /// Of 10^(9 − e), one for each thousandth e.
    pub powers: [u64; POWERS],
}
