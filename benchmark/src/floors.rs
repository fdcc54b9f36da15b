//! The tables that plain Rust is handed, exact to the last entry.

use crate::numbers::LEAST_PH;
use crate::plain::Floors;
use reference::big::Big;
use reference::hydrogen::Ph;

/// The floor of 10^(9 − n/1000): what a float says, held to the exact powers.
fn power(n: u32) -> u64 {
    let floor = 10f64.powf(9.0 - f64::from(n) / 1_000.0) as u64;
    let bound = Big::new(10).power(9_000 - n);
    let thousandth = |base: u64| Big::new(base.into()).power(1_000);
    assert!(thousandth(floor) <= bound && bound < thousandth(floor + 1));
    floor
}

pub fn floors() -> Floors {
    Floors {
        hydrogen: std::array::from_fn(|i| Ph::new(LEAST_PH + i as u32).map_or(0, Ph::floor)),
        powers: std::array::from_fn(|n| power(n as u32)),
    }
}
