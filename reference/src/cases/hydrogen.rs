//! Call 1: every floor, and p outside its range.

use super::Cases;
use crate::numbers::{LEAST_PH, MOST_PH};

pub fn all(cases: &mut Cases) {
    for p in LEAST_PH..=MOST_PH {
        cases.add(1, &[p]);
    }
    for p in [0, 1, LEAST_PH - 1, MOST_PH + 1, 1_500, u32::MAX] {
        cases.add(1, &[p]);
    }
}
