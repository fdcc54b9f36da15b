//! Below readings as ranges of amounts (document 02 (vi)), one module a subject.

pub mod balance;
pub mod below;
pub mod conducting;
mod drawn;
mod halves;
mod nitrogen;
mod ratio;
mod rounding;
mod strength;

pub use below::Below;
pub use drawn::with_below;

use super::Cases;

pub fn all(cases: &mut Cases) {
    drawn::all(cases);
    balance::all(cases);
    conducting::all(cases);
    strength::all(cases);
    ratio::all(cases);
    nitrogen::all(cases);
    rounding::all(cases);
    halves::all(cases);
}
