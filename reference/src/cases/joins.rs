//! Calls 17 to 19: batches joined, a batch's own tests, and files joined.

mod damaged;
mod drawn;
mod elements;
mod files;
mod flags;
mod later;
mod rooms;
mod runs;
mod samples;
mod setups;
mod tested;

pub use damaged::faulty_batches;
pub use drawn::{drawn_batch, drawn_runs};
pub use runs::Runs;

use super::Cases;

pub fn all(cases: &mut Cases) {
    elements::all(cases);
    setups::all(cases);
    later::all(cases);
    samples::all(cases);
    flags::all(cases);
    damaged::all(cases);
    rooms::all(cases);
    drawn::all(cases);
    tested::all(cases);
    files::all(cases);
}

#[cfg(test)]
mod tests;
