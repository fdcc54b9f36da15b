//! "Charge and conductance": the table of document 01, the charge of an amount
//! by document 02 (i), and each ion's own charge by document 02 (v).

use crate::numbers::{ALKALINITY_CHARGE, AMMONIUM, AMOUNT_CHARGE, IONS, SULPHATE};

/// "Cat is H plus the next five rows": the first five ions.
pub const CATIONS: std::ops::Range<usize> = AMMONIUM..SULPHATE;
/// "An the last four": alkalinity and the other three ions.
pub const ANIONS: std::ops::Range<usize> = SULPHATE..IONS;

/// A row of the table.
pub struct Row {
    /// f: "An ion's charge is then amount × f × 10^3 u" (02 (i)).
    pub factor: i128,
    /// c: "Each u of an ion adds c units of 10^−13 µS/cm."
    pub conductance: i128,
    /// The charge of a single ion: "Ca, Mg and SO4 have charge 2, the others 1"
    /// (02 (v)).
    pub valence: i128,
}

const fn row(factor: i128, conductance: i128, valence: i128) -> Row {
    Row {
        factor,
        conductance,
        valence,
    }
}

/// The rows of the eight ions in reading order.
pub const TABLE: [Row; IONS] = [
    row(7139, 735, 1), // NH4-N
    row(4990, 595, 2), // Ca
    row(8229, 531, 2), // Mg
    row(4350, 501, 1), // Na
    row(2558, 735, 1), // K
    row(6237, 800, 2), // SO4-S
    row(7139, 714, 1), // NO3-N
    row(2821, 764, 1), // Cl
];

/// The c of hydrogen.
pub const HYDROGEN_CONDUCTANCE: i128 = 3500;
/// The c of alkalinity.
pub const ALKALINITY_CONDUCTANCE: i128 = 445;
/// Both are among "the others" with charge 1 (02 (v)).
pub const HYDROGEN_VALENCE: i128 = 1;
pub const ALKALINITY_VALENCE: i128 = 1;

/// The charge of an ion in u: amount × f × 10^3.
pub fn charge(ion: usize, amount: u32) -> i128 {
    i128::from(amount) * TABLE[ion].factor * AMOUNT_CHARGE
}

/// "Alkalinity, t tenths of a µeq/L, has t × 10^8 u."
pub fn alkalinity_charge(tenths: u32) -> i128 {
    i128::from(tenths) * ALKALINITY_CHARGE
}
