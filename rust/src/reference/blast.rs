//! The ring of a vapor cloud explosion by Equation C-1, request A7 of document 02.
//!
//! A tenth of the cloud explodes like TNT of 4,680 kJ/kg, and the ring has 17 metres times the cube root of the kilograms
//! of TNT, with 2.2 lb to the kg. Cubed and multiplied out, all of it is whole: metres³ × 102,960 against 4,913 × pounds ×
//! HC.

#[cfg(test)]
mod tests;

use super::printed::Flammable;
use super::units::{Metres, Pounds};

/// What stands for a table's number in the answer of a blast: no table is read for it.
pub const NO_TABLE: u8 = 0;
/// Table 13, from which blasts were answered before.
pub const RETIRED_TABLE: u8 = 13;

/// 17 cubed.
const OF_CLOUD: u64 = 4_913;
/// 10 × 2.2 × 4,680.
const OF_RING: u64 = 102_960;

/// The least whole number of metres at which the equation is met.
///
/// No pounds and no heat are above 10,000,000 and 150,000, so both sides stay under 2^53.
pub fn ring(substance: &Flammable, pounds: Pounds) -> Metres {
    let cloud = OF_CLOUD * pounds.whole() * substance.heat_of_combustion;
    let is_met = |metres: u64| metres.pow(3) * OF_RING >= cloud;
    // A float's cube root is a place to begin at. Which number is the least is settled by whole numbers.
    let mut metres = (cloud as f64 / OF_RING as f64).cbrt().ceil() as u64;
    while !is_met(metres) {
        metres += 1;
    }
    // It ends above 0, where nothing is met: a card has a pound at least.
    while is_met(metres - 1) {
        metres -= 1;
    }
    Metres::new(metres)
}
