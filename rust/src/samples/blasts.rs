//! Quantities of flammable substances about which a ring grows by a metre.
//!
//! Equation C-1 is solved for the pounds here and not for the metres: the ring has whole metres, so it grows in steps, and a
//! step ends with the largest quantity that its metres are enough for.

use super::{Rng, MAX_POUNDS};
use crate::reference::printed::{printed, Flammable};
use std::sync::LazyLock;

/// A quantity at which both sides of the equation are equal: the last of its step, which nothing is rounded for.
#[derive(Debug, Clone, Copy, PartialEq, Eq)]
pub struct Exact {
    /// CAS number without hyphens.
    pub cas: u32,
    /// Pounds, at most [`MAX_POUNDS`].
    pub pounds: u32,
    /// The ring.
    pub metres: u64,
}

static EXACT: LazyLock<Vec<Exact>> = LazyLock::new(|| printed().flammables().iter().flat_map(exact_of).collect());

/// All quantities at which both sides of the equation are equal.
pub fn exact_quantities() -> &'static [Exact] {
    &EXACT
}

/// A substance's CAS number and pounds of it: at or near the end of a step, sometimes of an exact one, or any.
pub fn any_quantity(rng: &mut Rng) -> (u32, u32) {
    if rng.one_in(16) {
        let exact = rng.pick(exact_quantities());
        return (exact.cas, rng.near(u64::from(exact.pounds), MAX_POUNDS));
    }
    let flammable = rng.pick(printed().flammables());
    let pounds = rng.any_size(MAX_POUNDS);
    if rng.one_in(4) {
        return (flammable.cas, pounds);
    }
    let end = largest_within(flammable, metres_about(flammable, pounds));
    (flammable.cas, rng.near(end, MAX_POUNDS))
}

/// The largest quantity, in pounds, that so many metres are enough for, whether or not a card may have it.
fn largest_within(flammable: &Flammable, metres: u64) -> u64 {
    metres.pow(3) * 102_960 / (4_913 * flammable.heat_of_combustion)
}

/// The ring of a quantity, as near as a sample needs it.
fn metres_about(flammable: &Flammable, pounds: u32) -> u64 {
    let kilojoules = flammable.heat_of_combustion as f64 * f64::from(pounds);
    (kilojoules * 4_913.0 / 102_960.0).cbrt().ceil() as u64
}

fn exact_of(flammable: &Flammable) -> Vec<Exact> {
    let of_a_pound = 4_913 * flammable.heat_of_combustion;
    let rings = (1..).take_while(|&metres| largest_within(flammable, metres) <= u64::from(MAX_POUNDS));
    let exact = rings.filter(|metres| (metres.pow(3) * 102_960).is_multiple_of(of_a_pound));
    let quantity = |metres| Exact { cas: flammable.cas, pounds: largest_within(flammable, metres) as u32, metres };
    exact.map(quantity).collect()
}
