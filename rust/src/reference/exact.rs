//! How far a reported rate may be off, request A8 of document 02.
//!
//! The exact rate comes from the chain of document 01 in its own words, with nothing rounded: each step is a fraction. The
//! largest numbers are those of a rate: LF in millionths, TCF in hundredths, and an area in 33rds of a hundredth. Before
//! they are reduced, they are at most 14 × 10^6 × 10^3 × 66·10^9 over 10^10 × 3,300; with the denominator of a slack, at most
//! 10^12, the sum that is the bound stays under 2^111.

use super::card::{Card, Containment, Dike, Meaning, ToxicCard};
use super::fraction::Fraction;
use super::printed;
use super::release::{Evaporation, Route};
use super::units::SquareFeet;
use super::{answer_of, Fault, Refused, CARD_LEN};

/// The rate of a card before anything is rounded, and how far above it the reported one may be.
#[derive(Debug, Clone, Copy, PartialEq, Eq)]
pub struct ExactRate {
    /// The number of the card's route.
    pub route: u8,
    /// The pool's area in square feet; zero where there is no pool.
    pub area: Fraction,
    /// Pounds per minute.
    pub exact: Fraction,
    /// Pounds per minute that a rate by route 2 has to stay under, counted from the exact one; zero by the others.
    pub slack: Fraction,
}

impl ExactRate {
    /// A rate that is reported as it is.
    fn as_reported(route: Route, exact: Fraction) -> Self {
        ExactRate { route: route as u8, area: Fraction::NONE, exact, slack: Fraction::NONE }
    }

    /// What a rate by route 2 is below.
    pub fn bound(&self) -> Fraction {
        self.exact.plus(self.slack)
    }

    /// Whether a reported rate, in thousandths of a pound per minute, is what the request says: at least the exact one,
    /// equal to it by routes 1 and 3, and below the bound by route 2.
    pub fn holds(&self, thousandths: u64) -> bool {
        let reported = Fraction::new(thousandths, 1_000);
        if self.route == Route::Pool as u8 {
            self.exact <= reported && reported < self.bound()
        } else {
            reported == self.exact
        }
    }
}

/// The exact rate of a card's bytes, or the refusal of a register that has this card alone.
pub fn exact_rate(card: &[u8; CARD_LEN]) -> Result<ExactRate, Refused> {
    find(card).map_err(|fault| fault.at(0))
}

fn find(bytes: &[u8; CARD_LEN]) -> Result<ExactRate, Fault> {
    let printed = printed::printed();
    let card = Card::read(bytes, 0, printed)?;
    // Beyond its table a card has a rate, but none is reported.
    answer_of(&card, printed)?;
    match &card.meaning {
        Meaning::Toxic(toxic) => toxic.exact_rate(),
        Meaning::Flammable { .. } => Ok(ExactRate::as_reported(Route::Blast, Fraction::NONE)),
    }
}

impl ToxicCard<'_> {
    fn exact_rate(&self) -> Result<ExactRate, Fault> {
        Ok(match self.evaporation()? {
            None => self.exact_gas_rate(),
            Some(evaporation) => self.exact_pool_rate(evaporation),
        })
    }

    /// Pounds / 10; in a building × 0.55 as well.
    fn exact_gas_rate(&self) -> ExactRate {
        let tenth = Fraction::new(self.pounds.whole(), 10);
        let factor = if self.is_sheltered() { Fraction::new(55, 100) } else { Fraction::ONE };
        ExactRate::as_reported(Route::Gas, tenth.times(factor))
    }

    /// 1.4 × LF × area × TCF; in a building × 0.1 as well, and so is 0.014 × LF × TCF, but not the 0.001 beside it.
    fn exact_pool_rate(&self, Evaporation { liquid_factor, temperature_factor }: Evaporation) -> ExactRate {
        let shed_factor = if self.is_sheltered() { Fraction::new(1, 10) } else { Fraction::ONE };
        let factors =
            Fraction::new(liquid_factor, 1_000_000).times(Fraction::new(temperature_factor, 100)).times(shed_factor);
        let area = self.exact_area();
        let exact = Fraction::new(14, 10).times(factors).times(area);
        let slack = Fraction::new(14, 1_000).times(factors).plus(Fraction::new(1, 1_000));
        ExactRate { route: Route::Pool as u8, area, exact, slack }
    }

    /// The area of the pool before it is rounded up.
    fn exact_area(&self) -> Fraction {
        let full = square_feet(self.full_area());
        match self.containment {
            Containment::Open => full,
            Containment::Building { floor } | Containment::ShedWithDoors { floor } => full.min(square_feet(floor)),
            Containment::Dike(dike) => exact_diked_area(full, dike),
        }
    }
}

/// The paper's three cases: all of it on the diked area, held by the wall, or run over it.
fn exact_diked_area(full: Fraction, dike: Dike) -> Fraction {
    let depth = Fraction::new(33, 1_000);
    let diked = square_feet(dike.area);
    let spilled = full.times(depth);
    let held = diked.times(Fraction::new(dike.wall.0, 100));
    if full <= diked {
        full
    } else if spilled <= held {
        diked
    } else {
        let overflow = spilled.minus(held).over(depth);
        full.min(diked.plus(overflow))
    }
}

fn square_feet(area: SquareFeet) -> Fraction {
    Fraction::new(area.hundredths(), 100)
}
