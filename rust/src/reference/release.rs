//! Pool area, route, rate and choice of table of a toxic card.

use super::card::{Containment, Dike, Ground, State, ToxicCard};
use super::printed::{Factor, LiquidFactors, Phase, Plume, Table};
use super::units::{Pounds, PoundsPerMinute, SquareFeet};
use super::Fault;

const AMMONIA: u32 = 7_664_417;
const CHLORINE: u32 = 7_782_505;
const SULFUR_DIOXIDE: u32 = 7_446_095;

/// A liquid above this, in tenths of a degree Celsius, evaporates as at its boiling point.
const HOTTEST_COLUMN: i16 = 500;

/// A temperature factor of 1, in hundredths.
const ONE: u64 = 100;

/// The route by which a card's substance comes out, with its number.
#[derive(Debug, Clone, Copy, PartialEq, Eq)]
pub enum Route {
    Gas = 1,
    Pool = 2,
    Blast = 3,
}

pub struct Release {
    pub route: Route,
    pub rate: PoundsPerMinute,
    pub span: Span,
}

/// Which of the generic tables a release's duration selects.
#[derive(Debug, Clone, Copy, PartialEq, Eq)]
pub enum Span {
    TenMinutes,
    SixtyMinutes,
}

/// How fast a square foot of pool evaporates.
#[derive(Clone, Copy)]
pub struct Evaporation {
    /// LFA or LFB, in millionths.
    pub liquid_factor: u64,
    /// TCF, in hundredths.
    pub temperature_factor: u64,
}

impl Evaporation {
    /// By LFB, or by the LFA of a solution: no temperature factor belongs to either.
    fn by(liquid_factor: u64) -> Self {
        Evaporation { liquid_factor, temperature_factor: ONE }
    }

    /// That of a liquid of B-2 at tenths of a degree. Fails only where B-4 has no data for it.
    fn of_liquid(factors: &LiquidFactors, tenths: i16) -> Result<Self, Fault> {
        if tenths > HOTTEST_COLUMN {
            return Ok(Self::by(factors.lfb));
        }
        match factors.at(tenths) {
            Factor::Times(temperature_factor) => Ok(Evaporation { liquid_factor: factors.lfa, temperature_factor }),
            Factor::UseBoiling => Ok(Self::by(factors.lfb)),
            Factor::NoData => Err(Fault::Exhibit),
        }
    }
}

impl ToxicCard<'_> {
    /// Route and rate. Fails only where the factor to be read is marked as without data.
    pub fn release(&self) -> Result<Release, Fault> {
        Ok(match self.evaporation()? {
            None => self.gas_release(),
            Some(evaporation) => self.pool_release(evaporation),
        })
    }

    /// How the substance evaporates, or `None` if it leaves as a gas over ten minutes.
    pub fn evaporation(&self) -> Result<Option<Evaporation>, Fault> {
        match (self.state, &self.substance.phase, self.containment) {
            (State::Liquid(tenths), Phase::Liquid(factors), _) => Evaporation::of_liquid(factors, tenths).map(Some),
            (State::Solution(_), Phase::Solution { lfa }, _) => Ok(Some(Evaporation::by(*lfa))),
            // In a dike larger than its full area, a refrigerated gas lies shallow and leaves at once.
            (State::Refrigerated, Phase::Gas { lfb }, Containment::Dike(dike)) if self.full_area() > dike.area => {
                Ok(Some(Evaporation::by(*lfb)))
            }
            _ => Ok(None),
        }
    }

    /// Whether walls keep some of a gas or a vapor in.
    pub fn is_sheltered(&self) -> bool {
        match self.containment {
            Containment::Building { .. } => true,
            Containment::Open | Containment::Dike(_) | Containment::ShedWithDoors { .. } => false,
        }
    }

    fn gas_release(&self) -> Release {
        // Thousandths of pounds / 10, and of pounds / 10 × 0.55: both whole, so nothing is rounded.
        let thousandths_a_pound = if self.is_sheltered() { 55 } else { 100 };
        Release {
            route: Route::Gas,
            rate: PoundsPerMinute::from_thousandths(self.pounds.whole() * thousandths_a_pound),
            span: Span::TenMinutes,
        }
    }

    fn pool_release(&self, evaporation: Evaporation) -> Release {
        let rate = pool_rate(evaporation, self.pool_area(), self.is_sheltered());
        let span = match self.state {
            // A solution gives off most while it is strong: its first ten minutes count, however long the pool stands.
            State::Solution(_) => Span::TenMinutes,
            _ => span(self.pounds, rate),
        };
        Release { route: Route::Pool, rate, span }
    }

    /// Pounds × DF: exact, since DF has two decimals and areas are held in hundredths.
    pub fn full_area(&self) -> SquareFeet {
        SquareFeet::from_hundredths(self.pounds.whole() * self.substance.density_factor)
    }

    fn pool_area(&self) -> SquareFeet {
        let full = self.full_area();
        match self.containment {
            Containment::Open => full,
            Containment::Building { floor } | Containment::ShedWithDoors { floor } => full.min(floor),
            Containment::Dike(dike) if full <= dike.area => full,
            Containment::Dike(dike) => full.min(diked_area(full, dike)),
        }
    }

    /// The table to be read in the worst case, given the duration that a generic one depends on.
    pub fn worst_case_table(&self, span: Span) -> Table {
        self.table(self.substance.plume, span)
    }

    /// The same in an alternative case, where the exhibits have a column of their own for the plume.
    pub fn alternative_table(&self, span: Span) -> Table {
        self.table(self.substance.alternative_plume, span)
    }

    /// The table of the case in which the exhibit says this of the plume.
    fn table(&self, in_exhibit: Plume, span: Span) -> Table {
        match self.substance.cas {
            AMMONIA if self.state == State::Pressurised => Table::Specific(9, self.ground),
            AMMONIA => Table::Specific(10, self.ground),
            CHLORINE => Table::Specific(11, self.ground),
            SULFUR_DIOXIDE => Table::Specific(12, self.ground),
            _ => {
                let place = match (self.ground, span) {
                    (Ground::Rural, Span::TenMinutes) => 0,
                    (Ground::Rural, Span::SixtyMinutes) => 1,
                    (Ground::Urban, Span::TenMinutes) => 2,
                    (Ground::Urban, Span::SixtyMinutes) => 3,
                };
                match self.plume(in_exhibit) {
                    Plume::Neutral => Table::Neutral(1 + place),
                    Plume::Dense => Table::Dense(5 + place),
                }
            }
        }
    }

    /// A liquefied gas comes out cold or with droplets, so it is dense whatever the exhibit says of the gas.
    fn plume(&self, in_exhibit: Plume) -> Plume {
        match self.state {
            State::Pressurised | State::Refrigerated => Plume::Dense,
            State::Gas | State::Liquid(_) | State::Solution(_) => in_exhibit,
        }
    }
}

/// The area of a dike that is smaller than the full area, with what runs over its wall, rounded up.
///
/// The paper's two volumes are multiplied by 100,000 to be whole: full area × 0.033 is then 33 × its hundredths, and
/// diked area × wall 10 × their hundredths.
fn diked_area(full: SquareFeet, dike: Dike) -> SquareFeet {
    let diked = dike.area.hundredths();
    let spilled = 33 * full.hundredths();
    let held = 10 * diked * dike.wall.0;
    let overflow = spilled.saturating_sub(held).div_ceil(33);
    SquareFeet::from_hundredths(diked + overflow)
}

/// 1.4 × LF × area × TCF, and × 0.1 in a building, rounded up to thousandths.
///
/// In the units held that is 14 × LF × area × TCF / 10^8. Halved above and below it stays under 2^64 for every factor
/// and quantity that the paper allows: 7 × 10^6 × 2·10^9 × 10^3.
fn pool_rate(evaporation: Evaporation, area: SquareFeet, sheltered: bool) -> PoundsPerMinute {
    let product = 7 * evaporation.liquid_factor * area.hundredths() * evaporation.temperature_factor;
    PoundsPerMinute::from_thousandths(if sheltered {
        product.div_ceil(500_000_000)
    } else {
        product.div_ceil(50_000_000)
    })
}

/// Pounds / rate is at most 10 minutes, or not.
fn span(pounds: Pounds, rate: PoundsPerMinute) -> Span {
    if pounds.whole() * 1_000 <= rate.thousandths() * 10 {
        Span::TenMinutes
    } else {
        Span::SixtyMinutes
    }
}
