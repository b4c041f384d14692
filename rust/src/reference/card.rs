//! A card's 24 bytes, or 28 where it has a season, taken apart into a meaning or a refusal.

use super::printed::{Flammable, Phase, Printed, Toxic};
use super::season::Season;
use super::units::{Concentration, Pounds, SquareFeet};
use super::{Fault, CARD_LEN};
use std::ops::RangeInclusive;

const POUNDS: RangeInclusive<u32> = 1..=10_000_000;
const AREA: RangeInclusive<u32> = 1..=1_000_000;
const WALL: RangeInclusive<u16> = 0..=10_000;
const TEMPERATURE: RangeInclusive<i16> = -500..=3_000;

/// The code of the kind that has a state, a ground and a containment.
const TOXIC: u8 = 1;

/// The code of the state whose cards have a concentration where others have a temperature.
pub const SOLUTION: u8 = 5;

/// A card that passed checks 5 to 9, 14 to 16 and 21, and 10 as far as its fields alone decide it.
pub struct Card<'p> {
    pub number: u32,
    pub meaning: Meaning<'p>,
    pub season: Season,
}

pub enum Meaning<'p> {
    Toxic(ToxicCard<'p>),
    Flammable { substance: &'p Flammable, pounds: Pounds },
}

pub struct ToxicCard<'p> {
    /// The row of B-1 or B-2, or in state 5 the one of B-3 that the concentration reads.
    pub substance: &'p Toxic,
    pub state: State,
    pub ground: Ground,
    pub containment: Containment,
    pub pounds: Pounds,
}

#[derive(Debug, Clone, Copy, PartialEq, Eq)]
pub enum State {
    Gas,
    Pressurised,
    Refrigerated,
    /// A liquid, at tenths of a degree Celsius.
    Liquid(i16),
    /// A solution in water, or oleum, always at 25 °C.
    Solution(Concentration),
}

#[derive(Debug, Clone, Copy, PartialEq, Eq)]
pub enum Ground {
    Rural,
    Urban,
}

/// What stands around a vessel. A pool stays on the floor of a building or a shed with doors, but only the building, a
/// closed space next to the outside air, keeps some of the vapor in.
#[derive(Debug, Clone, Copy, PartialEq, Eq)]
pub enum Containment {
    Open,
    Dike(Dike),
    Building { floor: SquareFeet },
    ShedWithDoors { floor: SquareFeet },
}

#[derive(Debug, Clone, Copy, PartialEq, Eq)]
pub struct Dike {
    pub area: SquareFeet,
    pub wall: Wall,
}

/// The height of a wall, in hundredths of a foot.
#[derive(Debug, Clone, Copy, PartialEq, Eq)]
pub struct Wall(pub u64);

impl<'p> Card<'p> {
    /// Reads a card; `last_number` is the number of the card before it, or 0.
    pub fn read(bytes: &[u8], last_number: u32, printed: &'p Printed) -> Result<Self, Fault> {
        let fields = Fields::cut(bytes);
        let season = Season::cut(bytes);
        if fields.number <= last_number {
            return Err(Fault::CardNumber);
        }
        let meaning = match fields.kind {
            TOXIC => Meaning::Toxic(toxic(&fields, season, printed)?),
            2 => flammable(&fields, season, printed)?,
            _ => return Err(Fault::Form),
        };
        Ok(Card { number: fields.number, meaning, season })
    }
}

impl<'p> ToxicCard<'p> {
    /// Reads a card that has to be toxic, whatever its number: any other is 6, however else it is faulty.
    pub fn read(bytes: &[u8], printed: &'p Printed) -> Result<Self, Fault> {
        let fields = Fields::cut(bytes);
        demand(fields.kind == TOXIC, Fault::Form)?;
        toxic(&fields, Season::cut(bytes), printed)
    }
}

/// The fields of a card as they stand.
pub struct Fields {
    pub kind: u8,
    pub state: u8,
    pub ground: u8,
    pub containment: u8,
    pub cas: u32,
    pub pounds: u32,
    pub area: u32,
    pub wall: u16,
    pub tenths: Tenths,
    pub number: u32,
}

/// Bytes 18 and 19 as they stand: tenths of a degree or of a percent, and only the state tells which.
#[derive(Debug, Clone, Copy, PartialEq, Eq)]
pub struct Tenths([u8; 2]);

impl Tenths {
    /// Both bytes zero, as they must be where neither a temperature nor a concentration applies.
    pub const BLANK: Self = Self([0; 2]);

    pub fn from_temperature(tenths: i16) -> Self {
        Self(tenths.to_be_bytes())
    }

    pub fn from_concentration(concentration: Concentration) -> Self {
        Self(concentration.tenths().to_be_bytes())
    }

    /// Signed, outside state 5.
    pub fn temperature(self) -> i16 {
        i16::from_be_bytes(self.0)
    }

    /// Unsigned, in state 5.
    pub fn concentration(self) -> Concentration {
        Concentration::from_tenths(u16::from_be_bytes(self.0))
    }
}

impl Fields {
    /// What stands behind a card's 24 bytes is none of them.
    pub fn cut(bytes: &[u8]) -> Self {
        let bytes: &[u8; CARD_LEN] = bytes.first_chunk().expect("a card has 24 bytes at least");
        let word = |at: usize| u32::from_be_bytes([bytes[at], bytes[at + 1], bytes[at + 2], bytes[at + 3]]);
        Fields {
            kind: bytes[0],
            state: bytes[1],
            ground: bytes[2],
            containment: bytes[3],
            cas: word(4),
            pounds: word(8),
            area: word(12),
            wall: u16::from_be_bytes([bytes[16], bytes[17]]),
            tenths: Tenths([bytes[18], bytes[19]]),
            number: word(20),
        }
    }

    /// The card that [`Fields::cut`] takes apart into these.
    pub fn bytes(&self) -> [u8; CARD_LEN] {
        let mut bytes = [0; CARD_LEN];
        bytes[..4].copy_from_slice(&[self.kind, self.state, self.ground, self.containment]);
        bytes[4..8].copy_from_slice(&self.cas.to_be_bytes());
        bytes[8..12].copy_from_slice(&self.pounds.to_be_bytes());
        bytes[12..16].copy_from_slice(&self.area.to_be_bytes());
        bytes[16..18].copy_from_slice(&self.wall.to_be_bytes());
        bytes[18..20].copy_from_slice(&self.tenths.0);
        bytes[20..].copy_from_slice(&self.number.to_be_bytes());
        bytes
    }
}

/// Refuses with a fault unless a condition holds.
pub fn demand(holds: bool, fault: Fault) -> Result<(), Fault> {
    if holds {
        Ok(())
    } else {
        Err(fault)
    }
}

fn flammable<'p>(fields: &Fields, season: Season, printed: &'p Printed) -> Result<Meaning<'p>, Fault> {
    let Fields { state, ground, containment, area, wall, tenths, .. } = *fields;
    let bare = (state, ground, containment) == (0, 0, 0) && (area, wall, tenths) == (0, 0, Tenths::BLANK);
    demand(bare, Fault::Form)?;
    let substance = printed.flammable(fields.cas).ok_or(Fault::Substance)?;
    demand(POUNDS.contains(&fields.pounds), Fault::Pounds)?;
    demand(season.is_in_range(), Fault::Day)?;
    Ok(Meaning::Flammable { substance, pounds: Pounds::new(fields.pounds) })
}

/// Checks 6 to 9, 14, 15 or 16, 21 and 10, in this order: each stage settles one number before the next is looked at. A
/// field that does not apply is zero once 6 has passed.
fn toxic<'p>(fields: &Fields, season: Season, printed: &'p Printed) -> Result<ToxicCard<'p>, Fault> {
    let (state, ground, containment) = form(fields)?;
    let substance = match state {
        State::Solution(concentration) => solution(fields, containment, concentration, printed)?,
        _ => pure_substance(fields, containment, printed)?,
    };
    demand(season.is_in_range(), Fault::Day)?;
    demand(fits(&substance.phase, state, containment), Fault::Exhibit)?;
    Ok(ToxicCard { substance, state, ground, containment, pounds: Pounds::new(fields.pounds) })
}

/// Checks 7 to 9, 14 and 15 in states 1 to 4.
fn pure_substance<'p>(fields: &Fields, containment: Containment, printed: &'p Printed) -> Result<&'p Toxic, Fault> {
    let substance = printed.toxic(fields.cas).ok_or(Fault::Substance)?;
    ranges(fields, containment)?;
    // Outside state 4 the field is zero, which is in range.
    demand(TEMPERATURE.contains(&fields.tenths.temperature()), Fault::Temperature)?;
    Ok(substance)
}

/// Checks 7 to 9, 14 and 16 in state 5.
fn solution<'p>(
    fields: &Fields,
    containment: Containment,
    concentration: Concentration,
    printed: &'p Printed,
) -> Result<&'p Toxic, Fault> {
    let solute = printed.solute(fields.cas).ok_or(Fault::Substance)?;
    ranges(fields, containment)?;
    solute.at(concentration).ok_or(Fault::Concentration)
}

/// Checks 8, 9 and 14, which are the same in every state.
fn ranges(fields: &Fields, containment: Containment) -> Result<(), Fault> {
    demand(POUNDS.contains(&fields.pounds), Fault::Pounds)?;
    demand(containment == Containment::Open || AREA.contains(&fields.area), Fault::Area)?;
    demand(WALL.contains(&fields.wall), Fault::Wall)
}

/// Check 6: the codes of bytes 1 to 3, and zero in each field that does not apply to them.
fn form(fields: &Fields) -> Result<(State, Ground, Containment), Fault> {
    let state = match (fields.state, fields.tenths) {
        (1, Tenths::BLANK) => State::Gas,
        (2, Tenths::BLANK) => State::Pressurised,
        (3, Tenths::BLANK) => State::Refrigerated,
        (4, tenths) => State::Liquid(tenths.temperature()),
        (SOLUTION, tenths) => State::Solution(tenths.concentration()),
        _ => return Err(Fault::Form),
    };
    // Checked first and read then, so that a sound card needs no jump here: its ground can't be foreseen by a processor.
    demand(matches!(fields.ground, 1 | 2), Fault::Form)?;
    let ground = if fields.ground == 1 { Ground::Rural } else { Ground::Urban };
    let containment = match (fields.containment, fields.area, fields.wall) {
        (0, 0, 0) => Containment::Open,
        (1, area, wall) => Containment::Dike(Dike { area: SquareFeet::from_whole(area), wall: Wall(u64::from(wall)) }),
        (2, floor, 0) => Containment::Building { floor: SquareFeet::from_whole(floor) },
        (3, floor, 0) => Containment::ShedWithDoors { floor: SquareFeet::from_whole(floor) },
        _ => return Err(Fault::Form),
    };
    Ok((state, ground, containment))
}

/// Check 10, as far as no factor is read: the state suits the exhibit, and only what can pool is diked. Every containment
/// suits a solution and B-3 has no blank, so 10 refuses none.
fn fits(phase: &Phase, state: State, containment: Containment) -> bool {
    let diked = matches!(containment, Containment::Dike(_));
    match (phase, state) {
        (Phase::Liquid(_), State::Liquid(_)) | (Phase::Gas { .. }, State::Refrigerated) => true,
        (Phase::Solution { .. }, State::Solution(_)) => true,
        (Phase::Gas { .. }, State::Gas | State::Pressurised) => !diked,
        (Phase::Gas { .. }, State::Liquid(_) | State::Solution(_)) => false,
        (Phase::Liquid(_) | Phase::Solution { .. }, _) => false,
    }
}
