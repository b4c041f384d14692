//! Likely scenarios, request A6 of document 02: an alternative distance for a toxic card, at a rate and a duration that
//! are supplied. The card says what came out and where, and nothing of how fast.

#[cfg(test)]
mod tests;

use super::card::{demand, State, ToxicCard};
use super::printed::{self, Reading, Row, LIMIT};
use super::release::Span;
use super::units::{Miles, PoundsPerMinute};
use super::{Fault, Refused, CARD_LEN};
use std::ops::RangeInclusive;

/// The rates that may be supplied, in thousandths of a pound per minute.
const RATE: RangeInclusive<u64> = 1..=1_000_000_000;
/// The longest duration, in minutes, that reads a 10-minute table.
const TEN_MINUTES: u32 = 10;

/// An alternative distance.
#[derive(Debug, Clone, Copy, PartialEq)]
pub struct Likely {
    /// The number of the table that was read, 14 to 25.
    pub table: u8,
    /// How the distance was found in it.
    pub found: Found,
    /// The distance in hundredths of a mile.
    pub hundredths: f64,
}

/// How a distance was found, with the numbers of the C interface.
#[derive(Debug, Clone, Copy, PartialEq, Eq, PartialOrd, Ord)]
pub enum Found {
    /// It is printed, at a row's rate, for a range or below the first row.
    Printed = 1,
    /// It lies between those of two rows.
    Interpolated = 2,
    /// 25 miles, or more.
    Limit = 3,
}

/// The alternative distance for a card's bytes, at thousandths of a pound per minute that last for whole minutes.
///
/// A refusal means no place, so its place is 0.
pub fn likely(card: &[u8; CARD_LEN], rate: u64, minutes: u32) -> Result<Likely, Refused> {
    find(card, rate, minutes).map_err(|fault| fault.at(0))
}

fn find(card: &[u8; CARD_LEN], rate: u64, minutes: u32) -> Result<Likely, Fault> {
    demand(RATE.contains(&rate), Fault::Rate)?;
    demand(minutes > 0, Fault::Duration)?;
    let printed = printed::printed();
    let toxic = ToxicCard::read(card, printed)?;
    // The card's own rate plays no part, but 10 is checked whole: the factor that it reads has to be there.
    toxic.release()?;
    let rate = PoundsPerMinute::from_thousandths(rate);
    let table = toxic.alternative_table(span(toxic.state, minutes));
    let reading = table.alternative(printed, rate, toxic.substance).ok_or(Fault::Table)?;
    let (found, hundredths) = distance(reading, rate);
    Ok(Likely { table: table.alternative_number(), found, hundredths })
}

/// A solution reads a 10-minute table, however long it lasts.
fn span(state: State, minutes: u32) -> Span {
    match state {
        State::Solution(_) => Span::TenMinutes,
        _ if minutes <= TEN_MINUTES => Span::TenMinutes,
        _ => Span::SixtyMinutes,
    }
}

/// Strictly between two rows a distance is interpolated, also where both print the same; but from just above the last
/// entry under 25 miles on it is 25 miles.
fn distance(reading: Reading, rate: PoundsPerMinute) -> (Found, f64) {
    match reading {
        Reading::Entry(LIMIT) | Reading::Between(_, Row { miles: LIMIT, .. }) => (Found::Limit, hundredths(LIMIT)),
        Reading::Entry(miles) => (Found::Printed, hundredths(miles)),
        Reading::Between(below, above) => (Found::Interpolated, interpolated(below.into(), above.into(), rate)),
    }
}

/// A row's rate in thousandths and its entry in hundredths, as floats. Both are whole and small, so both are exact.
#[derive(Clone, Copy)]
struct Pair {
    rate: f64,
    hundredths: f64,
}

impl From<Row> for Pair {
    fn from(row: Row) -> Self {
        Pair { rate: thousandths(row.rate), hundredths: hundredths(row.miles) }
    }
}

/// The paper's order of operations: the quotient, then the product, then the sum, each rounded by itself.
fn interpolated(
    Pair { rate: r0, hundredths: d0 }: Pair,
    Pair { rate: r1, hundredths: d1 }: Pair,
    rate: PoundsPerMinute,
) -> f64 {
    let r = thousandths(rate);
    d0 + (d1 - d0) * ((r - r0) / (r1 - r0))
}

fn thousandths(rate: PoundsPerMinute) -> f64 {
    rate.thousandths() as f64
}

fn hundredths(miles: Miles) -> f64 {
    f64::from(miles.hundredths())
}
