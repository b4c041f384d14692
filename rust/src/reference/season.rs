//! Seasons, request A10 of document 02: the days of a year on which a card is in force, and the rings of a day and of the year.

#[cfg(test)]
mod tests;

use super::{accepted, leader, Accepted, Answer, Class, Farthest, Fault, Refused, CARD_LEN};
use std::ops::RangeInclusive;

/// The days of a year.
const DAYS: RangeInclusive<u16> = 1..=366;

/// The first and the last day of a card, both included. Read from bytes, it may have days that are none.
#[derive(Debug, Clone, Copy, PartialEq, Eq)]
pub(super) struct Season {
    first: u16,
    last: u16,
}

impl Season {
    /// That of a card which says nothing of days.
    const WHOLE_YEAR: Self = Season { first: 1, last: 366 };

    /// What stands behind the 24 bytes that every card has.
    pub fn cut(card: &[u8]) -> Self {
        match card[CARD_LEN..] {
            [] => Season::WHOLE_YEAR,
            [f0, f1, l0, l1] => Season { first: u16::from_be_bytes([f0, f1]), last: u16::from_be_bytes([l0, l1]) },
            _ => unreachable!("a card has 24 bytes or 28"),
        }
    }

    /// The bytes that [`Season::cut`] reads it from, in a card that has any.
    pub fn bytes(self) -> [u8; 4] {
        let ([f0, f1], [l0, l1]) = (self.first.to_be_bytes(), self.last.to_be_bytes());
        [f0, f1, l0, l1]
    }

    /// Check 21: whether both days are days of a year.
    pub fn is_in_range(self) -> bool {
        DAYS.contains(&self.first) && DAYS.contains(&self.last)
    }

    /// Whether a card is in force on a day. A first day after the last runs across New Year.
    fn has(self, day: u16) -> bool {
        let Season { first, last } = self;
        if first <= last {
            first <= day && day <= last
        } else {
            first <= day || day <= last
        }
    }
}

/// The rings of a whole year.
#[derive(Debug, Clone, Copy, PartialEq, Eq, Default)]
pub struct Year {
    /// The farthest card of each class, whatever its season.
    pub farthest: Accepted,
    /// The earliest day whose farthest toxic card has its distance; 0 where there is none.
    pub toxic_day: u16,
    /// The same of flammable cards.
    pub flammable_day: u16,
}

/// The farthest card of each class among those in force on a day.
///
/// A day that a year does not have is refused last of all, once the register is accepted.
pub fn farthest_on(register: &[u8], day: u32) -> Result<Accepted, Refused> {
    let (_, answers) = accepted(register)?;
    let day = u16::try_from(day).ok().filter(|day| DAYS.contains(day));
    let day = day.ok_or_else(|| Fault::Day.of_register())?;
    let in_force = || answers.iter().filter(|answer| answer.season.has(day));
    Ok(Accepted { toxic: leader(in_force(), Class::Toxic), flammable: leader(in_force(), Class::Flammable) })
}

/// The farthest card of each class in a year, and the earliest day with its distance.
pub fn year(register: &[u8]) -> Result<Year, Refused> {
    let (_, answers) = accepted(register)?;
    let [(toxic, toxic_day), (flammable, flammable_day)] =
        [Class::Toxic, Class::Flammable].map(|class| year_of(&answers, class));
    Ok(Year { farthest: Accepted { toxic, flammable }, toxic_day, flammable_day })
}

/// All days in turn: the first whose farthest is the year's.
fn year_of(answers: &[Answer], class: Class) -> (Option<Farthest>, u16) {
    let Some(farthest) = leader(answers.iter(), class) else {
        return (None, 0);
    };
    let miles_on = |day: u16| {
        let in_force = answers.iter().filter(|answer| answer.class == class && answer.season.has(day));
        in_force.map(|answer| answer.miles.hundredths()).max()
    };
    let day = DAYS.clone().find(|day| miles_on(*day) == Some(farthest.miles));
    (Some(farthest), day.expect("every season has a day"))
}
