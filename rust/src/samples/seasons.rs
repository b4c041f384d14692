//! Seasons of cards, and days beside their ends.

use super::Rng;
use crate::reference::{CARD_LEN, SEASONAL_CARD_LEN};

/// The last day of a year.
pub const LAST_DAY: u16 = 366;

/// The first and the last day of a card, both included, right or wrong. A first after the last runs across New Year.
#[derive(Debug, Clone, Copy, PartialEq, Eq)]
pub struct Season {
    /// 1 to 366.
    pub first: u16,
    /// 1 to 366.
    pub last: u16,
}

/// The last day and the first, together and each alone.
const AT_NEW_YEAR: [Season; 4] = [
    Season { first: LAST_DAY, last: 1 },
    Season { first: LAST_DAY, last: 1 },
    Season { first: LAST_DAY, last: LAST_DAY },
    Season { first: 1, last: 1 },
];

/// What older cards are in force for.
pub const WHOLE_YEAR: Season = Season { first: 1, last: LAST_DAY };

impl Season {
    /// That of a card as it stands in a register, the whole year if it has none.
    pub fn of(card: &[u8]) -> Self {
        match card[CARD_LEN..] {
            [f0, f1, l0, l1] => Season { first: u16::from_be_bytes([f0, f1]), last: u16::from_be_bytes([l0, l1]) },
            _ => WHOLE_YEAR,
        }
    }

    /// A card with its season behind it.
    pub fn behind(self, card: &[u8; CARD_LEN]) -> [u8; SEASONAL_CARD_LEN] {
        let mut bytes = [0; SEASONAL_CARD_LEN];
        bytes[..CARD_LEN].copy_from_slice(card);
        bytes[CARD_LEN..][..2].copy_from_slice(&self.first.to_be_bytes());
        bytes[CARD_LEN + 2..].copy_from_slice(&self.last.to_be_bytes());
        bytes
    }
}

/// A season of any kind: a day, the whole year, some days of a year, or some across New Year, short or long.
pub fn any_season(rng: &mut Rng) -> Season {
    let (one, other) = (any_day(rng), any_day(rng));
    let (early, late) = (one.min(other), one.max(other));
    match rng.below(12) {
        0 => Season { first: one, last: one },
        1 => WHOLE_YEAR,
        // Every day, from another day on.
        2 => Season { first: one, last: if one == 1 { LAST_DAY } else { one - 1 } },
        3 => *rng.pick(&AT_NEW_YEAR),
        4 | 5 => Season { first: late, last: early },
        // Two neighbours, or a week.
        6 => Season { first: one.min(LAST_DAY - 1), last: one.min(LAST_DAY - 1) + 1 },
        7 => Season { first: one.min(LAST_DAY - 6), last: one.min(LAST_DAY - 6) + 6 },
        _ => Season { first: early, last: late },
    }
}

/// A season one of whose days, or both, no year has.
pub fn wrong_season(rng: &mut Rng) -> Season {
    const WRONG: [u16; 8] = [0, LAST_DAY + 1, LAST_DAY + 2, 512, 513, 878, 32_769, u16::MAX];
    let Season { first, last } = any_season(rng);
    let wrong = *rng.pick(&WRONG);
    match rng.below(5) {
        0 | 1 => Season { first: wrong, last },
        2 | 3 => Season { first, last: wrong },
        _ => Season { first: wrong, last: *rng.pick(&WRONG) },
    }
}

/// A day of a year, its ends more often than others.
pub fn any_day(rng: &mut Rng) -> u16 {
    match rng.below(6) {
        0 => *rng.pick(&[1, 2, LAST_DAY - 1, LAST_DAY]),
        _ => 1 + rng.below(u64::from(LAST_DAY)) as u16,
    }
}

/// A day to be named: the first or the last of a season or one beside it.
pub fn day_beside(rng: &mut Rng, season: Season) -> u32 {
    let edge = *rng.pick(&[season.first, season.last]);
    u32::from(edge).saturating_add_signed(*rng.pick(&[-1, 0, 1]))
}
