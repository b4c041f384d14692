//! Registers with seasons, good and bad, and the days that tell something of them.

use crate::{damage, spoil, spoil_distances};
use rings_second::reference::MAX_CARDS;
use rings_second::samples::seasons::{any_day, any_season, day_beside, wrong_season, Season};
use rings_second::samples::{self, accepted_cards, cards_of, farthest_distances, register, Card, Rng};

/// Cards that are accepted, to be drawn from.
const POOL: usize = 20_000;
/// The most cards of a short register.
const SHORT: i64 = 12;

/// Refrigerated ammonia, urban, above the last row of Table 10: 11.
const BEYOND: Card = Card {
    kind: 1,
    state: 3,
    ground: 2,
    containment: 0,
    cas: 7_664_417,
    pounds: 7_500_010,
    area: 0,
    wall: 0,
    tenths: 0,
    number: 1,
};
/// Faults that few spoiled cards have: 11, 14, 15 and 16.
const SELDOM_SPOILED: [Card; 4] = [
    BEYOND,
    Card { containment: 1, area: 100, wall: 10_001, ..BEYOND },
    Card { state: 4, cas: 7_726_956, tenths: 3_001, ..BEYOND },
    Card { state: 5, tenths: 301, ..BEYOND },
];

/// Draws registers from one pool of accepted cards.
pub struct Registers {
    pool: Vec<Card>,
}

impl Registers {
    pub fn new(rng: &mut Rng) -> Self {
        Registers { pool: accepted_cards(rng, POOL) }
    }

    /// A register of up to a dozen cards that is accepted, of version 3.
    pub fn accepted(&self, rng: &mut Rng) -> Vec<u8> {
        let most = if rng.one_in(10) { SHORT } else { 3 };
        let count = rng.between(0, most) as usize;
        let cards = self.cards(rng, count);
        let seasonal = seasonal(rng, &cards);
        samples::seasonal_register(&seasonal, farthest_distances(&register(&cards)))
    }

    /// A register of up to a dozen cards, of any version, mostly of version 3 and sound.
    pub fn short(&self, rng: &mut Rng) -> Vec<u8> {
        let count = count(rng);
        let cards = self.cards(rng, count);
        made_of(rng, cards)
    }

    /// The same of a hundred cards and more.
    pub fn long(&self, rng: &mut Rng) -> Vec<u8> {
        let count = *rng.pick(&[100, 700, MAX_CARDS - 1, MAX_CARDS]);
        let cards = self.cards(rng, count);
        made_of(rng, cards)
    }

    /// Cards of rising numbers, some like the one before, so that there are ties.
    fn cards(&self, rng: &mut Rng, count: usize) -> Vec<Card> {
        let mut cards: Vec<Card> = Vec::with_capacity(count);
        let count = count as u32;
        let before = if rng.one_in(20) { u32::MAX - count } else { rng.below(1_000) as u32 };
        for step in 1..=count {
            let number = before + step;
            let card = match cards.last() {
                Some(last) if rng.one_in(4) => *last,
                _ => *rng.pick(&self.pool),
            };
            cards.push(Card { number, ..card });
        }
        cards
    }
}

/// One card more often than several, and none seldom.
fn count(rng: &mut Rng) -> usize {
    match rng.below(8) {
        0 => usize::from(!rng.one_in(4)),
        1 | 2 => 2,
        3..6 => rng.between(1, 4) as usize,
        _ => rng.between(1, SHORT) as usize,
    }
}

/// A register of these cards, some of them spoiled; mostly of version 3, with right distances and seasons.
fn made_of(rng: &mut Rng, mut cards: Vec<Card>) -> Vec<u8> {
    match rng.below(40) {
        0..4 => spoil(rng, &mut cards),
        4 if !cards.is_empty() => {
            let card = rng.pick_mut(&mut cards);
            *card = Card { number: card.number, ..*rng.pick(&SELDOM_SPOILED) };
        }
        _ => {}
    }
    let mut distances = farthest_distances(&register(&cards));
    if rng.one_in(12) {
        spoil_distances(rng, &mut distances);
    }
    let mut bytes = match rng.below(30) {
        0 => register(&cards),
        1 => samples::stored_register(&cards.iter().map(Card::bytes).collect::<Vec<_>>(), distances),
        _ => samples::seasonal_register(&seasonal_with_faults(rng, &cards), distances),
    };
    if rng.one_in(20) {
        damage(rng, &mut bytes);
    }
    bytes
}

type SeasonalCard = [u8; 28];

fn seasonal(rng: &mut Rng, cards: &[Card]) -> Vec<SeasonalCard> {
    // Some registers have all their cards in one season, so that there are ties on its days alone.
    let shared = rng.one_in(8).then(|| any_season(rng));
    let mut season = || shared.unwrap_or_else(|| any_season(rng));
    cards.iter().map(|card| card.in_season(season())).collect()
}

fn seasonal_with_faults(rng: &mut Rng, cards: &[Card]) -> Vec<SeasonalCard> {
    let mut seasonal = seasonal(rng, cards);
    if !cards.is_empty() && rng.one_in(12) {
        let place = rng.below(cards.len() as u64) as usize;
        seasonal[place] = cards[place].in_season(wrong_season(rng));
    }
    seasonal
}

/// A day that no year has, the first or the last, three beside the ends of the register's seasons, and any.
pub fn days_to_ask(rng: &mut Rng, register: &[u8]) -> Vec<u32> {
    let far = *rng.pick(&[368, 512, 732, 65_537, 65_902, 1 << 31, u32::MAX]);
    let mut days = vec![*rng.pick(&[0, 367, far]), *rng.pick(&[1, 366]), any_day(rng).into()];
    let seasons: Vec<Season> = cards_of(register).map(Season::of).collect();
    if !seasons.is_empty() {
        days.extend((0..3).map(|_| {
            let season = *rng.pick(&seasons);
            day_beside(rng, season)
        }));
    }
    days
}
