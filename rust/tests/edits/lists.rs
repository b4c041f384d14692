//! Buffers to start from, and edits of what is in them, good and bad.

use super::{length_in, number_in, with_season, Card};
use crate::{beyond_the_table, damage, in_later_version, spoil};
use rings_second::reference::{MAX_CARDS, SEASONAL_CARD_LEN, STORED_HEADER_LEN};
use rings_second::samples::edits::Edit;
use rings_second::samples::seasons::{any_season, wrong_season};
use rings_second::samples::{self, accepted_cards, as_version_2, as_version_3, cards_of, Rng};

/// A register, and how long the buffer is that starts with it.
pub struct Start {
    pub register: Vec<u8>,
    pub room: usize,
}

/// A short register: of any version, mostly sound, in a buffer of any length.
pub fn start(rng: &mut Rng) -> Start {
    let count = *rng.pick(&[0, 1, 1, 2, 2, 3, 4, 6, 7, 8]);
    let mut cards = accepted_cards(rng, count);
    renumber(rng, &mut cards);
    let plan = rng.below(100);
    if plan < 8 {
        spoil(rng, &mut cards);
    }
    let mut register = samples::register(&cards);
    register = match rng.below(3) {
        0 => register,
        1 => as_version_2(&register),
        _ => as_version_3(rng, &register),
    };
    let room = room_for(rng, &register);
    match plan {
        8..14 => damage(rng, &mut register),
        14..26 => register = in_later_version(rng, &register),
        26..32 => spoil_length(rng, &mut register, room),
        _ => {}
    }
    Start { register, room }
}

/// A register of a thousand cards, of as many as there may be, of one less or of one more, for the most part sound.
pub fn long_start(rng: &mut Rng) -> Start {
    let count = *rng.pick(&[1_000, MAX_CARDS - 1, MAX_CARDS, MAX_CARDS, MAX_CARDS + 1]);
    let mut cards = accepted_cards(rng, count);
    renumber(rng, &mut cards);
    if rng.one_in(20) {
        spoil(rng, &mut cards);
    }
    let mut register = samples::register(&cards);
    if !rng.one_in(3) {
        register = in_later_version(rng, &register);
    }
    let room = room_for(rng, &register);
    Start { register, room }
}

/// Numbers that leave room before, between or behind the cards, or none.
fn renumber(rng: &mut Rng, cards: &mut [samples::Card]) {
    let count = cards.len() as u32;
    let step = match rng.below(4) {
        0 => return,
        1 => 1,
        2 => 1 + rng.below(10) as u32,
        _ => u32::MAX / (count + 1),
    };
    // At the latest so that the last card has the largest number.
    let latest = u32::MAX - step * count.saturating_sub(1);
    let first = (*rng.pick(&[1, 1, step, 1_000, latest])).min(latest);
    for (card, place) in cards.iter_mut().zip(0..) {
        card.number = first + place * step;
    }
}

/// Exactly the register's bytes, or those of it in version 3, or with one card more, or with some; one less; or any. From seven
/// cards on those of a register of version 1 have no room for one card less in version 3.
fn room_for(rng: &mut Rng, register: &[u8]) -> usize {
    let cards = cards_of(register).len();
    let in_version_3 = STORED_HEADER_LEN + cards * SEASONAL_CARD_LEN;
    match rng.below(16) {
        0 => register.len(),
        11..15 if cards > 6 => register.len() + rng.below(3) as usize,
        1 => register.len().saturating_sub(1),
        2 => in_version_3,
        3 => in_version_3 - 1,
        4 | 5 => in_version_3 + SEASONAL_CARD_LEN,
        6 => in_version_3 + SEASONAL_CARD_LEN - 1,
        7 => in_version_3 + 2 * SEASONAL_CARD_LEN,
        8 => in_version_3 + 2 * SEASONAL_CARD_LEN - 1,
        9 => rng.below(40) as usize,
        10 => in_version_3 + rng.below(30) as usize,
        _ => in_version_3 + SEASONAL_CARD_LEN * (2 + rng.below(6) as usize) + rng.below(28) as usize,
    }
}

/// A length field that is too low or too high, by little or by much, about the header or about the buffer.
fn spoil_length(rng: &mut Rng, register: &mut [u8], room: usize) {
    let length = register.len() as u32;
    let room = room as u32;
    let wrong = [0, 6, 7, 10, 11, 12, length - 1, length + 1, length + 4, length + 24, room, room + 1, u32::MAX];
    register[..4].copy_from_slice(&rng.pick(&wrong).to_be_bytes());
}

/// An edit of what a buffer holds: for the most part one that can be accepted.
pub fn edit_in(rng: &mut Rng, buffer: &[u8]) -> Edit {
    let length = length_in(buffer).unwrap_or(0).min(buffer.len());
    let cards: Vec<Card> = cards_of(&buffer[..length]).map(with_season).collect();
    let cards = cards.as_slice();
    match rng.below(10) {
        0..5 => {
            let number = if rng.one_in(10) { taken_number(rng, cards) } else { free_number(rng, cards) };
            Edit::Add(new_card(rng, number))
        }
        5..8 => {
            let number = if rng.one_in(8) { free_number(rng, cards) } else { taken_number(rng, cards) };
            let same = cards.iter().find(|card| number_in(*card) == number);
            match same {
                Some(card) if rng.one_in(12) => Edit::Replace(*card),
                _ => Edit::Replace(new_card(rng, number)),
            }
        }
        _ => Edit::Withdraw(if rng.one_in(8) { free_number(rng, cards) } else { taken_number(rng, cards) }),
    }
}

/// The number of a card: of the first, of the last, or of any.
fn taken_number(rng: &mut Rng, cards: &[Card]) -> u32 {
    match cards {
        [] => *rng.pick(&[0, 1, u32::MAX]),
        [first, ..] => {
            let ends_and_any = [first, &cards[cards.len() - 1], rng.pick(cards)];
            number_in(*rng.pick(&ends_and_any))
        }
    }
}

/// A number that no card is likely to have: an end, beside a card, or any.
fn free_number(rng: &mut Rng, cards: &[Card]) -> u32 {
    match rng.below(10) {
        0 => 0,
        1 => 1,
        2 => u32::MAX,
        3 | 4 => cards.last().map_or(1, |card| number_in(card).wrapping_add(1)),
        5 => cards.first().map_or(1, |card| number_in(card).wrapping_sub(1)),
        6 => taken_number(rng, cards).wrapping_add(1),
        7 => taken_number(rng, cards).wrapping_sub(1),
        8 => rng.any_size(u32::MAX),
        _ => between(rng, cards),
    }
}

/// Halfway between two cards.
fn between(rng: &mut Rng, cards: &[Card]) -> u32 {
    if cards.len() < 2 {
        return rng.bits() as u32;
    }
    let place = rng.below(cards.len() as u64 - 1) as usize;
    let [low, high] = [&cards[place], &cards[place + 1]].map(|card| u64::from(number_in(card)));
    ((low + high) / 2) as u32
}

/// A card of a number: sound, spoiled in one of the ways of the registers, beyond its table, or with a byte that is any; in
/// a season of any kind, or in one that no year has.
fn new_card(rng: &mut Rng, number: u32) -> Card {
    let [mut card] = accepted_cards(rng, 1).try_into().expect("one card");
    let plan = rng.below(10);
    if plan < 3 {
        spoil(rng, std::slice::from_mut(&mut card));
    }
    if plan == 4 {
        card = beyond_the_table(rng, card);
    }
    card.number = number;
    let season = if rng.one_in(16) { wrong_season(rng) } else { any_season(rng) };
    let mut bytes = card.in_season(season);
    if plan == 3 {
        *rng.pick_mut(&mut bytes[..20]) = *rng.pick(&[0, 1, 2, 3, 4, 5, 6, 127, 128, 255]);
    }
    bytes
}
