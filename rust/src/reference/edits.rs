//! Edits of a register in a lent buffer, request A9 of document 02: a card is added, replaced or withdrawn by its number.
//!
//! The register is taken apart into a list of cards, each with the season that it has or, by request A10, the whole year;
//! the list is edited, and a register of version 3 is laid anew from it.

use super::header::{header_3, length_field, Cards, HEADER_LEN, STORED_HEADER_LEN};
use super::season::Season;
use super::{accepted, answers, farthest, Fault, Refused, CARD_LEN, MAX_CARDS, SEASONAL_CARD_LEN};

type Card = [u8; SEASONAL_CARD_LEN];

/// Adds a card, by its number, to the register that a buffer starts with, and gives the register's new length.
///
/// Behind the register the buffer then has zeros. A refusal changes no byte of it.
pub fn add(buffer: &mut [u8], card: &Card) -> Result<usize, Refused> {
    edit(buffer, |cards| match place_of(cards, number_of(card)) {
        Ok(_) => Err(Fault::Presence),
        Err(free) => Ok([&cards[..free], &[*card], &cards[free..]].concat()),
    })
}

/// Replaces the card that has a card's number, in a buffer as [`add`] has it.
pub fn replace(buffer: &mut [u8], card: &Card) -> Result<usize, Refused> {
    edit(buffer, |cards| match place_of(cards, number_of(card)) {
        Ok(taken) => Ok([&cards[..taken], &[*card], &cards[taken + 1..]].concat()),
        Err(_) => Err(Fault::Presence),
    })
}

/// Withdraws the card of a number, in a buffer as [`add`] has it.
pub fn withdraw(buffer: &mut [u8], number: u32) -> Result<usize, Refused> {
    edit(buffer, |cards| match place_of(cards, number) {
        Ok(taken) => Ok([&cards[..taken], &cards[taken + 1..]].concat()),
        Err(_) => Err(Fault::Presence),
    })
}

/// The old register's checks, the edit of its cards, the room for them, and the checks of the new ones, in this order;
/// only then is anything written.
fn edit(buffer: &mut [u8], change: impl FnOnce(&[Card]) -> Result<Vec<Card>, Fault>) -> Result<usize, Refused> {
    let old = cards_in(buffer)?;
    let new = change(&old).map_err(Fault::of_register)?;
    let length = STORED_HEADER_LEN + new.len() * SEASONAL_CARD_LEN;
    if new.len() > MAX_CARDS || length > buffer.len() {
        return Err(Fault::Capacity.of_register());
    }
    // The old cards pass again, so a refusal is the new card's.
    let header = header_3(&new, farthest(&answers(Cards::new(&new))?));
    buffer.fill(0);
    buffer[..STORED_HEADER_LEN].copy_from_slice(&header);
    buffer[STORED_HEADER_LEN..length].copy_from_slice(new.as_flattened());
    Ok(length)
}

/// The cards of the accepted register that a buffer starts with. What stands behind it is not looked at.
fn cards_in(buffer: &[u8]) -> Result<Vec<Card>, Refused> {
    let least = HEADER_LEN as u64;
    let length = length_field(buffer).filter(|length| (least..=buffer.len() as u64).contains(length));
    let length = length.ok_or_else(|| Fault::Length.of_register())? as usize;
    let (register, _) = accepted(&buffer[..length])?;
    Ok(register.cards.each().map(with_season).collect())
}

/// A card with its season behind it, whether or not it has one already.
fn with_season(bytes: &[u8]) -> Card {
    let mut card = [0; SEASONAL_CARD_LEN];
    let (fields, season) = card.split_at_mut(CARD_LEN);
    fields.copy_from_slice(&bytes[..CARD_LEN]);
    season.copy_from_slice(&Season::cut(bytes).bytes());
    card
}

/// The place of the card of a number, or else the place where it would stand: cards rise by their numbers.
fn place_of(cards: &[Card], number: u32) -> Result<usize, usize> {
    match cards.iter().position(|card| number_of(card) >= number) {
        Some(place) if number_of(&cards[place]) == number => Ok(place),
        Some(place) => Err(place),
        None => Err(cards.len()),
    }
}

fn number_of(card: &Card) -> u32 {
    u32::from_be_bytes([card[20], card[21], card[22], card[23]])
}
