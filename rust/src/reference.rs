//! The second implementation: document 01, and document 02 as far as it has landed, in plain safe Rust.
//!
//! Bytes become cards ([`card`]), a toxic card a release ([`release`]), and a release a distance, read from the printed
//! tables ([`printed`]); a flammable card's distance comes from an equation ([`blast`]). A toxic card with a rate and a
//! duration becomes a likely distance ([`likely`]). Comma lines become registers and registers comma lines ([`lines`]).
//! A register in a lent buffer is edited, card by card ([`edits`]); what its header may be is told by [`header`]. On which
//! days its cards are in force, and what is farthest on a day and in the year, is told by [`season`].
//! What a rate would be unrounded, and how far above it the reported one may be, is told apart from all this ([`exact`]).

mod blast;
mod card;
mod edits;
mod exact;
mod fraction;
mod header;
mod likely;
mod lines;
pub mod printed;
mod release;
mod season;
#[cfg(test)]
mod tests;
mod units;

pub use edits::{add, replace, withdraw};
pub use exact::{exact_rate, ExactRate};
pub use fraction::Fraction;
pub use header::{HEADER_LEN, STORED_HEADER_LEN};
pub use likely::{likely, Found, Likely};
pub use lines::{read_lines, write_lines, MAX_LINE, MAX_STRICT_LINE};
pub use season::{farthest_on, year, Year};

use card::{Card, Meaning};
use header::{Cards, Register};
use printed::Printed;
use season::Season;
use std::fmt::Write as _;
use units::{Miles, PoundsPerMinute};

/// Bytes of a card without a season, in versions 1 and 2.
pub const CARD_LEN: usize = 24;
/// Bytes of a card with a season, in version 3.
pub const SEASONAL_CARD_LEN: usize = CARD_LEN + 4;
/// Bytes of a card's answer.
pub const ANSWER_LEN: usize = 16;
/// The most cards a register may have.
pub const MAX_CARDS: usize = 2_000;
/// Bytes of the longest register that can be accepted.
pub const MAX_LEN: usize = STORED_HEADER_LEN + MAX_CARDS * SEASONAL_CARD_LEN;

/// Where an answer has the number of its table.
const TABLE_BYTE: usize = 5;

/// What an accepted call gives beside the answer buffer.
#[derive(Debug, Clone, Copy, PartialEq, Eq, Default)]
pub struct Accepted {
    /// The toxic card with the largest distance.
    pub toxic: Option<Farthest>,
    /// The flammable card with the largest distance.
    pub flammable: Option<Farthest>,
}

/// The farthest card of a class.
#[derive(Debug, Clone, Copy, PartialEq, Eq)]
pub struct Farthest {
    /// Its card number.
    pub card: u32,
    /// Its distance in hundredths of a mile.
    pub miles: u16,
}

/// Why and where a register or a text is sent back.
#[derive(Debug, Clone, Copy, PartialEq, Eq)]
pub struct Refused {
    /// The number in document 01's table of refusals, or in a request of document 02.
    pub number: u8,
    /// The card's place, counted from 0; for number 12 the line's, counted from 1.
    pub place: u64,
}

/// The conditions of document 01's table of refusals and of document 02, with their numbers.
#[derive(Debug, Clone, Copy, PartialEq, Eq)]
enum Fault {
    Length = 1,
    Version = 2,
    Count = 3,
    Buffer = 4,
    CardNumber = 5,
    Form = 6,
    Substance = 7,
    Pounds = 8,
    Area = 9,
    Exhibit = 10,
    Table = 11,
    Line = 12,
    Room = 13,
    Wall = 14,
    Temperature = 15,
    Concentration = 16,
    Rate = 17,
    Duration = 18,
    Presence = 19,
    Capacity = 20,
    Day = 21,
}

impl Fault {
    /// The refusal of the card or the line at a place.
    fn at(self, place: u64) -> Refused {
        Refused { number: self as u8, place }
    }

    /// The refusal of a whole register or text: no card is meant.
    fn of_register(self) -> Refused {
        self.at(0)
    }
}

/// Answers a register into `out`, sixteen bytes a card, and gives the farthest card of each class.
///
/// Bytes of `out` beyond the answers are left alone, and so is all of it on refusal.
pub fn answer(register: &[u8], out: &mut [u8]) -> Result<Accepted, Refused> {
    let register = Register::read(register)?;
    let needed = register.cards.count() * ANSWER_LEN;
    let slots = out.get_mut(..needed).ok_or_else(|| Fault::Buffer.of_register())?;
    // Every card is answered, and what is stored is looked at, before a byte is written.
    let answers = answers(register.cards)?;
    let farthest = farthest(&answers);
    register.check_stored(farthest)?;
    for (slot, answer) in slots.chunks_exact_mut(ANSWER_LEN).zip(&answers) {
        slot.copy_from_slice(&answer.bytes());
    }
    Ok(farthest)
}

/// The farthest card of each class among the first `cards` cards of a register, or among all where it has no more.
///
/// The cards behind those are checked too, so a register is refused whatever number is asked for. No answer buffer is
/// lent, and none can be too short.
pub fn leaders_after(register: &[u8], cards: usize) -> Result<Accepted, Refused> {
    let (_, answers) = accepted(register)?;
    let first = || answers.iter().take(cards);
    Ok(Accepted { toxic: leader(first(), Class::Toxic), flammable: leader(first(), Class::Flammable) })
}

/// Whether a stored answer is old: a blast that was still read from Table 13. No other of its bytes counts.
pub fn is_old(answer: &[u8; ANSWER_LEN]) -> bool {
    answer[TABLE_BYTE] == blast::RETIRED_TABLE
}

/// The text that the listing program prints for a register.
pub fn listing(register: &[u8]) -> String {
    if register.len() > MAX_LEN {
        return "too long\n".to_string();
    }
    match accepted(register) {
        Ok((_, answers)) => list(&answers),
        Err(Refused { number, place }) => format!("refused {number} at {place}\n"),
    }
}

/// All checks of a register where no answer buffer is lent, and its answers.
fn accepted(register: &[u8]) -> Result<(Register<'_>, Vec<Answer>), Refused> {
    let register = Register::read(register)?;
    let answers = answers(register.cards)?;
    register.check_stored(farthest(&answers))?;
    Ok((register, answers))
}

/// A card's answer, its class for the ranking, and when it is in force.
struct Answer {
    number: u32,
    class: Class,
    season: Season,
    route: u8,
    table: u8,
    rate: PoundsPerMinute,
    miles: Miles,
}

#[derive(Clone, Copy, PartialEq, Eq)]
enum Class {
    Toxic,
    Flammable,
}

impl Answer {
    fn bytes(&self) -> [u8; ANSWER_LEN] {
        let mut bytes = [0; ANSWER_LEN];
        bytes[..4].copy_from_slice(&self.number.to_be_bytes());
        bytes[4] = self.route;
        bytes[TABLE_BYTE] = self.table;
        bytes[6..14].copy_from_slice(&self.rate.thousandths().to_be_bytes());
        bytes[14..].copy_from_slice(&self.miles.hundredths().to_be_bytes());
        bytes
    }
}

/// The checks of each card in turn, with the answers if all pass.
fn answers(cards: Cards) -> Result<Vec<Answer>, Refused> {
    let printed = printed::printed();
    let mut answers = Vec::with_capacity(cards.count());
    let mut last_number = 0;
    for (bytes, place) in cards.each().zip(0..) {
        let card = Card::read(bytes, last_number, printed).map_err(|fault| fault.at(place))?;
        last_number = card.number;
        answers.push(answer_of(&card, printed).map_err(|fault| fault.at(place))?);
    }
    Ok(answers)
}

fn answer_of(card: &Card, printed: &Printed) -> Result<Answer, Fault> {
    match &card.meaning {
        Meaning::Toxic(toxic) => {
            let release = toxic.release()?;
            let table = toxic.worst_case_table(release.span);
            Ok(Answer {
                number: card.number,
                class: Class::Toxic,
                season: card.season,
                route: release.route as u8,
                table: table.number(),
                rate: release.rate,
                miles: table.distance(printed, release.rate, toxic.substance).ok_or(Fault::Table)?,
            })
        }
        Meaning::Flammable { substance, pounds } => Ok(Answer {
            number: card.number,
            class: Class::Flammable,
            season: card.season,
            route: release::Route::Blast as u8,
            table: blast::NO_TABLE,
            rate: PoundsPerMinute::NONE,
            miles: blast::ring(substance, *pounds).miles(),
        }),
    }
}

fn farthest(answers: &[Answer]) -> Accepted {
    answers.iter().fold(Accepted::default(), |mut leaders, answer| {
        let leader = match answer.class {
            Class::Toxic => &mut leaders.toxic,
            Class::Flammable => &mut leaders.flammable,
        };
        let miles = answer.miles.hundredths();
        // Strictly farther, so the earlier card leads on a tie.
        if leader.is_none_or(|leader| leader.miles < miles) {
            *leader = Some(Farthest { card: answer.number, miles });
        }
        leaders
    })
}

/// The class's largest distance, then the first card that has it: a second opinion on [`farthest`], which keeps leaders
/// on one walk as the proved library does.
fn leader<'a>(answers: impl Iterator<Item = &'a Answer> + Clone, class: Class) -> Option<Farthest> {
    let mut of_class = answers.filter(|answer| answer.class == class);
    let miles = of_class.clone().map(|answer| answer.miles).max()?;
    let first = of_class.find(|answer| answer.miles == miles)?;
    Some(Farthest { card: first.number, miles: miles.hundredths() })
}

fn list(answers: &[Answer]) -> String {
    let mut text = String::new();
    for answer in answers {
        let Answer { number, route, table, rate, miles, .. } = answer;
        writeln!(text, "{number} {route} {table} {rate} {miles}").expect("a String takes all text");
    }
    let Accepted { toxic, flammable } = farthest(answers);
    text + &farthest_line('T', toxic) + &farthest_line('F', flammable)
}

fn farthest_line(class: char, farthest: Option<Farthest>) -> String {
    match farthest {
        Some(Farthest { card, miles }) => {
            format!("{class} {card} {}\n", Miles::from_hundredths(miles))
        }
        None => format!("{class} none\n"),
    }
}
