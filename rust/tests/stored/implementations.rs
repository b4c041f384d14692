//! The implementations that stored answers are held against: the reference, and the proved library where it is linked.

#[cfg(feature = "proved")]
use rings_second::proved;
use rings_second::reference::{
    self, Accepted, ExactRate, Likely, Refused, Year, ANSWER_LEN, CARD_LEN, SEASONAL_CARD_LEN,
};
use rings_second::samples::cards_of;
use rings_second::samples::edits::Edit;

/// Bytes before, at and behind a place in a lent buffer differ, so that a byte that moves is seen.
const PATTERN: [u8; 7] = [0xa5, 0x5a, 0xff, 0x00, 0x2c, 0x30, 0x0a];

/// A card's exact rate, or its refusal.
type Exact = fn(&[u8; CARD_LEN]) -> Result<ExactRate, Refused>;

/// An edit that hands a card in, and gives the register's new length or a refusal.
type EditByCard = fn(&mut [u8], &[u8; SEASONAL_CARD_LEN]) -> Result<usize, Refused>;

pub struct Implementation {
    pub name: &'static str,
    answer: fn(&[u8], &mut [u8]) -> Result<Accepted, Refused>,
    leaders_after: fn(&[u8], usize) -> Result<Accepted, Refused>,
    farthest_on: fn(&[u8], u32) -> Result<Accepted, Refused>,
    year: fn(&[u8]) -> Result<Year, Refused>,
    read_lines: fn(&[u8], &mut [u8]) -> Result<usize, Refused>,
    write_lines: fn(&[u8], &mut [u8]) -> Result<usize, Refused>,
    likely: fn(&[u8; CARD_LEN], u64, u32) -> Result<Likely, Refused>,
    exact_rate: Option<Exact>,
    add: EditByCard,
    replace: EditByCard,
    withdraw: fn(&mut [u8], u32) -> Result<usize, Refused>,
}

pub static IMPLEMENTATIONS: &[Implementation] = &[
    Implementation {
        name: "the reference",
        answer: reference::answer,
        leaders_after: reference::leaders_after,
        farthest_on: reference::farthest_on,
        year: reference::year,
        read_lines: reference::read_lines,
        write_lines: reference::write_lines,
        likely: reference::likely,
        exact_rate: Some(reference::exact_rate),
        add: reference::add,
        replace: reference::replace,
        withdraw: reference::withdraw,
    },
    #[cfg(feature = "proved")]
    Implementation {
        name: "the proved library",
        answer: proved::answer,
        leaders_after: proved::leaders_after,
        farthest_on: proved::farthest_on,
        year: proved::year,
        read_lines: proved::read_lines,
        write_lines: proved::write_lines,
        likely: proved::likely,
        exact_rate: None,
        add: proved::add,
        replace: proved::replace,
        withdraw: proved::withdraw,
    },
];

impl Implementation {
    /// The answers of a register and its farthest cards, in a buffer of a length.
    pub fn answers(&self, register: &[u8], room: usize) -> Result<(Vec<u8>, Accepted), Refused> {
        let needed = cards_of(register).len() * ANSWER_LEN;
        let mut accepted = Accepted::default();
        let bytes = written(room, |lent| {
            accepted = (self.answer)(register, lent)?;
            Ok(needed)
        })?;
        Ok((bytes, accepted))
    }

    /// The farthest cards among the first so many of a register.
    pub fn leaders_after(&self, register: &[u8], cards: usize) -> Result<Accepted, Refused> {
        (self.leaders_after)(register, cards)
    }

    /// The farthest cards of a register among those in force on a day.
    pub fn farthest_on(&self, register: &[u8], day: u32) -> Result<Accepted, Refused> {
        (self.farthest_on)(register, day)
    }

    /// The farthest cards of a register in a year, and the earliest days with their distances.
    pub fn year(&self, register: &[u8]) -> Result<Year, Refused> {
        (self.year)(register)
    }

    /// The alternative distance of a card at a rate that lasts for some minutes.
    pub fn likely(&self, card: &[u8; CARD_LEN], rate: u64, minutes: u32) -> Result<Likely, Refused> {
        (self.likely)(card, rate, minutes)
    }

    /// The exact rate of a card, where an implementation tells it and not only the reported one.
    pub fn exact_rate(&self, card: &[u8; CARD_LEN]) -> Option<Result<ExactRate, Refused>> {
        self.exact_rate.map(|exact_rate| exact_rate(card))
    }

    /// The edit of the register that a lent buffer starts with; its new length.
    pub fn edit(&self, buffer: &mut [u8], edit: &Edit) -> Result<usize, Refused> {
        match edit {
            Edit::Add(card) => (self.add)(buffer, card),
            Edit::Replace(card) => (self.replace)(buffer, card),
            Edit::Withdraw(number) => (self.withdraw)(buffer, *number),
        }
    }

    /// The register that a text is read into, in a buffer of a length.
    pub fn register_of(&self, text: &[u8], room: usize) -> Result<Vec<u8>, Refused> {
        written(room, |lent| (self.read_lines)(text, lent))
    }

    /// The lines that a register is written as, in a buffer of a length.
    pub fn lines_of(&self, register: &[u8], room: usize) -> Result<Vec<u8>, Refused> {
        written(room, |lent| (self.write_lines)(register, lent))
    }
}

/// The bytes that a call writes into a buffer of a length, once it is seen that it changed no other.
fn written(room: usize, call: impl FnOnce(&mut [u8]) -> Result<usize, Refused>) -> Result<Vec<u8>, Refused> {
    let before: Vec<u8> = PATTERN.iter().copied().cycle().take(room).collect();
    let mut lent = before.clone();
    let result = call(&mut lent);
    let written = result.unwrap_or(0);
    assert!(lent[written..] == before[written..], "a byte that should stay was changed");
    lent.truncate(written);
    result.map(|_| lent)
}
