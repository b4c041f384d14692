//! Comma lines made from cards, in strict form or decorated with spaces, zeros and remarks.

use super::{Card, Rng, SOLUTION};
use crate::reference::MAX_LINE;

/// The places of a line's fields.
pub const STATE: usize = 1;
/// A number of one byte like those before it: a line is not asked which of them are listed.
pub const CONTAINMENT: usize = 3;
/// The number with hyphens.
pub const CAS: usize = 4;
/// Tenths of a degree, the field that may have a minus, or in state 5 of a percent, which may have none.
pub const TENTHS: usize = 8;
/// The remark, behind ten numbers.
pub const REMARK: usize = 10;

/// A comma line by its fields, right or wrong.
#[derive(Debug, Clone, Default, PartialEq, Eq)]
pub struct Line {
    /// What stands between the commas.
    pub fields: Vec<Vec<u8>>,
}

impl Line {
    /// A card's line without anything that could be left out.
    pub fn strict(card: &Card) -> Self {
        let Card { kind, state, ground, containment, cas, pounds, area, wall, tenths, number } = *card;
        let cas = format!("{}-{:02}-{}", cas / 1_000, cas / 10 % 100, cas % 10);
        let codes = [kind, state, ground, containment].map(|code| code.to_string());
        let rest = [cas, pounds.to_string(), area.to_string(), wall.to_string(), tenths.to_string()];
        let ends = [number.to_string(), String::new()];
        let fields = codes.into_iter().chain(rest).chain(ends);
        Line { fields: fields.map(String::into_bytes).collect() }
    }

    /// A card's line as a consultancy might write it: some zeros before numbers, some spaces, mostly a remark.
    pub fn decorated(rng: &mut Rng, card: &Card) -> Self {
        let mut line = Line::strict(card);
        for place in 0..REMARK {
            if rng.one_in(4) {
                let zeros = rng.between(1, 3) as usize;
                line.add_zeros(place, zeros);
            }
        }
        line.fields[REMARK] = remark(rng);
        for field in &mut line.fields {
            if rng.one_in(4) {
                *field = spaced(rng, field);
            }
        }
        line
    }

    /// Puts zeros before the first digit of a number.
    pub fn add_zeros(&mut self, place: usize, zeros: usize) {
        let field = &mut self.fields[place];
        let first = field.iter().position(u8::is_ascii_digit).unwrap_or(0);
        field.splice(first..first, std::iter::repeat_n(b'0', zeros));
    }

    /// Its bytes, without a line feed.
    pub fn bytes(&self) -> Vec<u8> {
        self.fields.join(&b',')
    }

    /// How many bytes it has, without a line feed.
    pub fn length(&self) -> usize {
        let commas = self.fields.len().saturating_sub(1);
        self.fields.iter().map(Vec::len).sum::<usize>() + commas
    }
}

/// The lines as a text, with or without the last line feed.
pub fn text(lines: &[Line], last_feed: bool) -> Vec<u8> {
    let mut text = Vec::with_capacity(lines.len() * MAX_LINE / 2);
    for (place, line) in lines.iter().enumerate() {
        if place > 0 {
            text.push(b'\n');
        }
        text.extend(line.bytes());
    }
    if last_feed && !lines.is_empty() {
        text.push(b'\n');
    }
    text
}

/// The lines of cards in strict form.
pub fn strict_text(cards: &[Card]) -> Vec<u8> {
    let lines: Vec<Line> = cards.iter().map(Line::strict).collect();
    text(&lines, true)
}

/// The lines of cards, decorated.
pub fn decorated_text(rng: &mut Rng, cards: &[Card]) -> Vec<u8> {
    let lines: Vec<Line> = cards.iter().map(|card| Line::decorated(rng, card)).collect();
    text(&lines, true)
}

/// A card of any numbers that its bytes can hold, whether or not it means anything. Many are in state 5, of any kind, and
/// many in a listed containment or in 4, the first that is not.
pub fn any_card(rng: &mut Rng) -> Card {
    let state = if rng.one_in(4) { SOLUTION } else { any_number(rng, u32::from(u8::MAX)) as u8 };
    let kind = if rng.one_in(4) { rng.between(1, 2) as u8 } else { any_number(rng, u32::from(u8::MAX)) as u8 };
    let containment = if rng.one_in(4) { rng.below(5) as u8 } else { any_number(rng, u32::from(u8::MAX)) as u8 };
    Card {
        kind,
        state,
        ground: any_number(rng, u32::from(u8::MAX)) as u8,
        containment,
        cas: any_number(rng, u32::MAX),
        pounds: any_number(rng, u32::MAX),
        area: any_number(rng, u32::MAX),
        wall: any_number(rng, u32::from(u16::MAX)) as u16,
        tenths: any_tenths(rng, state),
        number: any_number(rng, u32::MAX),
    }
}

/// Two bytes of any value as a state reads them: without a sign in state 5, with one in the others.
fn any_tenths(rng: &mut Rng, state: u8) -> i32 {
    let bytes = any_number(rng, u32::from(u16::MAX)) as u16;
    if state == SOLUTION {
        i32::from(bytes)
    } else {
        i32::from(bytes as i16)
    }
}

/// A number of any size, or the least or the largest.
fn any_number(rng: &mut Rng, largest: u32) -> u32 {
    match rng.below(6) {
        0 => 0,
        1 => largest,
        2 => largest / 2 + rng.below(2) as u32,
        _ => rng.any_size(largest),
    }
}

/// No remark, words, or any bytes that a remark may have.
fn remark(rng: &mut Rng) -> Vec<u8> {
    const WORDS: [&str; 6] = ["tank 4", "see sheet 12", "north; by the fence", "\"Halle 3\"", "checked\r", "- 5"];
    match rng.below(4) {
        0 => Vec::new(),
        1 => vec![b'\r'],
        2 => rng.pick(&WORDS).as_bytes().to_vec(),
        _ => (0..rng.below(20)).map(|_| remark_byte(rng)).collect(),
    }
}

/// Any byte but comma and line feed.
pub fn remark_byte(rng: &mut Rng) -> u8 {
    loop {
        let byte = rng.bits() as u8;
        if byte != b',' && byte != b'\n' {
            return byte;
        }
    }
}

/// A field with up to two spaces on either side.
fn spaced(rng: &mut Rng, field: &[u8]) -> Vec<u8> {
    let mut side = || vec![b' '; rng.below(3) as usize];
    [side(), field.to_vec(), side()].concat()
}
