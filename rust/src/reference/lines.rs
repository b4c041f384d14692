//! Comma lines, request A1 of document 02: one card a line, eleven fields between commas, the last a remark. By request
//! A3 the ninth is a temperature or a concentration, as the second says.
//!
//! Reading looks at the form of a line alone. What its numbers mean is the register's business when it is answered.

#[cfg(test)]
mod tests;

use super::card::{Fields, Tenths, SOLUTION};
use super::header::{header_1, Cards, Register, HEADER_LEN};
use super::units::Concentration;
use super::{answers, Fault, Refused, CARD_LEN, MAX_CARDS};

/// The most bytes of a line, without its line feed.
pub const MAX_LINE: usize = 200;
/// The most bytes of a line as it is written, with its line feed.
pub const MAX_STRICT_LINE: usize = 59;

/// Reads comma lines into a register at the start of `register`, and gives the register's length.
///
/// Bytes of `register` behind it are left alone, and so is all of it on refusal.
pub fn read_lines(text: &[u8], register: &mut [u8]) -> Result<usize, Refused> {
    // Every line is read before their number or the room is looked at: 12 is found before 13.
    let cards = read_cards(text)?;
    let length = HEADER_LEN + cards.len();
    if cards.len() > MAX_CARDS * CARD_LEN || length > register.len() {
        return Err(Fault::Room.of_register());
    }
    let (header, behind) = register.split_at_mut(HEADER_LEN);
    header.copy_from_slice(&header_1(&cards));
    behind[..cards.len()].copy_from_slice(&cards);
    Ok(length)
}

/// Writes an accepted register as comma lines in their one strict form at the start of `text`, and gives their length.
///
/// Bytes of `text` behind them are left alone, and so is all of it on refusal. By requests A9 and A10 none but version 1 is
/// written.
pub fn write_lines(register: &[u8], text: &mut [u8]) -> Result<usize, Refused> {
    let Register { cards, .. } = Register::read_version_1(register)?;
    // The answers are not asked for, but whether there are any: only an accepted register is written.
    answers(cards)?;
    let lines = strict_lines(cards);
    let room = text.get_mut(..lines.len()).ok_or_else(|| Fault::Room.of_register())?;
    room.copy_from_slice(&lines);
    Ok(lines.len())
}

/// The bytes of a text's cards, or the refusal of the first line that is not well formed.
fn read_cards(text: &[u8]) -> Result<Vec<u8>, Refused> {
    let mut cards = Vec::new();
    for (line, number) in lines(text).zip(1..) {
        let fields = read_line(line).ok_or_else(|| Fault::Line.at(number))?;
        cards.extend(fields.bytes());
    }
    Ok(cards)
}

/// The lines of a text without their line feeds. The last may do without one; no bytes are no lines.
fn lines(text: &[u8]) -> impl Iterator<Item = &[u8]> {
    text.split_inclusive(|&byte| byte == b'\n').map(|line| line.strip_suffix(b"\n").unwrap_or(line))
}

/// The ten numbers of a line that has eleven well-formed fields and is not too long.
fn read_line(line: &[u8]) -> Option<Fields> {
    if line.len() > MAX_LINE {
        return None;
    }
    let mut fields = line.split(|&byte| byte == b',');
    let mut next = || fields.next().map(without_spaces);
    let (kind, state) = (number(next()?)?, number(next()?)?);
    let card = Fields {
        kind,
        state,
        ground: number(next()?)?,
        containment: number(next()?)?,
        cas: cas_number(next()?)?,
        pounds: number(next()?)?,
        area: number(next()?)?,
        wall: number(next()?)?,
        tenths: tenths(next()?, state)?,
        number: number(next()?)?,
    };
    // The remark may be any bytes, and ends the line: one more comma would make a twelfth field.
    let _remark = next()?;
    next().is_none().then_some(card)
}

/// A field without the spaces around it; no other byte counts as one.
fn without_spaces(mut field: &[u8]) -> &[u8] {
    while let [b' ', rest @ ..] = field {
        field = rest;
    }
    while let [rest @ .., b' '] = field {
        field = rest;
    }
    field
}

/// A number that fits the bytes it is read for. Its value decides, so zeros before it do no harm.
fn number<N: TryFrom<u32>>(digits: &[u8]) -> Option<N> {
    N::try_from(value(digits)?).ok()
}

/// A concentration in the state of a solution, whatever the kind; else a temperature.
fn tenths(field: &[u8], state: u8) -> Option<Tenths> {
    if state == SOLUTION {
        number(field).map(Concentration::from_tenths).map(Tenths::from_concentration)
    } else {
        temperature(field).map(Tenths::from_temperature)
    }
}

/// Tenths of a degree, the only number that may have a minus. Zero has none.
fn temperature(field: &[u8]) -> Option<i16> {
    match field.strip_prefix(b"-") {
        None => number(field),
        Some(digits) => match value(digits)? {
            0 => None,
            below => i16::try_from(-i64::from(below)).ok(),
        },
    }
}

/// A CAS number: digits, two digits and one, with hyphens between them that do not count.
fn cas_number(field: &[u8]) -> Option<u32> {
    let &[ref first @ .., b'-', tens, units, b'-', last] = field else {
        return None;
    };
    value(first)?.checked_mul(1_000)?.checked_add(value(&[tens, units, last])?)
}

/// What decimal digits say, if there are any, nothing else is among them, and it fits four bytes.
fn value(digits: &[u8]) -> Option<u32> {
    if digits.is_empty() {
        return None;
    }
    digits.iter().try_fold(0u32, |value, digit| match digit {
        b'0'..=b'9' => value.checked_mul(10)?.checked_add(u32::from(digit - b'0')),
        _ => None,
    })
}

/// The strict lines of the cards of a register.
fn strict_lines(cards: Cards) -> Vec<u8> {
    let mut text = Vec::with_capacity(cards.count() * MAX_STRICT_LINE);
    for card in cards.each() {
        write_line(&mut text, &Fields::cut(card));
    }
    text
}

/// A card's strict line: no spaces, no zeros before a number, an empty remark.
fn write_line(text: &mut Vec<u8>, card: &Fields) {
    for code in [card.kind, card.state, card.ground, card.containment] {
        write_field(text, u32::from(code));
    }
    write_cas_number(text, card.cas);
    for number in [card.pounds, card.area, u32::from(card.wall)] {
        write_field(text, number);
    }
    write_tenths(text, card.tenths, card.state);
    write_field(text, card.number);
    text.push(b'\n');
}

/// A concentration in the state of a solution, else a temperature with its sign.
fn write_tenths(text: &mut Vec<u8>, tenths: Tenths, state: u8) {
    if state == SOLUTION {
        return write_field(text, u32::from(tenths.concentration().tenths()));
    }
    let temperature = tenths.temperature();
    if temperature < 0 {
        text.push(b'-');
    }
    write_field(text, u32::from(temperature.unsigned_abs()));
}

fn write_field(text: &mut Vec<u8>, number: u32) {
    write_number(text, number);
    text.push(b',');
}

fn write_cas_number(text: &mut Vec<u8>, cas: u32) {
    write_number(text, cas / 1_000);
    text.extend([b'-', digit(cas / 100), digit(cas / 10), b'-', digit(cas), b',']);
}

/// A number's digits, found from the last to the first.
fn write_number(text: &mut Vec<u8>, number: u32) {
    let mut digits = [0; 10];
    let (mut start, mut rest) = (digits.len(), number);
    loop {
        start -= 1;
        digits[start] = digit(rest);
        rest /= 10;
        if rest == 0 {
            break;
        }
    }
    text.extend_from_slice(&digits[start..]);
}

/// The last decimal digit of a number.
fn digit(number: u32) -> u8 {
    b'0' + (number % 10) as u8
}
