//! The rules of comma lines, each with a way to break it and no other.

use rings_second::reference::MAX_LINE;
use rings_second::samples::lines::{any_card, remark_byte, Line, CAS, REMARK, STATE, TENTHS};
use rings_second::samples::Rng;

/// A rule, and a change that makes a well-formed line break it.
pub struct Breaker {
    /// What is wrong with the line then.
    pub rule: &'static str,
    /// The line is then over 200 bytes, which it never is after another breaker.
    pub too_long: bool,
    pub spoil: fn(&mut Rng, &mut Line),
}

const fn breaker(rule: &'static str, spoil: fn(&mut Rng, &mut Line)) -> Breaker {
    Breaker { rule, too_long: false, spoil }
}

const fn lengthener(rule: &'static str, spoil: fn(&mut Rng, &mut Line)) -> Breaker {
    Breaker { rule, too_long: true, spoil }
}

pub static BREAKERS: [Breaker; 47] = [
    // The fields.
    breaker("nine fields", |_, line| line.fields.truncate(9)),
    breaker("ten fields, without the last comma", |_, line| line.fields.truncate(REMARK)),
    breaker("a number left out with its comma", |rng, line| drop(line.fields.remove(any_place(rng)))),
    breaker("a semicolon for a comma", semicolon_for_comma),
    breaker("a comma in the remark", comma_in_remark),
    breaker("a comma in a number", |rng, line| line.fields.insert(any_place(rng), b"0".to_vec())),
    breaker("two cards in a line", two_cards),
    breaker("a line feed inside a line", line_feed_inside),
    breaker("an empty line", |_, line| line.fields.clear()),
    breaker("a line of spaces", |rng, line| line.fields = vec![spaces(rng)]),
    breaker("a line of commas", |_, line| line.fields.iter_mut().for_each(Vec::clear)),
    // The bytes of a number.
    breaker("an empty number", |rng, line| line.fields[any_place(rng)].clear()),
    breaker("a blank number", |rng, line| line.fields[any_place(rng)] = spaces(rng)),
    breaker("a tab in a number", |rng, line| insert_anywhere(rng, line, b"\t")),
    breaker("a carriage return in a number", |rng, line| insert_anywhere(rng, line, b"\r")),
    breaker("a plus sign before a number", plus_sign),
    breaker("another byte in a number", other_byte),
    breaker("a byte order mark", |_, line| drop(line.fields[0].splice(..0, *b"\xef\xbb\xbf"))),
    breaker("a number in quotation marks", |rng, line| change(line, any_place(rng), |digits| format!("\"{digits}\""))),
    breaker("another way to write a number", other_notation),
    breaker("a space inside a number", space_inside),
    breaker("a space at a hyphen", space_at_hyphen),
    // The width of a number.
    breaker("a byte too wide by one", |rng, line| put(line, *rng.pick(&ONE_BYTE), "256")),
    breaker("two bytes too wide by one", |_, line| put(line, WALL, "65536")),
    breaker("four bytes too wide by one", |rng, line| put(line, *rng.pick(&FOUR_BYTES), "4294967296")),
    breaker("a CAS number too wide by one", |_, line| put(line, CAS, "4294967-29-6")),
    breaker("a temperature too high by one", |rng, line| put_tenths(rng, line, &WITH_TEMPERATURE, &["32768"])),
    breaker("a temperature too low by one", |rng, line| put_tenths(rng, line, &WITH_TEMPERATURE, &["-32769"])),
    breaker("a concentration too high by one", |rng, line| put_tenths(rng, line, &WITH_CONCENTRATION, &["65536"])),
    breaker("a number too wide that turns over into itself", turned_over),
    breaker("a number far too wide", far_too_wide),
    // The minus.
    breaker("a minus before a concentration", |rng, line| {
        put_tenths(rng, line, &WITH_CONCENTRATION, &["-1", "-005", "-370", "-500", "-32768", "-32769", "-65535"])
    }),
    breaker("minus zero before a concentration", |rng, line| {
        put_tenths(rng, line, &WITH_CONCENTRATION, &["-0", "-00", "-000", "-0000000"])
    }),
    breaker("minus zero", |rng, line| put_one(rng, line, TENTHS, &["-0", "-00", "-000", "-0000000"])),
    breaker("a minus without digits", |_, line| put(line, TENTHS, "-")),
    breaker("a space behind the minus", |rng, line| put_one(rng, line, TENTHS, &["- 5", "-  5", "- 0", "- 250"])),
    breaker("a minus too many", |rng, line| put_one(rng, line, TENTHS, &["--5", "-5-", "5-", "-+5", "2-5"])),
    breaker("a minus in another number", minus_elsewhere),
    breaker("a minus before a CAS number", |_, line| change(line, CAS, |cas| format!("-{cas}"))),
    // The groups of a CAS number.
    breaker("a CAS number without hyphens", |_, line| change(line, CAS, |cas| cas.replace('-', ""))),
    breaker("a CAS number with one hyphen", one_hyphen),
    breaker("a CAS number with three hyphens", three_hyphens),
    breaker("hyphens at other places", other_groups),
    breaker("a CAS number without its first group", without_first_group),
    breaker("another mark for a hyphen", other_hyphen),
    // The length of a line.
    lengthener("a line of 201 to 203 bytes", |rng, line| lengthen_by(rng, line, 1, 3)),
    lengthener("a line far too long", |rng, line| lengthen_by(rng, line, 4, 2_000)),
];

const ONE_BYTE: [usize; 4] = [0, 1, 2, 3];
const FOUR_BYTES: [usize; 3] = [5, 6, 9];
const WALL: usize = 7;

/// States whose ninth field is a temperature, which every one but 5 is, and 5 as it may be written.
const WITH_TEMPERATURE: [&str; 11] = ["0", "1", "2", "3", "4", "04", "6", "15", "50", "55", "255"];
const WITH_CONCENTRATION: [&str; 3] = ["5", "05", "0000005"];

/// The place of a number.
fn any_place(rng: &mut Rng) -> usize {
    rng.below(REMARK as u64) as usize
}

/// The place of a number that is digits alone.
fn digits_place(rng: &mut Rng) -> usize {
    *rng.pick(&[0, 1, 2, 3, 5, 6, 7, 9])
}

fn spaces(rng: &mut Rng) -> Vec<u8> {
    vec![b' '; rng.between(1, 3) as usize]
}

/// What stands between the spaces of a number.
fn inside(line: &Line, place: usize) -> &str {
    std::str::from_utf8(line.fields[place].trim_ascii()).expect("a well-formed number")
}

/// Puts something else between the spaces of a number.
fn put(line: &mut Line, place: usize, number: &str) {
    let field = &mut line.fields[place];
    let before = field.iter().take_while(|&&byte| byte == b' ').count();
    let behind = field.iter().rev().take_while(|&&byte| byte == b' ').count();
    let end = field.len() - behind;
    field.splice(before..end, number.bytes());
}

fn put_one(rng: &mut Rng, line: &mut Line, place: usize, numbers: &[&str]) {
    let number = *rng.pick(numbers);
    put(line, place, number);
}

/// Puts one of some states, and a temperature or concentration that goes by it.
fn put_tenths(rng: &mut Rng, line: &mut Line, states: &[&str], tenths: &[&str]) {
    put_one(rng, line, STATE, states);
    put_one(rng, line, TENTHS, tenths);
}

fn change(line: &mut Line, place: usize, change: impl FnOnce(&str) -> String) {
    let changed = change(inside(line, place));
    put(line, place, &changed);
}

fn semicolon_for_comma(rng: &mut Rng, line: &mut Line) {
    let place = any_place(rng);
    let second = line.fields.remove(place + 1);
    line.fields[place].push(b';');
    line.fields[place].extend(second);
}

fn comma_in_remark(rng: &mut Rng, line: &mut Line) {
    let remark = &mut line.fields[REMARK];
    let place = rng.below(remark.len() as u64 + 1) as usize;
    let rest = remark.split_off(place);
    line.fields.push(rest);
}

/// The line feed between two lines is lost, or only a carriage return stands there.
fn two_cards(rng: &mut Rng, line: &mut Line) {
    let card = any_card(rng);
    let mut second = Line::strict(&card).fields;
    if rng.one_in(2) {
        second[0].insert(0, b'\r');
    }
    line.fields[REMARK].extend(second.remove(0));
    line.fields.extend(second);
}

/// Before the last comma, so that neither part can be a line.
fn line_feed_inside(rng: &mut Rng, line: &mut Line) {
    insert_anywhere(rng, line, b"\n");
}

fn insert_anywhere(rng: &mut Rng, line: &mut Line, bytes: &[u8]) {
    let field = &mut line.fields[any_place(rng)];
    let at = rng.below(field.len() as u64 + 1) as usize;
    field.splice(at..at, bytes.iter().copied());
}

fn plus_sign(rng: &mut Rng, line: &mut Line) {
    change(line, any_place(rng), |digits| format!("+{digits}"));
}

/// A byte that no number has; those with a breaker of their own are left to it.
fn other_byte(rng: &mut Rng, line: &mut Line) {
    let byte = loop {
        let byte = rng.bits() as u8;
        if !byte.is_ascii_digit() && !b" ,-\n\r\t+".contains(&byte) {
            break byte;
        }
    };
    insert_anywhere(rng, line, &[byte]);
}

fn other_notation(rng: &mut Rng, line: &mut Line) {
    let place = any_place(rng);
    put_one(rng, line, place, &["2.5", "2.", ".5", "2_5", "1e3", "0x1f", "1f", "II", "#1", "1/2", "'5", "\u{2212}5"]);
}

fn space_inside(rng: &mut Rng, line: &mut Line) {
    let place = any_place(rng);
    let gap = " ".repeat(rng.between(1, 2) as usize);
    change(line, place, |digits| match digits.len() {
        1 => format!("0{gap}{digits}"),
        length => {
            let (start, end) = digits.split_at(1 + rng.below(length as u64 - 1) as usize);
            format!("{start}{gap}{end}")
        }
    });
}

fn space_at_hyphen(rng: &mut Rng, line: &mut Line) {
    let spaced = *rng.pick(&[" -", "- ", " - "]);
    let second = rng.one_in(2);
    change(line, CAS, |cas| {
        let (first, rest) = cas.split_once('-').expect("two hyphens");
        let (middle, last) = rest.split_once('-').expect("two hyphens");
        if second {
            format!("{first}-{middle}{spaced}{last}")
        } else {
            format!("{first}{spaced}{middle}-{last}")
        }
    });
}

/// With whole turns of its bytes, or of a wider word, added to its value.
fn turned_over(rng: &mut Rng, line: &mut Line) {
    let place = any_place(rng);
    let bits = match place {
        0..CAS => *rng.pick(&[8, 16, 32, 64]),
        WALL | TENTHS => *rng.pick(&[16, 32, 64]),
        _ => *rng.pick(&[32, 64]),
    };
    let turns = u128::from(1 + rng.below(3)) << bits;
    change(line, place, |number| {
        let (minus, digits) = number.strip_prefix('-').map_or(("", number), |digits| ("-", digits));
        let value: u128 = digits.replace('-', "").parse().expect("digits");
        let turned = value + turns;
        if place == CAS {
            hyphenated(turned)
        } else {
            format!("{minus}{turned}")
        }
    });
}

/// A number with the hyphens of a CAS number.
fn hyphenated(number: u128) -> String {
    format!("{}-{:02}-{}", number / 1_000, number / 10 % 100, number % 10)
}

/// Eleven digits or more, of which the first is not zero.
fn far_too_wide(rng: &mut Rng, line: &mut Line) {
    let place = any_place(rng);
    let length = rng.between(11, 45);
    let digits: String = (0..length).map(|_| char::from(b'1' + rng.below(9) as u8)).collect();
    let minus = if rng.one_in(2) { "-" } else { "" };
    match place {
        CAS => put(line, CAS, &format!("{digits}-00-1")),
        TENTHS => put(line, TENTHS, &format!("{minus}{digits}")),
        _ => put(line, place, &digits),
    }
}

/// Before a number as it is, or before zero.
fn minus_elsewhere(rng: &mut Rng, line: &mut Line) {
    let zero = rng.one_in(4);
    change(line, digits_place(rng), |digits| format!("-{}", if zero { "0" } else { digits }));
}

fn one_hyphen(rng: &mut Rng, line: &mut Line) {
    let first = rng.one_in(2);
    change(line, CAS, |cas| {
        let hyphen = if first { cas.find('-') } else { cas.rfind('-') };
        let mut left = cas.to_string();
        left.remove(hyphen.expect("two hyphens"));
        left
    });
}

fn three_hyphens(rng: &mut Rng, line: &mut Line) {
    change(line, CAS, |cas| {
        let mut more = cas.to_string();
        more.insert(rng.below(cas.len() as u64 + 1) as usize, '-');
        more
    });
}

/// Two hyphens among the digits, anywhere but where they belong.
fn other_groups(rng: &mut Rng, line: &mut Line) {
    change(line, CAS, |cas| {
        let digits = cas.replace('-', "");
        let length = digits.len() as u64;
        loop {
            let (last, middle) = (rng.below(length + 1) as usize, rng.below(length + 1) as usize);
            if middle < last || (middle, last) == (3, 1) {
                continue;
            }
            let mut wrong = digits.clone();
            wrong.insert(digits.len() - last, '-');
            wrong.insert(digits.len() - middle, '-');
            return wrong;
        }
    });
}

fn without_first_group(_: &mut Rng, line: &mut Line) {
    change(line, CAS, |cas| cas[cas.len() - "-50-5".len()..].to_string());
}

fn other_hyphen(rng: &mut Rng, line: &mut Line) {
    let mark = rng.pick(&["_", "/", ".", " ", "", "\u{2010}", "\u{2013}", "--"]);
    let count = rng.between(1, 2) as usize;
    change(line, CAS, |cas| cas.replacen('-', mark, count));
}

/// What makes a line long.
#[derive(Clone, Copy)]
pub enum Filler {
    Remark,
    Spaces,
    Zeros,
    CarriageReturn,
}

impl Filler {
    pub const ALL: [Filler; 4] = [Filler::Remark, Filler::Spaces, Filler::Zeros, Filler::CarriageReturn];
}

/// Makes a line so long by more of what it may have, at one place or at several.
pub fn lengthen(rng: &mut Rng, line: &mut Line, length: usize, filler: Filler) {
    while line.length() < length {
        let missing = length - line.length();
        let some = rng.between(1, missing as i64) as usize;
        let place = any_place(rng);
        match filler {
            Filler::Remark => line.fields[REMARK].push(remark_byte(rng)),
            Filler::Spaces => {
                let end = *rng.pick(&[0, line.fields[place].len()]);
                line.fields[place].splice(end..end, vec![b' '; some]);
            }
            Filler::Zeros => line.add_zeros(place, some),
            // The last byte is the one that counts.
            Filler::CarriageReturn if missing == 1 => line.fields[REMARK].push(b'\r'),
            Filler::CarriageReturn => line.fields[REMARK].insert(0, b'.'),
        }
    }
}

fn lengthen_by(rng: &mut Rng, line: &mut Line, least: i64, most: i64) {
    let over = rng.between(least, most) as usize;
    let filler = *rng.pick(&Filler::ALL);
    lengthen(rng, line, MAX_LINE + over, filler);
}
