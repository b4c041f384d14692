//! What the files of cases have in common: registers, cards, numbers, bytes and refusals, as they write them.

use rings_second::reference::{Accepted, Farthest, Found, Refused, SEASONAL_CARD_LEN};
use rings_second::samples::seasons::{Season, WHOLE_YEAR};
use rings_second::samples::{register_of_bytes, seasonal_register, stored_register, Card};

/// The lines of a file of cases, each its first word and what it is said of. What stands behind a `#` is not read.
pub fn worded(cases: &'static str) -> impl Iterator<Item = (&'static str, &'static str)> {
    let lines = cases.lines().map(|line| line.split('#').next().unwrap_or(line).trim_end());
    lines.filter(|line| !line.is_empty()).map(|line| line.split_once(' ').expect("a word and what it is said of"))
}

/// The cases of a file: the word `case` begins one, and every other line is said of the one it stands behind.
pub fn cases_of<C>(cases: &'static str, new: fn(&'static str) -> C, add: fn(&mut C, &str, &'static str)) -> Vec<C> {
    let mut all: Vec<C> = Vec::new();
    for (word, rest) in worded(cases) {
        match (word, all.last_mut()) {
            ("case", _) => all.push(new(rest)),
            (_, Some(case)) => add(case, word, rest),
            _ => panic!("before the first case: {word} {rest}"),
        }
    }
    all
}

/// A register as the lines of a case tell it: by its cards and what its header stores, or by its bytes.
#[derive(Default)]
pub struct Register {
    /// Each with its season.
    pub cards: Vec<[u8; SEASONAL_CARD_LEN]>,
    stored: Option<Stored>,
    raw: Option<Vec<u8>>,
}

/// What the versions after the first store, toxic then flammable.
enum Stored {
    InVersion2([u16; 2]),
    InVersion3([u16; 2]),
}

impl Register {
    /// Takes a line, if it tells something of the register.
    pub fn add(&mut self, word: &str, rest: &str) -> bool {
        match word {
            "card" => self.cards.push(seasonal_card(rest)),
            "cards" => {
                let (count, first) = rest.split_once(' ').expect("how many, and the first");
                let (first, season) = card_and_season(first);
                let numbers = (first.number..).take(number(count));
                self.cards.extend(numbers.map(|number| Card { number, ..first }.in_season(season)));
            }
            "stored" => self.stored = Some(Stored::InVersion2(distances(rest))),
            "year" => self.stored = Some(Stored::InVersion3(distances(rest))),
            "hex" => self.raw = Some(hex_bytes(rest)),
            _ => return false,
        }
        true
    }

    pub fn bytes(&self) -> Vec<u8> {
        match (&self.raw, &self.stored) {
            (Some(raw), _) => raw.clone(),
            (None, None) => register_of_bytes(&self.plain_cards()),
            (None, Some(Stored::InVersion2(distances))) => stored_register(&self.plain_cards(), *distances),
            (None, Some(Stored::InVersion3(distances))) => seasonal_register(&self.cards, *distances),
        }
    }

    fn plain_cards(&self) -> Vec<[u8; 24]> {
        let plain = |card: &[u8; SEASONAL_CARD_LEN]| {
            assert_eq!(Season::of(card), WHOLE_YEAR, "a season in version 1 or 2");
            *card.first_chunk().expect("24 bytes")
        };
        self.cards.iter().map(plain).collect()
    }
}

/// A card of ten numbers, the CAS number without hyphens.
pub fn card(line: &str) -> Card {
    let (card, season) = card_and_season(line);
    assert_eq!(season, WHOLE_YEAR, "a season in a card that has none: {line}");
    card
}

/// A card of ten numbers, and of two more for its first and its last day if it is not in force for the whole year.
pub fn seasonal_card(line: &str) -> [u8; SEASONAL_CARD_LEN] {
    let (card, season) = card_and_season(line);
    card.in_season(season)
}

fn card_and_season(line: &str) -> (Card, Season) {
    let fields: Vec<i64> = line.split(' ').map(|field| field.parse().expect("a number")).collect();
    let &[kind, state, ground, containment, cas, pounds, area, wall, tenths, number, ref days @ ..] = fields.as_slice()
    else {
        panic!("ten numbers make a card: {line}");
    };
    let [kind, state, ground, containment] = [kind, state, ground, containment].map(narrow);
    let [cas, pounds, area, number] = [cas, pounds, area, number].map(narrow);
    let card = Card {
        kind,
        state,
        ground,
        containment,
        cas,
        pounds,
        area,
        wall: narrow(wall),
        tenths: narrow(tenths),
        number,
    };
    let season = match *days {
        [] => WHOLE_YEAR,
        [first, last] => Season { first: narrow(first), last: narrow(last) },
        _ => panic!("two days make a season: {line}"),
    };
    (card, season)
}

fn narrow<N: TryFrom<i64>>(number: i64) -> N {
    N::try_from(number).ok().expect("a number that fits its field")
}

/// Two distances in hundredths of a mile, as `T 1.80, F none` says them: none is zero.
pub fn distances(text: &str) -> [u16; 2] {
    let both = text.strip_prefix("T ").and_then(|both| both.split_once(", F "));
    let (toxic, flammable) = both.unwrap_or_else(|| panic!("a toxic and a flammable distance, not {text}"));
    [toxic, flammable].map(|miles| match miles {
        "none" => 0,
        _ => miles.replace('.', "").parse().expect("miles with two decimals"),
    })
}

pub fn number(digits: &str) -> usize {
    digits.parse().expect("a number")
}

pub fn hex_bytes(text: &str) -> Vec<u8> {
    let digits: Vec<u8> = text.bytes().filter(|byte| *byte != b' ').map(nibble).collect();
    digits.chunks_exact(2).map(|pair| 16 * pair[0] + pair[1]).collect()
}

pub fn nibble(digit: u8) -> u8 {
    char::from(digit).to_digit(16).expect("a hexadecimal digit") as u8
}

/// How a distance was found, in a word.
pub fn name_of(found: Found) -> &'static str {
    match found {
        Found::Printed => "printed",
        Found::Interpolated => "interpolated",
        Found::Limit => "limit",
    }
}

pub fn refusal(Refused { number, place }: Refused) -> String {
    format!("refused {number} at {place}")
}

/// The leaders of a prefix, of a day or of a year.
pub fn leaders(Accepted { toxic, flammable }: Accepted) -> [String; 2] {
    [toxic, flammable].map(|farthest: Option<Farthest>| match farthest {
        Some(Farthest { card, miles }) => format!("{card} {}.{:02}", miles / 100, miles % 100),
        None => "none".to_string(),
    })
}
