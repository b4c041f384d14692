//! The comma lines of `tests/lines.txt`; the README beside it tells its form.

use crate::forms::{card, hex_bytes, nibble, number, refusal};
use crate::implementations::{Implementation, IMPLEMENTATIONS};
use rings_second::reference::{CARD_LEN, HEADER_LEN, MAX_CARDS, MAX_LEN, MAX_STRICT_LINE};
use rings_second::samples::{register, Card, SOLUTION};

const CASES: &str = include_str!("../../../tests/lines.txt");

#[test]
fn both_do_as_stored() {
    let cases = Case::all();
    for case in &cases {
        for implementation in IMPLEMENTATIONS {
            assert_eq!(case.result(implementation), case.expected, "{}: {}", case.label, implementation.name);
        }
    }
    let reading = cases.iter().filter(|case| case.way == Way::Read).count();
    println!("{} stored cases of comma lines: {reading} read, {} written", cases.len(), cases.len() - reading);
    assert!(reading > 0 && reading < cases.len());
}

#[derive(Clone, Copy, PartialEq, Eq)]
enum Way {
    Read,
    Write,
}

/// A case as its lines say it.
struct Case {
    way: Way,
    label: &'static str,
    /// The text to be read, or the cards to be written unless the register's bytes are given.
    text: Vec<u8>,
    cards: Vec<Card>,
    raw: Option<Vec<u8>>,
    room: usize,
    expected: Vec<String>,
}

impl Case {
    fn all() -> Vec<Case> {
        let mut cases: Vec<Case> = Vec::new();
        for line in CASES.lines().filter(|line| !line.is_empty() && !line.starts_with('#')) {
            let (word, rest) = line.split_once(' ').expect("a word and what it is said of");
            match (word, cases.last_mut()) {
                ("read", _) => cases.push(Case::new(Way::Read, rest)),
                ("write", _) => cases.push(Case::new(Way::Write, rest)),
                (_, Some(case)) => case.add(word, rest),
                _ => panic!("before the first case: {line}"),
            }
        }
        cases
    }

    fn new(way: Way, label: &'static str) -> Self {
        let room = match way {
            Way::Read => MAX_LEN,
            Way::Write => MAX_CARDS * MAX_STRICT_LINE,
        };
        Case { way, label, text: Vec::new(), cards: Vec::new(), raw: None, room, expected: Vec::new() }
    }

    fn add(&mut self, word: &str, rest: &str) {
        match (word, self.way) {
            ("text", Way::Read) => self.text.extend(unescaped(rest)),
            ("repeat", Way::Read) => {
                let (times, text) = rest.split_once(' ').expect("how often, and what");
                self.text.extend(unescaped(text).repeat(number(times)));
            }
            ("card", Way::Write) => self.cards.push(card(rest)),
            ("hex", Way::Write) => self.raw = Some(hex_bytes(rest)),
            ("room", _) => self.room = number(rest),
            ("=", _) => match rest.split_once(" * ") {
                Some((times, line)) => self.expected.extend(vec![line.to_string(); number(times)]),
                None => self.expected.push(rest.to_string()),
            },
            _ => panic!("{}: {word} {rest}", self.label),
        }
    }

    /// What an implementation makes of the case, in the words of the file.
    fn result(&self, by: &Implementation) -> Vec<String> {
        let result = match self.way {
            Way::Read => by.register_of(&self.text, self.room).map(|register| card_lines(&register)),
            Way::Write => {
                let register = self.raw.clone().unwrap_or_else(|| register(&self.cards));
                by.lines_of(&register, self.room).map(|text| text_lines(&text))
            }
        };
        result.unwrap_or_else(|refused| vec![refusal(refused)])
    }
}

/// The cards of a register, one a line, whose header has to fit them.
fn card_lines(bytes: &[u8]) -> Vec<String> {
    let cards: Vec<Card> = bytes[HEADER_LEN..].chunks_exact(CARD_LEN).map(card_of).collect();
    assert_eq!(bytes, register(&cards));
    match cards.as_slice() {
        [] => vec!["no cards".to_string()],
        cards => cards.iter().map(card_line).collect(),
    }
}

fn card_line(card: &Card) -> String {
    let Card { kind, state, ground, containment, cas, pounds, area, wall, tenths, number } = card;
    format!("{kind} {state} {ground} {containment} {cas} {pounds} {area} {wall} {tenths} {number}")
}

/// Taken apart here once more, so that no implementation judges its own bytes.
fn card_of(bytes: &[u8]) -> Card {
    let word = |at: usize| u32::from_be_bytes([bytes[at], bytes[at + 1], bytes[at + 2], bytes[at + 3]]);
    Card {
        kind: bytes[0],
        state: bytes[1],
        ground: bytes[2],
        containment: bytes[3],
        cas: word(4),
        pounds: word(8),
        area: word(12),
        wall: (word(16) >> 16) as u16,
        tenths: tenths(bytes[1], word(16) as u16),
        number: word(20),
    }
}

/// Tenths of a percent in state 5, without a sign; else of a degree, with one.
fn tenths(state: u8, bytes: u16) -> i32 {
    match state {
        SOLUTION => i32::from(bytes),
        _ => i32::from(bytes as i16),
    }
}

/// The lines of a text as the file writes them.
fn text_lines(text: &[u8]) -> Vec<String> {
    match text {
        [] => vec!["no bytes".to_string()],
        _ => text.split_inclusive(|&byte| byte == b'\n').map(|line| line.escape_ascii().to_string()).collect(),
    }
}

/// The bytes of a text in which `\n`, `\r`, `\t` and `\xHH` stand for one byte each.
fn unescaped(text: &str) -> Vec<u8> {
    let mut bytes = Vec::new();
    let mut rest = text.as_bytes();
    while let [first, behind @ ..] = rest {
        rest = behind;
        bytes.push(match (first, behind) {
            (b'\\', [b'n', ..]) => b'\n',
            (b'\\', [b'r', ..]) => b'\r',
            (b'\\', [b't', ..]) => b'\t',
            (b'\\', [b'x', high, low, ..]) => {
                rest = &behind[2..];
                16 * nibble(*high) + nibble(*low)
            }
            (b'\\', _) => panic!("an escape that is not known: {text}"),
            _ => *first,
        });
        if *first == b'\\' {
            rest = &rest[1..];
        }
    }
    bytes
}
