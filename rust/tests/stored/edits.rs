//! The edits of `tests/edits.txt`; the README beside it tells its form.
//!
//! Beside the two implementations the test edits a list of cards of its own, so that the file need not repeat them: of an
//! accepted edit it tells the register's length and the two distances, and every byte of the buffer follows.

use crate::forms::{cases_of, distances, hex_bytes, number, refusal, seasonal_card, Register};
use crate::implementations::{Implementation, IMPLEMENTATIONS};
use rings_second::reference::{Refused, SEASONAL_CARD_LEN};
use rings_second::samples::edits::Edit;
use rings_second::samples::seasonal_register;
use std::collections::BTreeMap;

const CASES: &str = include_str!("../../../tests/edits.txt");

/// What lies behind a register in a buffer that is longer: no zeros.
const BEHIND: [u8; 3] = [0x5a, 0xff, 0x01];

/// A card with its season.
type Card = [u8; SEASONAL_CARD_LEN];

/// The cards of a register by their numbers.
type Cards = BTreeMap<u32, Card>;

#[test]
fn both_edit_as_stored() {
    let cases = Case::all();
    for case in &cases {
        assert!(!case.steps.is_empty(), "{}: nothing is done", case.label);
        for implementation in IMPLEMENTATIONS {
            case.run(implementation);
        }
    }
    let results = || cases.iter().flat_map(|case| &case.steps).filter_map(Step::result);
    let refused = results().filter(|result| result.starts_with("refused")).count();
    println!("{} stored registers with {} edits, {refused} of them refused", cases.len(), results().count());
    for number in [1, 2, 3, 5, 6, 7, 8, 9, 10, 11, 14, 15, 16, 19, 20, 21] {
        let words = format!("refused {number} at ");
        assert!(results().any(|result| result.starts_with(&words)), "no edit is {words}");
    }
}

/// A case as its lines say it.
struct Case {
    label: &'static str,
    register: Register,
    /// The buffer's length, if it is not the register's.
    room: Option<usize>,
    steps: Vec<Step>,
}

enum Step {
    /// An edit, and the result in the words of the file.
    Edit(Edit, &'static str),
    /// The bytes of the buffer after the edits so far.
    Buffer(Vec<u8>),
}

impl Step {
    fn result(&self) -> Option<&'static str> {
        match self {
            Step::Edit(_, result) => Some(result),
            Step::Buffer(_) => None,
        }
    }
}

impl Case {
    fn all() -> Vec<Case> {
        cases_of(CASES, Case::new, Case::add)
    }

    fn new(label: &'static str) -> Self {
        Case { label, register: Register::default(), room: None, steps: Vec::new() }
    }

    fn add(&mut self, word: &str, rest: &'static str) {
        match word {
            "room" => self.room = Some(number(rest)),
            "buffer" => self.steps.push(Step::Buffer(hex_bytes(rest))),
            _ if self.register.add(word, rest) => {}
            _ => {
                let (what, result) = rest.split_once(": ").expect("an edit, and its result");
                self.steps.push(Step::Edit(edit(word, what), result));
            }
        }
    }

    /// The buffer as it is lent first.
    fn buffer(&self) -> Vec<u8> {
        let mut buffer = self.register.bytes();
        let room = self.room.unwrap_or(buffer.len());
        let behind = BEHIND.iter().copied().cycle().take(room.saturating_sub(buffer.len()));
        buffer.extend(behind);
        buffer.truncate(room);
        buffer
    }

    /// Panics where an implementation does otherwise.
    fn run(&self, by: &Implementation) {
        let mut buffer = self.buffer();
        let mut cards = self.register.cards.iter().map(|card| (number_of(card), *card)).collect();
        for step in &self.steps {
            let place = format!("{}: {}", self.label, by.name);
            match step {
                Step::Edit(edit, expected) => hold(by, &mut buffer, &mut cards, edit, expected, &place),
                Step::Buffer(expected) => assert_eq!(buffer, *expected, "{place}"),
            }
        }
    }
}

/// Holds an implementation to the result of an edit and, where it is accepted, to the cards that are then left.
fn hold(by: &Implementation, buffer: &mut [u8], cards: &mut Cards, edit: &Edit, expected: &str, place: &str) {
    let result = checked(by, buffer, edit, place);
    match (result, expected.split_once(" bytes, ")) {
        (Ok(length), Some((told, stored))) => {
            change(cards, edit);
            let left: Vec<_> = cards.values().copied().collect();
            assert_eq!(length, number(told), "{place}: {edit:?}");
            assert_eq!(buffer[..length], seasonal_register(&left, distances(stored)), "{place}: {edit:?}");
        }
        (Err(refused), None) => assert_eq!(refusal(refused), expected, "{place}: {edit:?}"),
        _ => panic!("{place}: {edit:?} gives {result:?}, not {expected}"),
    }
}

fn edit(word: &str, what: &str) -> Edit {
    match word {
        "add" => Edit::Add(seasonal_card(what)),
        "replace" => Edit::Replace(seasonal_card(what)),
        "withdraw" => Edit::Withdraw(what.parse().expect("a card number")),
        _ => panic!("no edit: {word} {what}"),
    }
}

fn number_of(card: &Card) -> u32 {
    u32::from_be_bytes([card[20], card[21], card[22], card[23]])
}

/// An accepted edit of a list of cards.
fn change(cards: &mut Cards, edit: &Edit) {
    let was_there = match edit {
        Edit::Add(card) | Edit::Replace(card) => cards.insert(number_of(card), *card).is_some(),
        Edit::Withdraw(number) => cards.remove(number).is_some(),
    };
    assert_eq!(was_there, !matches!(edit, Edit::Add(_)), "{edit:?}");
}

/// An edit in a lent buffer: refused, it has to leave every byte alone; accepted, it says how long the register is, and the
/// bytes behind that are zeros.
pub fn checked(by: &Implementation, buffer: &mut [u8], edit: &Edit, place: &str) -> Result<usize, Refused> {
    let before = buffer.to_vec();
    let result = by.edit(buffer, edit);
    match result {
        Ok(length) => {
            let field = buffer.first_chunk().map(|field| u32::from_be_bytes(*field) as usize);
            assert_eq!(field, Some(length), "{place}: {edit:?} told another length");
            assert!(buffer[length..].iter().all(|byte| *byte == 0), "{place}: {edit:?} left bytes behind the register");
        }
        Err(_) => assert_eq!(buffer, before, "{place}: {edit:?} was refused and changed a byte"),
    }
    result
}
