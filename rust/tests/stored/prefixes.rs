//! The leaders of `tests/prefixes.txt`; the README beside it tells its form.

use crate::forms::{cases_of, leaders, number, refusal, Register};
use crate::implementations::IMPLEMENTATIONS;
use rings_second::reference::{Accepted, Refused};

const CASES: &str = include_str!("../../../tests/prefixes.txt");

#[test]
fn both_lead_as_stored() {
    let cases = Case::all();
    for case in &cases {
        assert!(!case.expected.is_empty(), "{}: nothing is asked", case.label);
        let register = case.register.bytes();
        for (cards, expected) in &case.expected {
            for implementation in IMPLEMENTATIONS {
                let met = led(implementation.leaders_after(&register, *cards));
                assert_eq!(met, *expected, "{}, after {cards}: {}", case.label, implementation.name);
            }
        }
    }
    let refused = cases.iter().filter(|case| case.expected[0].1.starts_with("refused")).count();
    let asked: usize = cases.iter().map(|case| case.expected.len()).sum();
    println!("{} stored registers with their leaders, {refused} of them refused, {asked} times asked", cases.len());
    assert!(refused > 0 && refused < cases.len());
}

/// A case as its lines say it.
struct Case {
    label: &'static str,
    register: Register,
    /// How many cards, and the leaders after them.
    expected: Vec<(usize, &'static str)>,
}

impl Case {
    fn all() -> Vec<Case> {
        cases_of(CASES, Case::new, Case::add)
    }

    fn new(label: &'static str) -> Self {
        Case { label, register: Register::default(), expected: Vec::new() }
    }

    fn add(&mut self, word: &str, rest: &'static str) {
        match word {
            "after" => {
                let (cards, leaders) = rest.split_once(": ").expect("how many cards, and the leaders");
                self.expected.push((number(cards), leaders));
            }
            _ => assert!(self.register.add(word, rest), "{}: {word} {rest}", self.label),
        }
    }
}

/// A result in the words of the file.
fn led(result: Result<Accepted, Refused>) -> String {
    match result.map(leaders) {
        Ok([toxic, flammable]) => format!("T {toxic}, F {flammable}"),
        Err(refused) => refusal(refused),
    }
}
