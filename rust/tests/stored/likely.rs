//! The likely scenarios of `tests/likely.txt`; the README beside it tells its form.

use crate::forms::{card, name_of, refusal, worded};
use crate::implementations::IMPLEMENTATIONS;
use rings_second::reference::{Likely, Refused, CARD_LEN};

const CASES: &str = include_str!("../../../tests/likely.txt");

#[test]
fn both_find_what_is_stored() {
    let cases = Case::all();
    for case in &cases {
        assert!(!case.queries.is_empty(), "{}: nothing is asked", case.label);
        for Query { rate, minutes, expected } in &case.queries {
            for implementation in IMPLEMENTATIONS {
                let met = line(implementation.likely(&case.card, *rate, *minutes));
                assert_eq!(met, *expected, "{}, at {rate} for {minutes}: {}", case.label, implementation.name);
            }
        }
    }
    let expected = || cases.iter().flat_map(|case| &case.queries).map(|query| query.expected);
    let asked = expected().count();
    println!("{} stored cards with their likely scenarios, {asked} times asked", cases.len());
    for word in ["printed", "interpolated", "limit", "refused"] {
        let met = expected().filter(|expected| expected.split(' ').any(|found| found == word)).count();
        println!("stored likely scenarios, {word}: {met}");
        assert!(met > 0);
    }
}

/// A case as its lines say it.
struct Case {
    label: &'static str,
    card: [u8; CARD_LEN],
    queries: Vec<Query>,
}

/// Thousandths of a pound per minute, minutes, and the line that the program prints.
struct Query {
    rate: u64,
    minutes: u32,
    expected: &'static str,
}

impl Case {
    fn all() -> Vec<Case> {
        let mut cases: Vec<Case> = Vec::new();
        for (word, rest) in worded(CASES) {
            match (word, cases.last_mut()) {
                ("case", _) => cases.push(Case { label: rest, card: [0; CARD_LEN], queries: Vec::new() }),
                ("card", Some(case)) => case.card = card(rest).bytes(),
                ("at", Some(case)) => case.queries.push(Query::read(rest)),
                _ => panic!("{word} {rest}"),
            }
        }
        cases
    }
}

impl Query {
    fn read(text: &'static str) -> Self {
        let (asked, expected) = text.split_once(": ").expect("what is asked, and what is found");
        let (rate, minutes) = asked.split_once(" for ").expect("a rate and a duration");
        let [rate, minutes] = [rate, minutes].map(|digits| digits.parse::<u64>().expect("a number"));
        Query { rate, minutes: minutes.try_into().expect("a duration"), expected }
    }
}

/// A result as the program prints it, miles rounded up to a hundredth.
fn line(result: Result<Likely, Refused>) -> String {
    match result {
        Ok(Likely { table, found, hundredths }) => {
            let up = hundredths.ceil() as u64;
            let bits = hundredths.to_bits();
            format!("{table} {} {}.{:02} {bits:016x}", name_of(found), up / 100, up % 100)
        }
        Err(refused) => refusal(refused),
    }
}
