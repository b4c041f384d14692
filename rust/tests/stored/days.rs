//! The rings of days and of years of `tests/days.txt`; the README beside it tells its form.

use crate::forms::{cases_of, leaders, number, refusal, Register};
use crate::implementations::{Implementation, IMPLEMENTATIONS};
use rings_second::reference::Year;

const CASES: &str = include_str!("../../../tests/days.txt");

#[test]
fn both_find_the_days_and_years_that_are_stored() {
    let cases = Case::all();
    for case in &cases {
        assert!(!case.asked.is_empty(), "{}: nothing is asked", case.label);
        let register = case.register.bytes();
        for (asked, expected) in &case.asked {
            for implementation in IMPLEMENTATIONS {
                let met = asked.result(implementation, &register);
                assert_eq!(met, *expected, "{}, {asked:?}: {}", case.label, implementation.name);
            }
        }
    }
    let results = || cases.iter().flat_map(|case| &case.asked).map(|(_, expected)| expected);
    let refused = results().filter(|expected| expected.starts_with("refused")).count();
    println!(
        "{} stored registers with days and years, {} times asked, {refused} refused",
        cases.len(),
        results().count()
    );
    assert!(refused > 0 && refused < results().count());
}

/// A case as its lines say it.
struct Case {
    label: &'static str,
    register: Register,
    /// What is asked, and what is found.
    asked: Vec<(Asked, &'static str)>,
}

#[derive(Debug)]
enum Asked {
    Day(u32),
    Year,
}

impl Case {
    fn all() -> Vec<Case> {
        cases_of(CASES, Case::new, Case::add)
    }

    fn new(label: &'static str) -> Self {
        Case { label, register: Register::default(), asked: Vec::new() }
    }

    fn add(&mut self, word: &str, rest: &'static str) {
        if self.register.add(word, rest) {
            return;
        }
        let (what, found) = rest.split_once(": ").expect("what is asked, and what is found");
        let asked = match (word, what) {
            ("on", day) => Asked::Day(number(day) as u32),
            ("over", "the year") => Asked::Year,
            _ => panic!("{}: {word} {rest}", self.label),
        };
        self.asked.push((asked, found));
    }
}

impl Asked {
    /// What an implementation finds, in the words of the file.
    fn result(&self, by: &Implementation, register: &[u8]) -> String {
        let found = match self {
            Asked::Day(day) => by.farthest_on(register, *day).map(leaders),
            Asked::Year => by.year(register).map(over_the_year),
        };
        match found {
            Ok([toxic, flammable]) => format!("T {toxic}, F {flammable}"),
            Err(refused) => refusal(refused),
        }
    }
}

/// The leaders of a year with their days. None has day 0, and has no day to be told.
fn over_the_year(Year { farthest, toxic_day, flammable_day }: Year) -> [String; 2] {
    let [toxic, flammable] = leaders(farthest);
    [(toxic, toxic_day), (flammable, flammable_day)].map(|(leader, day)| match (leader.as_str(), day) {
        ("none", 0) => leader,
        _ => format!("{leader} on {day}"),
    })
}
