//! Every line of `tests/vectors`, whose README tells the form of the files.

use crate::edits;
use crate::forms::name_of;
use crate::implementations::{Implementation, IMPLEMENTATIONS};
use crate::rates;
use rings_second::reference::{Accepted, Farthest, Likely, Refused, Year};
use rings_second::samples::edits::Edit;
use std::fs;
use std::path::Path;

/// The result of an implementation in the words of a file, from the input's bytes and the numbers beside them: the length
/// of the buffer, how many cards, a day, or a rate and a duration.
type Answer = fn(&Implementation, &[u8], &[u64]) -> String;

/// What the columns of a file are.
#[derive(Clone, Copy)]
enum Columns {
    /// An input, the numbers beside it, and the result.
    Result(Answer),
    /// A card, its exact rate, and the slack of the bound on the reported one.
    Rate,
    /// A lent buffer, edits of the register in it, their results, and the buffer after all of them.
    Edits,
}

/// The files, and how an implementation is held to their lines.
const FILES: [(&str, Columns); 9] = [
    ("day.tsv", Columns::Result(|by, register, day| led(by.farthest_on(register, only(day))))),
    ("edits.tsv", Columns::Edits),
    ("likely.tsv", Columns::Result(likely)),
    ("prefix.tsv", Columns::Result(|by, register, cards| led(by.leaders_after(register, only(cards))))),
    ("rate.tsv", Columns::Rate),
    ("read.tsv", Columns::Result(|by, text, room| converted(by.register_of(text, only(room))))),
    ("register.tsv", Columns::Result(|by, register, room| answered(by.answers(register, only(room))))),
    ("write.tsv", Columns::Result(|by, register, room| converted(by.lines_of(register, only(room))))),
    ("year.tsv", Columns::Result(|by, register, _| over_the_year(by.year(register)))),
];

#[test]
fn both_agree_with_every_line() {
    let folder = Path::new(env!("CARGO_MANIFEST_DIR")).join("../tests/vectors");
    assert_eq!(names_in(&folder), FILES.map(|(name, _)| name), "each file is compared");
    let held: Vec<_> = IMPLEMENTATIONS.iter().map(|implementation| implementation.name).collect();
    for (name, columns) in FILES {
        let lines = compare(&folder.join(name), columns);
        println!("{name}: {} agreed with all {lines} lines", held.join(" and "));
        assert!(lines > 0, "{name} has no lines");
    }
}

/// The files of a folder that have lines to compare, in the order of their names.
fn names_in(folder: &Path) -> Vec<String> {
    let entries = fs::read_dir(folder).expect("the folder of vectors");
    let names = entries.map(|entry| entry.expect("a file of vectors").file_name().to_string_lossy().into_owned());
    let mut names: Vec<_> = names.filter(|name| name.ends_with(".tsv")).collect();
    names.sort();
    names
}

/// Panics at the first line that an implementation disagrees with; gives how many lines there are.
fn compare(file: &Path, columns: Columns) -> usize {
    let text = fs::read_to_string(file).expect("a file of vectors");
    for (line, number) in text.lines().zip(1..) {
        for implementation in IMPLEMENTATIONS {
            let place = format!("{}, line {number}: {}", file.display(), implementation.name);
            columns.compare(implementation, line, &place);
        }
    }
    text.lines().count()
}

impl Columns {
    /// Panics if an implementation disagrees with a line, which is at a place.
    fn compare(self, by: &Implementation, line: &str, place: &str) {
        let columns: Vec<_> = line.split('\t').collect();
        match (self, columns.as_slice()) {
            (Columns::Result(answer), [input, beside @ .., expected]) => {
                let beside: Vec<u64> = beside.iter().map(|digits| digits.parse().expect("a number")).collect();
                assert_eq!(answer(by, &bytes(input), &beside), *expected, "{place}");
            }
            (Columns::Rate, [card, exact, slack]) => rates::hold(by, &bytes(card), exact, slack, place),
            (Columns::Edits, [buffer, list, results, after]) => {
                let (results_met, after_met) = edited(by, bytes(buffer), list, place);
                assert_eq!((results_met.as_str(), hex(&after_met).as_str()), (*results, *after), "{place}");
            }
            _ => panic!("{place}: columns that are not of this file"),
        }
    }
}

/// The number beside an input that has no other.
fn only<N: TryFrom<u64>>(numbers: &[u64]) -> N {
    let number = match *numbers {
        [number] => N::try_from(number).ok(),
        _ => None,
    };
    number.unwrap_or_else(|| panic!("one number beside the input, not {numbers:?}"))
}

fn likely(by: &Implementation, card: &[u8], query: &[u64]) -> String {
    let &[rate, minutes] = query else {
        panic!("a rate and a duration, not {query:?}");
    };
    let card = card.try_into().expect("24 bytes");
    match by.likely(card, rate, minutes.try_into().expect("a duration")) {
        Ok(Likely { table, found, hundredths }) => {
            format!("ok {table} {} {:016x}", name_of(found), hundredths.to_bits())
        }
        Err(refused) => refusal(refused),
    }
}

/// The results of edits of the register in a lent buffer, and the buffer after all of them.
fn edited(by: &Implementation, mut buffer: Vec<u8>, list: &str, place: &str) -> (String, Vec<u8>) {
    let result = |edit| match edits::checked(by, &mut buffer, &edit_of(edit), place) {
        Ok(_) => "ok".to_string(),
        Err(refused) => refusal(refused),
    };
    let results: Vec<String> = list.split(';').map(result).collect();
    (results.join(";"), buffer)
}

fn edit_of(text: &str) -> Edit {
    let (word, what) = text.split_once(' ').expect("what is done, and with which card");
    let card = || bytes(what).try_into().expect("28 bytes");
    match word {
        "add" => Edit::Add(card()),
        "replace" => Edit::Replace(card()),
        "withdraw" => Edit::Withdraw(what.parse().expect("a card number")),
        _ => panic!("no edit: {text}"),
    }
}

fn answered(result: Result<(Vec<u8>, Accepted), Refused>) -> String {
    match result {
        Ok((bytes, accepted)) => format!("ok {} {}", hex(&bytes), both_farthest(accepted)),
        Err(refused) => refusal(refused),
    }
}

fn led(result: Result<Accepted, Refused>) -> String {
    match result {
        Ok(accepted) => format!("ok {}", both_farthest(accepted)),
        Err(refused) => refusal(refused),
    }
}

fn over_the_year(result: Result<Year, Refused>) -> String {
    match result {
        Ok(Year { farthest: Accepted { toxic, flammable }, toxic_day, flammable_day }) => {
            format!("ok {} {toxic_day} {} {flammable_day}", farthest(toxic), farthest(flammable))
        }
        Err(refused) => refusal(refused),
    }
}

fn converted(result: Result<Vec<u8>, Refused>) -> String {
    match result {
        Ok(bytes) => format!("ok {}", hex(&bytes)),
        Err(refused) => refusal(refused),
    }
}

fn refusal(Refused { number, place }: Refused) -> String {
    format!("refused {number} {place}")
}

fn both_farthest(Accepted { toxic, flammable }: Accepted) -> String {
    format!("{} {}", farthest(toxic), farthest(flammable))
}

fn farthest(farthest: Option<Farthest>) -> String {
    match farthest {
        Some(Farthest { card, miles }) => format!("{card}:{miles}"),
        None => "none".to_string(),
    }
}

fn hex(bytes: &[u8]) -> String {
    match bytes {
        [] => "-".to_string(),
        _ => bytes.iter().map(|byte| format!("{byte:02x}")).collect(),
    }
}

fn bytes(hex: &str) -> Vec<u8> {
    let digits = if hex == "-" { "" } else { hex };
    assert!(digits.len().is_multiple_of(2), "half a byte in {hex}");
    let byte = |place| u8::from_str_radix(&digits[place..place + 2], 16).expect("hexadecimal digits");
    (0..digits.len()).step_by(2).map(byte).collect()
}
