//! Versions 2 and 3 held to version 1: what the proved library says of the same cards without stored distances and without
//! seasons is a third opinion on what it says with them.

use crate::lent::hex;
use crate::LEAST_OF_EACH;
use rings_second::proved;
use rings_second::samples::seasons::{Season, LAST_DAY};
use rings_second::samples::{cards_of, plain_cards, register_of_bytes, seasonal_register, stored_register};

/// The refusal of a wrong stored distance, at place 0.
const WRONG: u64 = 3 << 32;
/// The number of the refusal of a card's season.
const SEASON: u8 = 21;

/// What was met of versions 2 and 3.
#[derive(Default)]
pub struct Versions {
    second: Met,
    third: Met,
}

#[derive(Default)]
struct Met {
    accepted: usize,
    /// Of these, with no card of a class, so that zero is stored for it.
    with_none: usize,
    /// Refused for the toxic distance alone, for the flammable one alone, for both.
    wrong_toxic: usize,
    wrong_flammable: usize,
    wrong_both: usize,
    /// Refused for a short buffer, and for a card, whatever is stored.
    short: usize,
    cards: usize,
    /// Refused for a season, and those of them whose card or whose distances would be refused without it.
    seasons: usize,
    hidden: usize,
    /// Refused for the length or the count.
    malformed: usize,
}

impl Versions {
    /// Holds what was said of a register, the three words and the buffer, to what is said of its cards in version 1.
    /// `untouched` are the two words from before the call, which both calls are handed.
    pub fn hold(&mut self, register: &[u8], answers: &[u8], met: (u64, u64, u64), untouched: (u64, u64)) {
        let counted = match version(register) {
            Some(2) => &mut self.second,
            Some(3) => &mut self.third,
            _ => return,
        };
        let cards = plain_cards(register);
        let Some(stored) = stored_in(register) else {
            counted.malformed += usize::from(met.0 == WRONG);
            assert!([1 << 32, WRONG].contains(&met.0), "a length that does not fit: {}", hex(register));
            return;
        };
        let mut in_version_1 = vec![0; answers.len()];
        let (mut toxic, mut flammable) = untouched;
        let plain = proved::answer_words(&register_of_bytes(&cards), &mut in_version_1, &mut toxic, &mut flammable);
        let code = with_seasons(register, plain);
        // The distance is the low half of a farthest word's last four bytes, and zero for none.
        let is_right = [toxic as u16 == stored[0], flammable as u16 == stored[1]];
        let expected = match (code, is_right) {
            (0, [true, true]) => (0, toxic, flammable),
            (0, _) => (WRONG, untouched.0, untouched.1),
            _ => (code, untouched.0, untouched.1),
        };
        assert_eq!(met, expected, "the register {} and its cards in version 1", hex(register));
        if met.0 == 0 {
            let written = 16 * cards.len();
            assert_eq!(answers[..written], in_version_1[..written], "the answers of {}", hex(register));
        }
        counted.hidden += usize::from(code != plain && (plain != 0 || is_right != [true, true]));
        counted.count(code, is_right, stored);
    }

    pub fn report(&self) {
        self.second.report(2);
        self.third.report(3);
    }
}

impl Met {
    /// Counts a register by what its cards are refused with, and by its distances.
    fn count(&mut self, code: u64, is_right: [bool; 2], stored: [u16; 2]) {
        let counter = match (code >> 32, is_right) {
            (0, [true, true]) => {
                self.with_none += usize::from(stored.contains(&0));
                &mut self.accepted
            }
            (0, [false, true]) => &mut self.wrong_toxic,
            (0, [true, false]) => &mut self.wrong_flammable,
            (0, [false, false]) => &mut self.wrong_both,
            (4, _) => &mut self.short,
            (3, _) => &mut self.malformed,
            (21, _) => &mut self.seasons,
            _ => &mut self.cards,
        };
        *counter += 1;
    }

    fn report(&self, version: u8) {
        let in_both = [
            ("accepted", self.accepted),
            ("accepted with none for a class", self.with_none),
            ("refused for the toxic distance", self.wrong_toxic),
            ("refused for the flammable distance", self.wrong_flammable),
            ("refused for both distances", self.wrong_both),
            ("refused for a short buffer", self.short),
            ("refused for a card", self.cards),
            ("refused for the length or the count", self.malformed),
        ];
        let in_third = [
            ("refused for a season", self.seasons),
            ("refused for a season, and otherwise for something else", self.hidden),
        ];
        let in_third = in_third.into_iter().filter(|_| version == 3);
        for (what, met) in in_both.into_iter().chain(in_third) {
            println!("registers of version {version}, {what}: {met}");
            assert!(met >= LEAST_OF_EACH, "registers of version {version}, {what}, were met too seldom");
        }
    }
}

/// A register's version, if it has one.
pub fn version(register: &[u8]) -> Option<u8> {
    register.get(4).copied()
}

/// The distances that a register of version 2 or 3 stores, right or wrong, if its length and its count fit its cards.
pub fn stored_in(register: &[u8]) -> Option<[u16; 2]> {
    let bytes = register.get(7..11)?;
    let stored = [[bytes[0], bytes[1]], [bytes[2], bytes[3]]].map(u16::from_be_bytes);
    let fitting = match version(register) {
        Some(2) => stored_register(&plain_cards(register), stored),
        Some(3) => {
            let cards = cards_of(register).map(|card| card.try_into().expect("28 bytes"));
            seasonal_register(&cards.collect::<Vec<_>>(), stored)
        }
        _ => return None,
    };
    (fitting == register).then_some(stored)
}

/// The refusal of a register's cards, or 0, once their seasons are checked too. What their plain cards are refused with is
/// given; a refusal of the whole register stays.
fn with_seasons(register: &[u8], plain: u64) -> u64 {
    let seasons = cards_of(register).map(Season::of);
    let Some((place, _)) = seasons.enumerate().find(|(_, season)| !is_in_range(*season)) else {
        return plain;
    };
    let (number, at) = ((plain >> 32) as u8, plain & 0xffff_ffff);
    let place = place as u64;
    match number {
        1..=4 => plain,
        5.. if at < place => plain,
        5.. if at == place => (u64::from(with_season(Some(number))) << 32) + place,
        _ => (u64::from(SEASON) << 32) + place,
    }
}

/// What a card is refused with whose season is out of range, if it is refused with this number, or not, in another season:
/// only 10 and 11 come behind.
pub fn with_season(number: Option<u8>) -> u8 {
    match number {
        None | Some(10 | 11) => SEASON,
        Some(number) => number,
    }
}

pub fn is_in_range(Season { first, last }: Season) -> bool {
    [first, last].iter().all(|day| (1..=LAST_DAY).contains(day))
}
