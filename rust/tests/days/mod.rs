//! The rings of days and of years, by the proved library and by the reference.
//!
//! Registers of all versions, with seasons and faults of every kind, are asked on days that tell something: those that no year
//! has, its ends, and the ends of the seasons that are met. Others are asked on every day. All words are compared, on
//! acceptance and on refusal.
//!
//! A third opinion is worked out here from what `rings_answer` says of the whole register: from the distances of its cards, or
//! from its refusal, which comes before that of a day. Another is what `rings_leaders_after` says of the cards in force alone.
//! Then come registers of which one has more: their rings are ordered on each day on which every card in force has a
//! counterpart.

mod ordered;
mod registers;

use crate::lent::hex;
use crate::versions::version;
use crate::{report_refusals, words, Refusals, LEAST_OF_EACH, SEED};
use registers::{days_to_ask, Registers};
use rings_second::proved;
use rings_second::reference::{self, Accepted, Farthest, Refused, Year, ANSWER_LEN, MAX_CARDS};
use rings_second::samples::seasons::{Season, LAST_DAY, WHOLE_YEAR};
use rings_second::samples::{cards_of, plain_cards, register_of_bytes, seasonal_register, Card, Rng};
use std::collections::BTreeMap;

const REGISTERS: usize = 230_000;
/// Registers that are asked on every day.
const CALENDARS: usize = 20_000;
const LONG_REGISTERS: usize = 300;

const LEAST_WITH_SEASONS: usize = 200_000;

/// The refusals that no ring is refused with: there is neither an answer buffer nor a line, a rate or an edit.
const NOT_OF_DAYS: [usize; 7] = [4, 12, 13, 17, 18, 19, 20];

#[test]
fn the_rings_of_days_agree() {
    let mut days = Days::new(SEED);
    sweep_ends(&mut days);
    let registers = Registers::new(&mut days.rng);
    for _ in 0..REGISTERS {
        let register = registers.short(&mut days.rng);
        days.compare(&register);
    }
    for _ in 0..LONG_REGISTERS {
        let register = registers.long(&mut days.rng);
        days.compare(&register);
    }
    days.report();
}

#[test]
fn the_rings_of_all_days_agree() {
    let mut days = Days::new(!SEED);
    let registers = Registers::new(&mut days.rng);
    for _ in 0..CALENDARS {
        let register = registers.accepted(&mut days.rng);
        days.compare_calendar(&register);
    }
    println!("{CALENDARS} registers compared on all days of a year");
    assert_eq!(days.accepted, CALENDARS);
}

/// The typed calls say the same as the words: a few thousand registers show each of their cases.
#[test]
fn the_typed_calls_of_days_agree_too() {
    let mut rng = Rng::new(SEED);
    let registers = Registers::new(&mut rng);
    for _ in 0..10_000 {
        let register = registers.short(&mut rng);
        assert_eq!(reference::year(&register), proved::year(&register), "the register is {}", hex(&register));
        for day in days_to_ask(&mut rng, &register) {
            let (ours, theirs) = (reference::farthest_on(&register, day), proved::farthest_on(&register, day));
            assert_eq!(ours, theirs, "on {day} of the register {}", hex(&register));
        }
    }
}

/// Compares registers one by one and counts what it met.
#[derive(Default)]
struct Days {
    rng: Rng,
    /// Room for the answers of any register.
    answers: Vec<u8>,
    registers: usize,
    with_seasons: usize,
    accepted: usize,
    refused: Refusals,
    versions: BTreeMap<Option<u8>, usize>,
    seasons: BTreeMap<&'static str, usize>,
    asked: usize,
    met: Met,
}

/// What was met of accepted registers.
#[derive(Default)]
struct Met {
    /// Named days that no year has: zero, the one behind the last, and those beyond.
    zero: usize,
    behind: usize,
    beyond: usize,
    /// Named days with no card in force, with some, and with all.
    none: usize,
    some: usize,
    all: usize,
    /// A class has a ring that is nearer than the year's, or none although the year has one; or another card with the same.
    nearer: usize,
    without: usize,
    another: usize,
    /// Several cards of a class in force have its distance.
    tied: usize,
    /// Of the year: a class whose day is the first, the last, and one between; whose day is another card's; and no class.
    first: usize,
    last: usize,
    between: usize,
    of_another: usize,
    of_none: usize,
}

/// A card of an accepted register, as the answers tell it.
#[derive(Debug, Clone, Copy)]
struct Told {
    kind: u8,
    season: Season,
    farthest: Farthest,
}

impl Days {
    fn new(seed: u64) -> Self {
        Days { rng: Rng::new(seed), answers: vec![0; MAX_CARDS * ANSWER_LEN], ..Days::default() }
    }

    /// A register on the days that tell something, and its year.
    fn compare(&mut self, register: &[u8]) {
        self.registers += 1;
        self.with_seasons += usize::from(version(register) == Some(3) && cards_of(register).len() > 0);
        *self.versions.entry(version(register)).or_default() += 1;
        let told = self.told(register);
        self.compare_year(register, &told);
        let days = days_to_ask(&mut self.rng, register);
        for day in &days {
            self.compare_day(register, *day, &told);
        }
        match told {
            Ok((cards, _)) => {
                self.accepted += 1;
                cards.iter().for_each(|card| *self.seasons.entry(kind_of(card.season)).or_default() += 1);
                let day = *self.rng.pick(&days);
                hold_to_cards_in_force(register, day);
            }
            Err(Refused { number, .. }) => self.refused[usize::from(number)] += 1,
        }
    }

    /// An accepted register on every day of a year: the year's distance is on none of them exceeded, and on its day reached
    /// for the first time.
    fn compare_calendar(&mut self, register: &[u8]) {
        let told = self.told(register);
        let year = self.compare_year(register, &told).expect("an accepted register");
        self.accepted += 1;
        let mut days = vec![[0; 2]];
        for day in 1..=u32::from(LAST_DAY) {
            let Accepted { toxic, flammable } = self.compare_day(register, day, &told).expect("a day of a year");
            days.push([miles(toxic), miles(flammable)]);
        }
        for (class, (farthest, told)) in
            [(year.farthest.toxic, year.toxic_day), (year.farthest.flammable, year.flammable_day)]
                .into_iter()
                .enumerate()
        {
            let largest = days.iter().map(|day| day[class]).max().expect("days");
            // Day 0 stands first and has no ring, so it is the earliest where no day has one.
            let earliest = days.iter().position(|day| day[class] == largest).expect("the largest");
            assert_eq!((miles(farthest), usize::from(told)), (largest, earliest), "the register {}", hex(register));
        }
    }

    /// What `rings_answer` says of a register: the cards with their distances, and the farthest of all; or its refusal.
    fn told(&mut self, register: &[u8]) -> Result<(Vec<Told>, Accepted), Refused> {
        let accepted = proved::answer(register, &mut self.answers)?;
        let tell = |(card, answer): (&[u8], &[u8])| {
            let number = u32::from_be_bytes([answer[0], answer[1], answer[2], answer[3]]);
            let farthest = Farthest { card: number, miles: u16::from_be_bytes([answer[14], answer[15]]) };
            Told { kind: card[0], season: Season::of(card), farthest }
        };
        let cards = cards_of(register).zip(self.answers.chunks_exact(ANSWER_LEN)).map(tell).collect();
        Ok((cards, accepted))
    }

    /// Both are asked on a day, and words that should stay are given; panics where they differ, or from what was told. Gives
    /// the rings, if both found them.
    fn compare_day(
        &mut self,
        register: &[u8],
        day: u32,
        told: &Result<(Vec<Told>, Accepted), Refused>,
    ) -> Option<Accepted> {
        let untouched = (self.rng.bits(), self.rng.bits());
        let ours = reference::farthest_on(register, day);
        let (mut toxic, mut flammable) = untouched;
        let code = proved::farthest_on_words(register, day, &mut toxic, &mut flammable);
        let (expected, met) = (words(ours, untouched), (code, toxic, flammable));
        assert_eq!(expected, met, "reference and proved library, on {day} of the register {}", hex(register));
        let third = match told {
            Err(refused) => Err(*refused),
            Ok(_) if !(1..=u32::from(LAST_DAY)).contains(&day) => Err(Refused { number: 21, place: 0 }),
            Ok((cards, _)) => Ok(farthest_of(cards, |card| is_in_force(card.season, day))),
        };
        assert_eq!(ours, third, "on {day} of the register {}", hex(register));
        self.asked += 1;
        if let Ok((cards, farthest)) = told {
            self.met.count_day(day, cards, *farthest, ours);
        }
        ours.ok()
    }

    /// The same of the year.
    fn compare_year(&mut self, register: &[u8], told: &Result<(Vec<Told>, Accepted), Refused>) -> Option<Year> {
        let untouched: [u64; 4] = std::array::from_fn(|_| self.rng.bits());
        let ours = reference::year(register);
        let [t, f, td, fd] = untouched;
        let (mut rings, mut days) = ([t, f], [td, fd]);
        let code = proved::year_words(register, &mut rings, &mut days);
        let (word, toxic, flammable) = words(ours.map(|year| year.farthest), (t, f));
        let days_expected = ours.map_or([td, fd], |year| [year.toxic_day.into(), year.flammable_day.into()]);
        let (expected, met) = ((word, [toxic, flammable], days_expected), (code, rings, days));
        assert_eq!(expected, met, "reference and proved library, over the year of the register {}", hex(register));
        let third = told.as_ref().map_err(|refused| *refused).map(|(cards, farthest)| Year {
            farthest: *farthest,
            toxic_day: earliest_day(cards, 1, farthest.toxic),
            flammable_day: earliest_day(cards, 2, farthest.flammable),
        });
        assert_eq!(ours, third, "over the year of the register {}", hex(register));
        if let (Ok((cards, _)), Ok(year)) = (told, &ours) {
            self.met.count_year(cards, *year);
        }
        ours.ok()
    }

    fn report(&self) {
        let Days { registers, with_seasons, accepted, asked, met, .. } = self;
        println!("{registers} registers compared by days and years, {with_seasons} with seasons, {accepted} accepted");
        println!("{asked} days asked");
        assert!(*with_seasons >= LEAST_WITH_SEASONS, "too few registers had seasons");
        assert!(accepted * 2 >= *registers, "too few registers were accepted");
        report_refusals("days and years refused", &self.refused, NOT_OF_DAYS);
        for version in [1, 2, 3] {
            let met = self.versions[&Some(version)];
            println!("days and years of version {version}: {met} registers");
            assert!(met >= LEAST_OF_EACH, "version {version} was met too seldom");
        }
        for (kind, met) in &self.seasons {
            println!("seasons of {kind}: {met} cards");
            assert!(*met >= LEAST_OF_EACH, "seasons of {kind} were met too seldom");
        }
        assert_eq!(self.seasons.len(), 7, "each kind of season");
        for (what, met) in [
            ("refused for 0", met.zero),
            ("refused for 367", met.behind),
            ("refused beyond", met.beyond),
            ("with no card in force", met.none),
            ("with some in force", met.some),
            ("with all in force", met.all),
            ("nearer than the year", met.nearer),
            ("without a class that the year has", met.without),
            ("as far as the year by another card", met.another),
            ("with a tie at the lead", met.tied),
        ] {
            println!("days {what}: {met}");
            assert!(met >= LEAST_OF_EACH, "days {what} were met too seldom");
        }
        for (what, met) in [
            ("on the first day", met.first),
            ("on the last day", met.last),
            ("on a day between", met.between),
            ("on a day of another card", met.of_another),
            ("of no card", met.of_none),
        ] {
            println!("years {what}: {met}");
            assert!(met >= LEAST_OF_EACH, "years {what} were met too seldom");
        }
    }
}

impl Met {
    fn count_day(&mut self, day: u32, cards: &[Told], year: Accepted, result: Result<Accepted, Refused>) {
        let Ok(Accepted { toxic, flammable }) = result else {
            let counter = match day {
                0 => &mut self.zero,
                367 => &mut self.behind,
                _ => &mut self.beyond,
            };
            *counter += 1;
            return;
        };
        let in_force = cards.iter().filter(|card| is_in_force(card.season, day)).count();
        self.none += usize::from(in_force == 0 && !cards.is_empty());
        self.some += usize::from(in_force > 0 && in_force < cards.len());
        self.all += usize::from(in_force > 0 && in_force == cards.len());
        for (kind, of_day, of_year) in [(1, toxic, year.toxic), (2, flammable, year.flammable)] {
            self.nearer += usize::from(of_day.is_some() && miles(of_day) < miles(of_year));
            self.without += usize::from(of_day.is_none() && of_year.is_some());
            self.another += usize::from(miles(of_day) == miles(of_year) && of_day != of_year);
            let as_far = |card: &&Told| {
                card.kind == kind
                    && is_in_force(card.season, day)
                    && Some(card.farthest.miles) == of_day.map(|f| f.miles)
            };
            self.tied += usize::from(cards.iter().filter(as_far).count() > 1);
        }
    }

    fn count_year(&mut self, cards: &[Told], Year { farthest, toxic_day, flammable_day }: Year) {
        for (farthest, day) in [(farthest.toxic, toxic_day), (farthest.flammable, flammable_day)] {
            match day {
                0 => self.of_none += 1,
                1 => self.first += 1,
                LAST_DAY => self.last += 1,
                _ => self.between += 1,
            }
            let leader = cards.iter().find(|card| Some(card.farthest) == farthest);
            self.of_another += usize::from(leader.is_some_and(|leader| !is_in_force(leader.season, day.into())));
        }
    }
}

/// A card of each kind with its days at and beside the ends of a year, right and wrong, on such days.
fn sweep_ends(days: &mut Days) {
    const ENDS: [u16; 12] = [0, 1, 2, 3, 182, 183, 184, 364, 365, 366, 367, u16::MAX];
    let propane = Card { kind: 2, cas: 74_986, pounds: 10_000, number: 1, ..Card::default() };
    let chlorine = Card { kind: 1, state: 2, ground: 1, cas: 7_782_505, pounds: 2_249, number: 1, ..Card::default() };
    for (card, distances) in [(propane, [0, 18]), (chlorine, [300, 0])] {
        for (first, last) in ENDS.into_iter().flat_map(|first| ENDS.map(|last| (first, last))) {
            let register = seasonal_register(&[card.in_season(Season { first, last })], distances);
            let told = days.told(&register);
            days.compare_year(&register, &told);
            for day in ENDS {
                days.compare_day(&register, day.into(), &told);
            }
        }
    }
}

// The third opinion.

/// Whether a day is among those from the first to the last, counted around the year from the first on.
fn is_in_force(Season { first, last }: Season, day: u32) -> bool {
    let behind_first = |day: u32| (day + u32::from(LAST_DAY) - u32::from(first)) % u32::from(LAST_DAY);
    behind_first(day) <= behind_first(last.into())
}

/// The farthest of each class among some cards, the earlier on a tie.
fn farthest_of(cards: &[Told], is_meant: impl Fn(&Told) -> bool) -> Accepted {
    let of_kind = |kind: u8| {
        let meant = cards.iter().filter(|card| card.kind == kind && is_meant(card));
        // The last of equal ones is the first from behind.
        meant.rev().max_by_key(|card| card.farthest.miles).map(|card| card.farthest)
    };
    Accepted { toxic: of_kind(1), flammable: of_kind(2) }
}

/// The earliest day on which a card of a kind has the distance, and 0 for none. A season begins with its first day, or has
/// day 1 as well if it runs across New Year.
fn earliest_day(cards: &[Told], kind: u8, farthest: Option<Farthest>) -> u16 {
    let as_far = cards.iter().filter(|card| card.kind == kind && card.farthest.miles == miles(farthest));
    let days = as_far.map(|card| if is_in_force(card.season, 1) { 1 } else { card.season.first });
    days.min().unwrap_or(0)
}

/// An accepted register on a day, and one of its cards in force alone.
fn hold_to_cards_in_force(register: &[u8], day: u32) {
    let Ok(on_day) = proved::farthest_on(register, day) else {
        return;
    };
    let seasons = cards_of(register).map(Season::of);
    let in_force = plain_cards(register).into_iter().zip(seasons).filter(|(_, season)| is_in_force(*season, day));
    let in_force: Vec<_> = in_force.map(|(card, _)| card).collect();
    let alone = proved::leaders_after(&register_of_bytes(&in_force), usize::MAX);
    assert_eq!(Ok(on_day), alone, "on {day} of the register {}, and its cards in force", hex(register));
}

fn miles(farthest: Option<Farthest>) -> u16 {
    farthest.map_or(0, |farthest| farthest.miles)
}

/// What kind of season it is.
fn kind_of(season: Season) -> &'static str {
    match season {
        WHOLE_YEAR => "the whole year",
        Season { first: LAST_DAY, last: 1 } => "the last day and the first",
        Season { first, last } if first == last => "one day",
        Season { first, last } if first + 1 == last => "two days",
        Season { first, last } if first == last + 1 => "all days from another than the first on",
        Season { first, last } if first > last => "days across New Year",
        _ => "days within a year",
    }
}
