//! Likely scenarios, by the proved library and by the reference: the returned word and the three that are lent, bit for bit.
//!
//! Every substance is asked in each state that suits it, on both grounds and held in every way, at the rows, midpoints and
//! bounds of all twelve tables and a thousandth beside them. Then come temperatures, cards with one fault or two, and random
//! cards. A third opinion is what the paper says of any answer or refusal, whatever finds it, and `rings_answer`, which has
//! to send a card back for the same reason.

use crate::lent::hex;
use crate::{report_refusals, spoil, telling_concentrations, Refusals, LEAST_OF_EACH, SEED};
use rings_second::proved;
use rings_second::reference::printed::{printed, Phase, RateTable, Toxic};
use rings_second::reference::{self, Found, Likely, Refused, ANSWER_LEN, CARD_LEN};
use rings_second::samples::{self, highest_concentration, Card, Rng};
use rings_second::samples::{BUILDING, MAX_AREA, MAX_POUNDS, MAX_WALL, SHED_WITH_DOORS, SOLUTION};
use std::collections::BTreeMap;

const RANDOM_QUERIES: usize = 400_000;
const LEAST_COMPARED: usize = 1_000_000;

/// The highest rate that may be supplied, in thousandths of a pound per minute.
const MAX_RATE: u64 = 1_000_000_000;
/// 25 miles, in hundredths.
const LIMIT: f64 = 2_500.0;

/// The refusals that a likely scenario is never given: they are of whole registers, of their order, of comma lines, of
/// edits, or of seasons, which its card has none of.
const NOT_OF_LIKELY: [usize; 10] = [1, 2, 3, 4, 5, 12, 13, 19, 20, 21];

#[test]
fn likely_scenarios_agree() {
    let mut scenarios = Scenarios::new(SEED);
    sweep_pure_substances(&mut scenarios);
    sweep_solutions(&mut scenarios);
    sweep_temperatures(&mut scenarios);
    sweep_faults(&mut scenarios);
    for _ in 0..RANDOM_QUERIES {
        random_query(&mut scenarios);
    }
    scenarios.report();
}

/// The typed call says the same as the words: a few thousand cards show each of its cases.
#[test]
fn the_typed_call_agrees_too() {
    let mut rng = Rng::new(SEED);
    for _ in 0..10_000 {
        let (card, rate, minutes) = any_query(&mut rng);
        let bits = |result: Result<Likely, Refused>| result.map(|likely| (likely, likely.hundredths.to_bits()));
        let (ours, theirs) = (reference::likely(&card, rate, minutes), proved::likely(&card, rate, minutes));
        assert_eq!(bits(ours), bits(theirs), "the card {} at {rate} for {minutes}", hex(&card));
    }
}

/// Compares one by one and counts what it met.
struct Scenarios {
    rng: Rng,
    refused: Refusals,
    /// Answered, by table and by how the distance was found.
    found: BTreeMap<(u8, Found), usize>,
    /// Answered, by state, ground and containment.
    held: BTreeMap<[u8; 3], usize>,
    /// Answered, by CAS number, those of solutions apart.
    substances: BTreeMap<(bool, u32), usize>,
    /// Cards that `rings_answer` was asked about, and those of them that it sent back for being beyond their table, which
    /// says nothing here.
    as_ever: usize,
    beyond_in_the_worst_case: usize,
    /// Distances that rise with the rate.
    rising: usize,
}

impl Scenarios {
    fn new(seed: u64) -> Self {
        Scenarios {
            rng: Rng::new(seed),
            refused: Refusals::default(),
            found: BTreeMap::new(),
            held: BTreeMap::new(),
            substances: BTreeMap::new(),
            as_ever: 0,
            beyond_in_the_worst_case: 0,
            rising: 0,
        }
    }

    /// Asks both, with the same random words lent, and panics where they differ or the paper says otherwise.
    fn compare(&mut self, card: &[u8; CARD_LEN], rate: u64, minutes: u32) -> Result<Likely, Refused> {
        let untouched = [self.rng.bits(), self.rng.bits(), self.rng.bits()];
        let ours = reference::likely(card, rate, minutes);
        let [mut table, mut found, bits] = untouched;
        let mut hundredths = f64::from_bits(bits);
        let code = proved::likely_words(card, rate, minutes, &mut table, &mut found, &mut hundredths);
        let (expected, met) = (words(ours, untouched), (code, [table, found, hundredths.to_bits()]));
        if expected != met {
            panic!(
                "they disagree on {} at {rate} for {minutes}\nreference: {expected:x?} ({ours:?})\nproved:    {met:x?}",
                hex(card)
            );
        }
        assert!(as_the_paper_says(card, rate, minutes, ours), "{} at {rate} for {minutes}: {ours:?}", hex(card));
        self.count(card, ours);
        ours
    }

    fn count(&mut self, card: &[u8; CARD_LEN], result: Result<Likely, Refused>) {
        match result {
            Ok(Likely { table, found, .. }) => {
                *self.found.entry((table, found)).or_default() += 1;
                *self.held.entry([card[1], card[2], card[3]]).or_default() += 1;
                let cas = u32::from_be_bytes([card[4], card[5], card[6], card[7]]);
                *self.substances.entry((card[1] == SOLUTION, cas)).or_default() += 1;
            }
            Err(Refused { number, .. }) => self.refused[usize::from(number)] += 1,
        }
    }

    /// The same, for a card that `rings_answer` is asked about as well: but for its number and for the tables it is
    /// checked as ever.
    fn compare_as_ever(&mut self, card: &[u8; CARD_LEN], rate: u64, minutes: u32) {
        let result = self.compare(card, rate, minutes);
        let here = match result {
            Err(Refused { number: 17 | 18, .. }) => return,
            Err(Refused { number: 11, .. }) | Ok(_) => None,
            Err(Refused { number, .. }) => Some(number),
        };
        let there = worst_case_refusal(card);
        self.as_ever += 1;
        self.beyond_in_the_worst_case += usize::from(there == Some(11));
        let there = if card[0] == 1 { there.filter(|number| *number != 11) } else { Some(6) };
        assert_eq!(here, there, "{} at {rate} for {minutes}, and as a register", hex(card));
    }

    /// A card at rising rates: entries in use never fall, so no distance does, and beyond a table stays beyond it. Whatever
    /// holds the card has to make no difference, so each rate meets it held in another way.
    fn compare_rising(&mut self, card: Card, rates: &[u64], minutes: u32) {
        let mut last: Option<Result<f64, u8>> = None;
        for (turn, rate) in rates.iter().enumerate() {
            let held = held_in_turn(card, turn).bytes();
            let next =
                self.compare(&held, *rate, minutes).map(|likely| likely.hundredths).map_err(|refused| refused.number);
            match (last, next) {
                (Some(Ok(below)), Ok(above)) => {
                    assert!(below <= above, "{card:?}: at {rate} the distance falls");
                    self.rising += usize::from(below < above);
                }
                (Some(Err(number)), next) => assert_eq!(next, Err(number), "{card:?}: at {rate}"),
                (_, next) => assert!(matches!(next, Ok(_) | Err(11)), "{card:?}: at {rate}, {next:?}"),
            }
            last = Some(next);
        }
    }

    fn report(&self) {
        let refused: usize = self.refused.iter().sum();
        let answered: usize = self.found.values().sum();
        println!("{} likely scenarios compared, {answered} answered", refused + answered);
        assert!(refused + answered >= LEAST_COMPARED && answered >= LEAST_COMPARED / 2);
        report_refusals("likely scenarios refused", &self.refused, NOT_OF_LIKELY);
        self.report_tables();
        for ([state, ground, containment], met) in &self.held {
            println!("likely scenarios in state {state} on ground {ground} in containment {containment}: {met}");
            assert!(*met >= LEAST_OF_EACH);
        }
        // A dike suits a state in which something can pool: 3 to 5.
        assert_eq!(self.held.len(), 2 * (2 * 3 + 3 * 4));
        let least = self.substances.values().min().expect("a substance");
        println!("likely scenarios of {} substances, {least} of each at least", self.substances.len());
        assert!(*least >= LEAST_OF_EACH);
        assert_eq!(self.substances.len(), printed().toxics().len() + printed().solutes().len());
        println!("likely distances farther than at the rate before: {}", self.rising);
        println!(
            "cards checked as ever: {}, beyond their table in the worst case: {}",
            self.as_ever, self.beyond_in_the_worst_case
        );
        assert!(self.rising.min(self.as_ever).min(self.beyond_in_the_worst_case) >= LEAST_OF_EACH);
    }

    fn report_tables(&self) {
        for ((table, found), met) in &self.found {
            println!("likely scenarios from Table {table}, {found:?}: {met}");
            assert!(*met >= LEAST_OF_EACH, "a case was met too seldom");
        }
        // Ranges are not interpolated, and the tables of single substances end under 25 miles.
        let ways = |table: u8| match table {
            14..=17 => vec![Found::Printed, Found::Limit],
            18..=21 => vec![Found::Printed, Found::Interpolated, Found::Limit],
            _ => vec![Found::Printed, Found::Interpolated],
        };
        let expected = (14..=25).flat_map(|table| ways(table).into_iter().map(move |found| (table, found)));
        assert!(self.found.keys().copied().eq(expected), "each table in each of its ways");
    }
}

/// The words of the C interface for a result: the returned one, then table, found and the float's bits.
fn words(result: Result<Likely, Refused>, untouched: [u64; 3]) -> (u64, [u64; 3]) {
    match result {
        Ok(Likely { table, found, hundredths }) => (0, [u64::from(table), found as u64, hundredths.to_bits()]),
        Err(Refused { number, place }) => ((u64::from(number) << 32) + place, untouched),
    }
}

/// What holds of any answer and refusal, by the paper alone.
fn as_the_paper_says(card: &[u8; CARD_LEN], rate: u64, minutes: u32, result: Result<Likely, Refused>) -> bool {
    let first = match (rate, minutes, card[0]) {
        (0 | 1_000_000_001.., _, _) => Some(17),
        (_, 0, _) => Some(18),
        (_, _, 1) => None,
        _ => Some(6),
    };
    match result {
        Ok(Likely { table, found, hundredths }) => {
            first.is_none()
                && (14..=25).contains(&table)
                && 0.0 < hundredths
                && hundredths <= LIMIT
                && (found == Found::Limit) == (hundredths == LIMIT)
                // Tables print miles and tenths of them.
                && (found != Found::Printed || hundredths % 10.0 == 0.0)
        }
        Err(Refused { number, place }) => place == 0 && first.is_none_or(|first| first == number),
    }
}

/// The number of the refusal by `rings_answer`, of a register of this card alone whose number is in order.
fn worst_case_refusal(card: &[u8; CARD_LEN]) -> Option<u8> {
    let mut card = *card;
    card[20..].copy_from_slice(&1u32.to_be_bytes());
    let register = samples::register_of_bytes(&[card]);
    proved::answer(&register, &mut [0; ANSWER_LEN]).err().map(|refused| refused.number)
}

/// The rates at which something changes for an endpoint in one of Tables 14 to 25, halfway between rows, a thousandth
/// beside each, and the ends of what may be supplied; rising.
fn telling_rates(endpoint: u64) -> Vec<u64> {
    let tables = printed().alternative();
    let rows = tables.dense().iter().chain(tables.specific()).flat_map(rows_and_midpoints);
    let bounds = tables.neutral().iter().flat_map(|table| table.bounds());
    let edges = rows.chain(bounds.map(|bound| reaching(*bound, endpoint))).flat_map(|rate| [rate - 1, rate, rate + 1]);
    let mut rates: Vec<u64> = edges.chain([1, 2, MAX_RATE - 1, MAX_RATE]).collect();
    rates.retain(|rate| (1..=MAX_RATE).contains(rate));
    rates.sort_unstable();
    rates.dedup();
    rates
}

/// The least thousandths at which rate / endpoint reaches a bound.
fn reaching(bound: u64, endpoint: u64) -> u64 {
    (bound * endpoint).div_ceil(1_000)
}

fn rows_and_midpoints(table: &RateTable) -> impl Iterator<Item = u64> + '_ {
    table.rates().iter().chain(table.cuts()).copied()
}

/// The card on both grounds, at every telling rate of its substance, for ten minutes and for eleven.
fn sweep_rates(scenarios: &mut Scenarios, card: Card, substance: &Toxic) {
    let rates = telling_rates(substance.endpoint);
    for ground in 1..=2 {
        for minutes in [10, 11] {
            scenarios.compare_rising(Card { ground, ..card }, &rates, minutes);
        }
    }
}

/// The card held in one of the ways that its state admits.
fn held_in_turn(card: Card, turn: usize) -> Card {
    let pounds = [1, 20_000, MAX_POUNDS][turn / 5 % 3];
    let area = [1, 497, MAX_AREA][turn / 7 % 3];
    let wall = [0, 400, MAX_WALL][turn / 11 % 3];
    let card = Card { pounds, ..card };
    match (card.state, turn % 4) {
        (_, 1) => Card { containment: BUILDING, area, ..card },
        (_, 2) => Card { containment: SHED_WITH_DOORS, area, ..card },
        (3..=SOLUTION, 3) => Card { containment: 1, area, wall, ..card },
        _ => card,
    }
}

/// Every substance of B-1 in states 1 to 3, and of B-2 at temperatures that need no factor of B-4.
fn sweep_pure_substances(scenarios: &mut Scenarios) {
    for toxic in printed().toxics() {
        let card = Card { kind: 1, cas: toxic.cas, number: 1, ..Card::default() };
        match toxic.phase {
            Phase::Gas { .. } => (1..=3).for_each(|state| sweep_rates(scenarios, Card { state, ..card }, toxic)),
            _ => {
                let tenths = *scenarios.rng.pick(&[-500, 250, 274, 501, 3_000]);
                sweep_rates(scenarios, Card { state: 4, tenths, ..card }, toxic);
            }
        }
    }
}

/// Every substance of B-3 at its printed concentrations, a tenth beside them and between them.
fn sweep_solutions(scenarios: &mut Scenarios) {
    for solute in printed().solutes() {
        let highest = highest_concentration(solute);
        for tenths in telling_concentrations(solute).into_iter().filter(|tenths| (1..=highest).contains(tenths)) {
            let (_, row) = solute.rows().find(|(printed, _)| *printed >= tenths).expect("none is above the highest");
            let tenths = i32::from(tenths);
            let card = Card { kind: 1, state: SOLUTION, cas: solute.cas, tenths, number: 1, ..Card::default() };
            sweep_rates(scenarios, card, row);
        }
    }
}

/// Every liquid at every temperature around the columns of B-4, whose lack of data is 10 here as well.
fn sweep_temperatures(scenarios: &mut Scenarios) {
    let liquids = printed().toxics().iter().filter(|toxic| matches!(toxic.phase, Phase::Liquid(_)));
    for toxic in liquids {
        for tenths in (-502..-497).chain(240..=510).chain(2_998..3_003) {
            let card = Card { kind: 1, state: 4, ground: 2, cas: toxic.cas, pounds: 1, tenths, ..Card::default() };
            scenarios.compare_as_ever(&card.bytes(), 500_000, 10);
        }
    }
}

/// A field set to something, right or wrong.
type Change = fn(&mut Card);

const CHANGES: [Change; 46] = [
    |_| {},
    |card| card.kind = 0,
    |card| card.kind = 2,
    |card| card.kind = 3,
    |card| card.kind = 255,
    |card| card.state = 0,
    |card| card.state = 1,
    |card| card.state = 2,
    |card| card.state = 3,
    |card| card.state = 4,
    |card| card.state = 5,
    |card| card.state = 6,
    |card| card.state = 255,
    |card| card.ground = 0,
    |card| card.ground = 3,
    |card| card.containment = 0,
    |card| card.containment = 1,
    |card| card.containment = 2,
    |card| card.containment = 3,
    |card| card.containment = 4,
    |card| card.cas = 1,
    |card| card.cas = 74_986,
    |card| card.cas = 814_686,
    |card| card.cas = 7_664_417,
    |card| card.cas = 7_697_372,
    |card| card.cas = 7_782_505,
    |card| card.cas = 8_014_957,
    |card| card.pounds = 0,
    |card| card.pounds = MAX_POUNDS,
    |card| card.pounds = MAX_POUNDS + 1,
    |card| card.area = 0,
    |card| card.area = 1,
    |card| card.area = MAX_AREA,
    |card| card.area = MAX_AREA + 1,
    |card| card.wall = 0,
    |card| card.wall = MAX_WALL,
    |card| card.wall = MAX_WALL + 1,
    |card| card.tenths = 0,
    |card| card.tenths = 275,
    |card| card.tenths = 300,
    |card| card.tenths = 381,
    |card| card.tenths = -501,
    |card| card.tenths = 3_001,
    |card| card.tenths = -1,
    |card| card.number = 0,
    |card| card.number = u32::MAX,
];

/// Sound cards, a flammable one among them, with one fault or two, and with what is supplied right or wrong.
fn sweep_faults(scenarios: &mut Scenarios) {
    const SUPPLIED: [(u64, u32); 11] = [
        (500_000, 10),
        (500_000, u32::MAX),
        (1, 1),
        (MAX_RATE, 11),
        (0, 10),
        (MAX_RATE + 1, 10),
        (u64::MAX, u32::MAX),
        (1, 0),
        (MAX_RATE, 0),
        (0, 0),
        (MAX_RATE + 1, 0),
    ];
    let chlorine = Card { kind: 1, state: 2, ground: 2, cas: 7_782_505, pounds: 2_500, number: 1, ..Card::default() };
    let dike = Card { containment: 1, area: 100, wall: 400, ..chlorine };
    let bromine = Card { state: 4, cas: 7_726_956, tenths: 250, ..dike };
    let acid = Card { state: SOLUTION, cas: 7_647_010, tenths: 370, ..dike };
    let propane = Card { kind: 2, cas: 74_986, pounds: 10_000, number: 1, ..Card::default() };
    for card in [chlorine, bromine, acid, propane] {
        for (one, other) in CHANGES.iter().flat_map(|one| CHANGES.iter().map(move |other| (one, other))) {
            let mut card = card;
            one(&mut card);
            other(&mut card);
            for (rate, minutes) in SUPPLIED {
                scenarios.compare_as_ever(&card.bytes(), rate, minutes);
            }
        }
    }
}

/// A random card, and for it a random rate and duration.
fn random_query(scenarios: &mut Scenarios) {
    let (card, rate, minutes) = any_query(&mut scenarios.rng);
    scenarios.compare_as_ever(&card, rate, minutes);
}

fn any_query(rng: &mut Rng) -> ([u8; CARD_LEN], u64, u32) {
    let card = any_card(rng);
    let endpoint = printed().toxic(card.cas).map_or(1_000, |toxic| toxic.endpoint);
    let rate = match rng.below(20) {
        0 => *rng.pick(&[0, 1, MAX_RATE, MAX_RATE + 1, u64::MAX, 1 << 32, 1 << 63]),
        1 => rng.bits() >> rng.below(64),
        2..8 => any_edge(rng, endpoint),
        _ => u64::from(rng.any_size(MAX_RATE as u32)),
    };
    let minutes = match rng.below(20) {
        0 => 0,
        1 => rng.bits() as u32,
        _ => *rng.pick(&[1, 9, 10, 11, 60, 156, 1 << 16, u32::MAX]),
    };
    let mut bytes = card.bytes();
    if rng.one_in(10) {
        bytes[rng.below(CARD_LEN as u64) as usize] ^= 1 << rng.below(8);
    }
    (bytes, rate, minutes)
}

/// A rate at or near a row of a table or a bound of its ranges.
fn any_edge(rng: &mut Rng, endpoint: u64) -> u64 {
    let tables = printed().alternative();
    let edge = match rng.below(3) {
        0 => {
            let table = rng.pick(tables.neutral());
            reaching(*rng.pick(table.bounds()), endpoint)
        }
        1 => *rng.pick(tables.dense()[0].rates()),
        _ => {
            let table = rng.pick(tables.specific());
            *rng.pick(table.rates())
        }
    };
    u64::from(rng.near(edge, MAX_RATE as u32))
}

/// A card that is sound as often as it has a fault, most of them toxic.
fn any_card(rng: &mut Rng) -> Card {
    let mut cards = match rng.below(10) {
        0 => samples::sound_cards(rng, 1),
        1 | 2 => samples::cards_with_solutions(rng, 1),
        _ => samples::cards_with_sheds(rng, 1),
    };
    if rng.one_in(2) {
        spoil(rng, &mut cards);
    }
    if rng.one_in(8) {
        spoil(rng, &mut cards);
    }
    cards[0]
}
