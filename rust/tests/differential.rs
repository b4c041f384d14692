//! The proved library and the reference, compared on registers made from a fixed seed.
//!
//! Every byte of the lent buffer, of the bytes around it and of the two farthest words is compared, on acceptance and
//! on refusal. Then each register is written as comma lines, with the same care, and the lines of an accepted one are
//! read back. The leaders after the first cards are compared in `prefixes`, on other registers made in the same ways,
//! sheds with doors beside buildings in `sheds`, blasts at every step of their rings in `blasts`, likely scenarios, card by
//! card, in `likely`, edits in `edits`, and the rings of days and of years in `days`. Each accepted card's rate is held to its
//! bound, and `rates` aims at the bounds. One register in three is of version 2 and one of version 3, and `versions` holds
//! both to the same cards in version 1.
//! Run with `cargo test --release --test differential -- --nocapture` to see the counts.

mod blasts;
mod days;
mod edits;
mod lent;
mod likely;
mod prefixes;
mod rates;
mod sheds;
mod versions;

use lent::{hex, Lent, READ_LINES, WRITE_LINES};
use rates::Rates;
use rings_second::proved;
use rings_second::reference::printed::{printed, Factor, Phase, Solute, Toxic};
use rings_second::reference::{self, Farthest, Refused, ANSWER_LEN, CARD_LEN, HEADER_LEN, MAX_CARDS, MAX_STRICT_LINE};
use rings_second::samples::seasons::wrong_season;
use rings_second::samples::{self, cards_of, farthest_distances, highest_concentration, plain_cards, Card, Rng};
use rings_second::samples::{BUILDING, MAX_AREA, MAX_POUNDS, MAX_WALL, SHED_WITH_DOORS, SOLUTION};
use std::collections::BTreeMap;
use versions::Versions;

const SEED: u64 = 0x0155_0b99_0009;
const RANDOM_REGISTERS: usize = 1_000_000;
/// Registers beside those, most of whose cards are solutions.
const REGISTERS_OF_SOLUTIONS: usize = 250_000;
const LEAST_OF_EACH: usize = 1_000;
const LEAST_WITH_SOLUTIONS: usize = 400_000;

/// How often each refusal was met, by its number.
type Refusals = [usize; 22];

/// The refusals that a register is never answered with: they are of comma lines alone, of likely scenarios, or of edits.
const NOT_OF_ANSWERS: [usize; 6] = [12, 13, 17, 18, 19, 20];
/// The refusals that a register is never written with: the writer has neither an answer buffer nor a line to read, nor is
/// it supplied with a rate or an edit, and no season stands in version 1.
const NOT_OF_WRITING: [usize; 7] = [4, 12, 17, 18, 19, 20, 21];

#[test]
fn the_proved_library_and_the_reference_agree() {
    let mut comparison = Comparison::new(SEED);
    sweep_toxics(&mut comparison);
    sweep_temperatures(&mut comparison);
    sweep_ranges(&mut comparison);
    sweep_solutions(&mut comparison);
    for _ in 0..RANDOM_REGISTERS {
        let (register, buffer_len) = random_case(&mut comparison.rng);
        comparison.compare(&register, buffer_len);
    }
    for _ in 0..REGISTERS_OF_SOLUTIONS {
        let (register, buffer_len) = random_case_of_solutions(&mut comparison.rng);
        comparison.compare(&register, buffer_len);
    }
    comparison.report();
}

/// The typed call says the same as the words: a few thousand registers show each of its cases.
#[test]
fn the_typed_call_agrees_too() {
    let mut rng = Rng::new(SEED);
    for _ in 0..10_000 {
        let (register, buffer_len) = random_case(&mut rng);
        let (mut ours, mut theirs) = (vec![0; buffer_len], vec![0; buffer_len]);
        assert_eq!(
            reference::answer(&register, &mut ours),
            proved::answer(&register, &mut theirs),
            "the register is {}",
            hex(&register)
        );
        assert_eq!(ours, theirs);
    }
}

/// Compares registers one by one and counts what it met.
struct Comparison {
    rng: Rng,
    answers: Lent,
    accepted: usize,
    refused: Refusals,
    routes: [usize; 4],
    /// By table, and at 0 by Equation C-1.
    tables: [usize; 13],
    /// Accepted toxic cards by containment.
    held: [usize; 4],
    solutions: Solutions,
    lines: Lines,
    rates: Rates,
    versions: Versions,
}

impl Comparison {
    fn new(seed: u64) -> Self {
        Comparison {
            rng: Rng::new(seed),
            answers: Lent::default(),
            accepted: 0,
            refused: Refusals::default(),
            routes: [0; 4],
            tables: [0; 13],
            held: [0; 4],
            solutions: Solutions::default(),
            lines: Lines::default(),
            rates: Rates::default(),
            versions: Versions::default(),
        }
    }

    /// Calls both with a buffer of a length, filled with the same random bytes, and panics where they differ. Gives the
    /// refusal, if both refused.
    fn compare(&mut self, register: &[u8], buffer_len: usize) -> Option<Refused> {
        self.answers.fill(&mut self.rng, buffer_len);
        let untouched = (self.rng.bits(), self.rng.bits());

        let ours = reference::answer(register, self.answers.ours());
        let expected = words(ours, untouched);

        let (mut toxic, mut flammable) = untouched;
        let code = proved::answer_words(register, self.answers.theirs(), &mut toxic, &mut flammable);
        let met = (code, toxic, flammable);

        if expected != met || self.answers.difference().is_some() {
            panic!(
                "they disagree on a buffer of {buffer_len} bytes and the register\n{}\n\
                 reference: {expected:x?} ({ours:?})\nproved:    {met:x?}\n\
                 first byte that differs (0 is the buffer's first): {:?}\n",
                hex(register),
                self.answers.difference(),
            );
        }
        self.count(ours.err(), register);
        self.solutions.count(ours.err(), register);
        self.versions.hold(register, self.answers.theirs(), met, untouched);
        let written = self.lines.compare(&mut self.rng, register);
        let is_to_be_written = ours.is_ok() && versions::version(register) == Some(1);
        assert!(written || !is_to_be_written, "an accepted register was not written: {}", hex(register));
        ours.err()
    }

    fn count(&mut self, refused: Option<Refused>, register: &[u8]) {
        match refused {
            Some(Refused { number, .. }) => self.refused[usize::from(number)] += 1,
            None => {
                self.accepted += 1;
                for (card, answer) in cards_of(register).zip(self.answers.theirs().chunks_exact(ANSWER_LEN)) {
                    self.routes[usize::from(answer[4])] += 1;
                    self.tables[usize::from(answer[5])] += 1;
                    self.held[usize::from(card[3])] += usize::from(card[0] == 1);
                    self.rates.hold(&card[..CARD_LEN], answer);
                    let answer = answer.try_into().expect("sixteen bytes");
                    assert!(!reference::is_old(answer) && !proved::is_old(answer), "an old answer: {}", hex(answer));
                }
            }
        }
    }

    fn report(&self) {
        let registers = self.accepted + self.refused.iter().sum::<usize>();
        println!("{registers} registers compared, {} accepted", self.accepted);
        report_refusals("refused", &self.refused, NOT_OF_ANSWERS);
        for (route, met) in self.routes.iter().enumerate().skip(1) {
            println!("answered by route {route}: {met} cards");
        }
        for (table, met) in self.tables.iter().enumerate().skip(1) {
            println!("answered from Table {table:2}: {met} cards");
        }
        println!("answered by Equation C-1: {} cards", self.tables[0]);
        for (containment, met) in self.held.iter().enumerate() {
            println!("answered in containment {containment}: {met} toxic cards");
        }
        assert!(registers >= RANDOM_REGISTERS);
        assert!(self.accepted * 4 >= registers, "too few registers were accepted");
        for met in self.routes[1..].iter().chain(&self.tables).chain(&self.held) {
            assert!(*met >= LEAST_OF_EACH, "a case was met too seldom");
        }
        self.solutions.report();
        self.lines.report();
        self.rates.report();
        self.versions.report();
    }
}

/// What was met of solutions.
#[derive(Default)]
struct Solutions {
    /// Registers with a card in state 5, and those of them that were accepted.
    registers: usize,
    accepted: usize,
    refused: Refusals,
    /// Accepted cards by the row of B-3 that they read: its CAS number and its concentration.
    rows: BTreeMap<(u32, u16), usize>,
    /// Accepted cards by ground and containment.
    held: BTreeMap<(u8, u8), usize>,
}

impl Solutions {
    fn count(&mut self, refused: Option<Refused>, register: &[u8]) {
        let solutions: Vec<&[u8]> = cards_of(register).filter(|card| card[..2] == [1, SOLUTION]).collect();
        if solutions.is_empty() {
            return;
        }
        self.registers += 1;
        match refused {
            Some(Refused { number, .. }) => self.refused[usize::from(number)] += 1,
            None => {
                self.accepted += 1;
                solutions.into_iter().for_each(|card| self.count_card(card));
            }
        }
    }

    fn count_card(&mut self, card: &[u8]) {
        let cas = u32::from_be_bytes([card[4], card[5], card[6], card[7]]);
        let tenths = u16::from_be_bytes([card[18], card[19]]);
        let solute = printed().solute(cas).expect("an accepted solution is of B-3");
        let concentrations = solute.rows().map(|(printed, _)| printed);
        let row = concentrations.filter(|printed| *printed >= tenths).min().expect("not above the highest");
        *self.rows.entry((cas, row)).or_default() += 1;
        *self.held.entry((card[2], card[3])).or_default() += 1;
    }

    fn report(&self) {
        println!("{} registers with solutions, {} accepted", self.registers, self.accepted);
        for (number, met) in self.refused.iter().enumerate().filter(|(_, met)| **met > 0) {
            println!("with solutions and refused {number:2}: {met}");
        }
        for ((cas, tenths), met) in &self.rows {
            println!("solutions of {cas} read at {}.{} %: {met} cards", tenths / 10, tenths % 10);
        }
        for ((ground, containment), met) in &self.held {
            println!("solutions on ground {ground} in containment {containment}: {met} cards");
        }
        assert!(self.registers >= LEAST_WITH_SOLUTIONS, "too few registers had solutions");
        assert!(self.accepted * 4 >= self.registers, "too few registers with solutions were accepted");
        let printed_rows: usize = printed().solutes().iter().map(|solute| solute.rows().count()).sum();
        assert_eq!((self.rows.len(), self.held.len()), (printed_rows, 2 * 4), "each row, each way to hold one");
        for met in self.rows.values().chain(self.held.values()).chain([&self.refused[7], &self.refused[16]]) {
            assert!(*met >= LEAST_OF_EACH, "a case of solutions was met too seldom");
        }
    }
}

/// Compares registers as they are written in comma lines, and counts what it met.
#[derive(Default)]
struct Lines {
    text: Lent,
    read_back: Lent,
    /// Room for the lines of any register.
    scratch: Vec<u8>,
    exact: usize,
    longer: usize,
    short_by_one: usize,
    shorter: usize,
    refused: Refusals,
    round_trips: usize,
}

impl Lines {
    /// An accepted register is written where there is room, read back, and written where there is too little; any other
    /// is handed in with any room. Gives whether it was accepted.
    fn compare(&mut self, rng: &mut Rng, register: &[u8]) -> bool {
        self.scratch.resize(MAX_CARDS * MAX_STRICT_LINE, 0);
        let Ok(length) = reference::write_lines(register, &mut self.scratch) else {
            let room = *rng.pick(&[0, 1, 41, 100, 200]);
            self.compare_writing(rng, register, room);
            return false;
        };
        let longer = length + 1 + rng.below(40) as usize;
        let room = *rng.pick(&[length, longer]);
        self.exact += usize::from(room == length);
        self.longer += usize::from(room > length);
        self.compare_writing(rng, register, room);
        self.compare_reading_back(rng, register, length);
        if length > 0 && rng.one_in(4) {
            let shorter = rng.below(length as u64) as usize;
            let room = *rng.pick(&[length - 1, shorter]);
            self.short_by_one += usize::from(room == length - 1);
            self.shorter += usize::from(room < length - 1);
            self.compare_writing(rng, register, room);
        }
        true
    }

    fn compare_writing(&mut self, rng: &mut Rng, register: &[u8], room: usize) {
        if let Err(Refused { number, .. }) = self.text.compare(rng, &WRITE_LINES, register, room) {
            self.refused[usize::from(number)] += 1;
        }
    }

    /// The lines that the proved library has just written are read into the register they came from.
    fn compare_reading_back(&mut self, rng: &mut Rng, register: &[u8], length: usize) {
        let room = register.len() + *rng.pick(&[0, 0, 1, 24]);
        let text = &self.text.theirs()[..length];
        let read = self.read_back.compare(rng, &READ_LINES, text, room);
        assert_eq!(read, Ok(register.len()), "the lines of the register {}", hex(register));
        assert_eq!(&self.read_back.theirs()[..register.len()], register);
        self.round_trips += 1;
    }

    fn report(&self) {
        println!("{} registers written as comma lines and read back", self.round_trips);
        let Lines { exact, longer, short_by_one, shorter, .. } = self;
        println!("written into exact buffers: {exact}, into longer ones: {longer}");
        println!("not written into buffers short by one: {short_by_one}, into shorter ones: {shorter}");
        report_refusals("lines refused", &self.refused, NOT_OF_WRITING);
        for met in [exact, longer, short_by_one, shorter] {
            assert!(*met >= LEAST_OF_EACH, "a case of the writer was met too seldom");
        }
    }
}

/// Prints how often each refusal was met: often enough, or never where the call does not give it.
fn report_refusals<const N: usize>(what: &str, refused: &Refusals, never: [usize; N]) {
    for (number, &met) in refused.iter().enumerate().skip(1) {
        println!("{what} {number:2}: {met}");
        let given = !never.contains(&number);
        assert!(if given { met >= LEAST_OF_EACH } else { met == 0 }, "{what} {number}: {met}");
    }
}

/// The three words of the C interface for a result: the returned one and both farthest words.
fn words(result: Result<reference::Accepted, Refused>, untouched: (u64, u64)) -> (u64, u64, u64) {
    let word = |farthest: Option<Farthest>| farthest.map_or(0, |f| u64::from(f.card) * 65_536 + u64::from(f.miles));
    match result {
        Ok(accepted) => (0, word(accepted.toxic), word(accepted.flammable)),
        Err(Refused { number, place }) => ((u64::from(number) << 32) + place, untouched.0, untouched.1),
    }
}

// The sweeps: one card a register, each combination of codes.

/// Every toxic substance in every state, ground and containment, at quantities of all sizes.
fn sweep_toxics(comparison: &mut Comparison) {
    const POUNDS: [u32; 8] = [1, 10, 155, 2_249, 20_000, 420_000, 2_000_010, MAX_POUNDS];
    for toxic in printed().toxics() {
        for code in 0..4 * 2 * 4 * POUNDS.len() {
            let (pounds, code) = (POUNDS[code % POUNDS.len()], code / POUNDS.len());
            let card = Card {
                kind: 1,
                state: 1 + (code % 4) as u8,
                ground: 1 + (code / 4 % 2) as u8,
                containment: (code / 8) as u8,
                cas: toxic.cas,
                pounds,
                number: 1,
                ..Card::default()
            };
            let card = contained(&mut comparison.rng, card, toxic);
            comparison.compare(&samples::register(&[card]), ANSWER_LEN);
        }
    }
}

/// The card with an area and a wall where it needs them, about as large as its pool.
fn contained(rng: &mut Rng, card: Card, toxic: &Toxic) -> Card {
    let full = u64::from(card.pounds) * toxic.density_factor / 100;
    let share = *rng.pick(&[1, 2, 50]);
    let area = rng.near(full / share, MAX_AREA);
    match card.containment {
        0 => card,
        1 => Card { area, wall: rng.any_size(300) as u16, ..card },
        _ => Card { area, ..card },
    }
}

/// Every liquid at every temperature around the columns of B-4.
fn sweep_temperatures(comparison: &mut Comparison) {
    for toxic in printed().toxics() {
        if matches!(toxic.phase, Phase::Gas { .. }) {
            continue;
        }
        for tenths in (-502..-497).chain(240..=510).chain(2_998..3_003) {
            let pounds = comparison.rng.any_size(MAX_POUNDS);
            let card =
                Card { kind: 1, state: 4, ground: 2, cas: toxic.cas, pounds, tenths, number: 1, ..Card::default() };
            comparison.compare(&samples::register(&[card]), ANSWER_LEN);
        }
    }
}

/// Areas, walls and temperatures at and beyond their ranges, two and three at once, beside pounds out of range before
/// them and behind them states and dikes that do not suit the substance.
fn sweep_ranges(comparison: &mut Comparison) {
    const SUBSTANCES: [u32; 2] = [7_726_956, 7_782_505];
    const AREAS: [u32; 4] = [0, 1, MAX_AREA, MAX_AREA + 1];
    const WALLS: [u16; 4] = [0, MAX_WALL, MAX_WALL + 1, u16::MAX];
    const TENTHS: [i32; 6] = [-32_768, -501, -500, 0, 3_000, 3_001];
    for code in 0..2 * 2 * 4 * 4 * 4 * 4 * 6 {
        let mut code = code;
        let mut next = |choices: usize| {
            let choice = code % choices;
            code /= choices;
            choice
        };
        let card = Card {
            kind: 1,
            state: 1 + next(4) as u8,
            ground: 1,
            containment: next(4) as u8,
            cas: SUBSTANCES[next(2)],
            pounds: next(2) as u32,
            area: AREAS[next(4)],
            wall: WALLS[next(4)],
            tenths: TENTHS[next(6)],
            number: 1,
        };
        comparison.compare(&samples::register(&[card]), ANSWER_LEN);
    }
}

/// Every substance of B-3 at, below and above every printed concentration, at concentrations of all sizes and at none, on
/// both grounds, held in every way, at quantities of all sizes; and the toxic substances that B-3 lacks.
fn sweep_solutions(comparison: &mut Comparison) {
    const POUNDS: [u32; 12] =
        [0, 1, 10, 155, 2_249, 20_000, 50_000, 420_000, 2_000_010, 9_999_999, MAX_POUNDS, MAX_POUNDS + 1];
    for solute in printed().solutes() {
        for tenths in telling_concentrations(solute) {
            let (_, row) = solute.rows().find(|(printed, _)| *printed >= tenths).unwrap_or_else(|| highest_row(solute));
            for pounds in POUNDS {
                sweep_holding(comparison, solution(solute.cas, tenths, pounds), row);
            }
        }
        // The same substance in the other states, with a concentration left standing and without.
        for (state, tenths) in (1..5).flat_map(|state| [(state, 0), (state, 370)]) {
            let card = Card { state, ..solution(solute.cas, tenths, 20_000) };
            sweep_holding(comparison, card, highest_row(solute).1);
        }
    }
    let lacking = printed().toxics().iter().filter(|toxic| printed().solute(toxic.cas).is_none());
    for toxic in lacking {
        for tenths in [0, 1, 370, u16::MAX] {
            sweep_holding(comparison, solution(toxic.cas, tenths, 20_000), toxic);
        }
    }
}

/// A card of a solution, numbered 1, whose ground and containment are not yet filled.
fn solution(cas: u32, tenths: u16, pounds: u32) -> Card {
    Card { kind: 1, state: SOLUTION, cas, pounds, tenths: i32::from(tenths), number: 1, ..Card::default() }
}

/// The printed concentrations, their neighbours, small ones, and those that no substance has.
fn telling_concentrations(solute: &Solute) -> Vec<u16> {
    let beside = solute.rows().flat_map(|(printed, _)| [printed - 1, printed, printed + 1]);
    let others = [0, 1, 2, 10, 100, 1_000, 1_001, 32_767, 32_768, 65_535];
    let mut tenths: Vec<u16> = beside.chain(others).collect();
    tenths.sort_unstable();
    tenths.dedup();
    tenths
}

fn highest_row(solute: &Solute) -> (u16, &Toxic) {
    solute.rows().last().expect("a printed concentration")
}

/// A card on both grounds and held in every way: in the open, in dikes with walls of all heights, in buildings and in sheds
/// with doors.
fn sweep_holding(comparison: &mut Comparison, card: Card, row: &Toxic) {
    let full = u64::from(card.pounds) * row.density_factor / 100;
    let small = (full / 5).clamp(1, u64::from(MAX_AREA)) as u32;
    // The wall that just holds the spill in the smaller dike, or the highest.
    let holding = (full * 33 / (10 * u64::from(small))).min(u64::from(MAX_WALL)) as u16;
    for ground in 1..=2 {
        let card = Card { ground, ..card };
        let mut compare = |card: Card| comparison.compare(&samples::register(&[card]), ANSWER_LEN);
        compare(card);
        for (area, wall) in [(small, 0), (small, 1), (small, holding), (small, MAX_WALL), (MAX_AREA, 1), (1, 5)] {
            compare(Card { containment: 1, area, wall, ..card });
        }
        compare(Card { containment: 1, area: small, wall: MAX_WALL + 1, ..card });
        for area in [0, 1, small, MAX_AREA, MAX_AREA + 1] {
            compare(Card { containment: BUILDING, area, ..card });
            compare(Card { containment: SHED_WITH_DOORS, area, ..card });
        }
    }
}

// Random registers, sound, faulty and damaged.

fn random_case(rng: &mut Rng) -> (Vec<u8>, usize) {
    let cards = random_cards(rng);
    case_of(rng, cards)
}

fn random_case_of_solutions(rng: &mut Rng) -> (Vec<u8>, usize) {
    let count = rng.between(1, 6) as usize;
    let cards = samples::cards_with_solutions(rng, count);
    case_of(rng, cards)
}

fn random_case_of_sheds(rng: &mut Rng) -> (Vec<u8>, usize) {
    let count = rng.between(1, 6) as usize;
    let cards = samples::cards_with_sheds(rng, count);
    case_of(rng, cards)
}

fn random_case_of_blasts(rng: &mut Rng) -> (Vec<u8>, usize) {
    let count = rng.between(1, 6) as usize;
    let cards = samples::cards_with_blasts(rng, count);
    case_of(rng, cards)
}

/// A register of sound cards, some of them spoiled and some of its bytes damaged, or none, and a length of buffer.
fn case_of(rng: &mut Rng, mut cards: Vec<Card>) -> (Vec<u8>, usize) {
    if rng.one_in(40) {
        cards.iter_mut().rev().zip(0..).for_each(|(card, back)| card.number = u32::MAX - back);
    }
    let mut buffer_len = ANSWER_LEN * cards.len();
    let plan = rng.below(100);
    if (50..88).contains(&plan) {
        spoil(rng, &mut cards);
        // A second fault, to see which is found first.
        if rng.one_in(4) {
            spoil(rng, &mut cards);
        }
    }
    let mut register = samples::register(&cards);
    if !rng.one_in(3) {
        register = in_later_version(rng, &register);
    }
    if plan >= 88 {
        damage(rng, &mut register);
    }
    match rng.below(20) {
        0 => buffer_len = buffer_len.saturating_sub(1 + rng.below(17) as usize),
        1 => buffer_len = rng.below(buffer_len as u64 + 1) as usize,
        2..8 => buffer_len += 1 + rng.below(40) as usize,
        _ => {}
    }
    (register, buffer_len)
}

/// The same cards in version 2 or, each in a season of its own, in version 3; with the right distances for the most part, and
/// seasons in range.
fn in_later_version(rng: &mut Rng, register: &[u8]) -> Vec<u8> {
    let mut distances = farthest_distances(register);
    if rng.one_in(5) {
        spoil_distances(rng, &mut distances);
    }
    if rng.one_in(2) {
        return samples::stored_register(&plain_cards(register), distances);
    }
    let mut cards = samples::seasonal_cards(rng, register);
    if !cards.is_empty() && rng.one_in(12) {
        let season = wrong_season(rng);
        let card = rng.pick_mut(&mut cards);
        *card = season.behind(card.first_chunk().expect("24 bytes"));
    }
    samples::seasonal_register(&cards, distances)
}

/// One of the two a little off, none, any, or both exchanged, which may leave them as they were.
fn spoil_distances(rng: &mut Rng, distances: &mut [u16; 2]) {
    let any = rng.bits() as u16;
    let wrong = rng.pick_mut(distances);
    match rng.below(7) {
        0 => *wrong = wrong.wrapping_add(1),
        1 => *wrong = wrong.wrapping_sub(1),
        2 => *wrong = 0,
        3 => *wrong ^= 1 << (any % 16),
        4 => *wrong = any,
        5 => *wrong = *rng.pick(&[1, 10, 2_500, u16::MAX]),
        _ => distances.swap(0, 1),
    }
}

fn random_cards(rng: &mut Rng) -> Vec<Card> {
    match rng.below(10_000) {
        // Long registers take only cards that are accepted alone, or hardly one of them would be.
        0..6 => {
            let count = *rng.pick(&[100, 700, MAX_CARDS - 1, MAX_CARDS]);
            samples::accepted_cards(rng, count)
        }
        6 => vec![samples::sound_cards(rng, 1)[0]; MAX_CARDS + 1 + rng.below(3) as usize],
        7..100 => {
            let count = rng.between(5, 40) as usize;
            samples::accepted_cards(rng, count)
        }
        100..400 => Vec::new(),
        _ => {
            let count = rng.between(1, 4) as usize;
            samples::sound_cards(rng, count)
        }
    }
}

/// One fault in one card, most of them of a single field.
fn spoil(rng: &mut Rng, cards: &mut [Card]) {
    if cards.is_empty() {
        return;
    }
    let place = rng.below(cards.len() as u64) as usize;
    let last_number = place.checked_sub(1).map_or(0, |before| cards[before].number);
    let card = &mut cards[place];
    match rng.below(7) {
        0 => card.number = *rng.pick(&[0, last_number, last_number.saturating_sub(1)]),
        1 => spoil_form(rng, card),
        2 => card.cas = other_substance(rng, card),
        3 => card.pounds = *rng.pick(&[0, MAX_POUNDS + 1, u32::MAX, 1 << 31]),
        4 => spoil_range(rng, card),
        5 => spoil_state(rng, card),
        _ => *card = beyond_the_table(rng, *card),
    }
}

/// A code that is not listed, or a field filled that must be zero.
fn spoil_form(rng: &mut Rng, card: &mut Card) {
    let code = *rng.pick(&[0, 1, 2, 3, 4, 5, 6, 255]);
    match rng.below(7) {
        0 => card.kind = code,
        1 => card.state = code,
        2 => card.ground = code,
        3 => card.containment = code,
        4 => card.area = rng.any_size(MAX_AREA),
        5 => card.wall = rng.any_size(u32::from(MAX_WALL)) as u16,
        _ => card.tenths = *rng.pick(&[1, -1, 250, -32_768]),
    }
}

/// A CAS number that is not listed, or that is listed for the other kind or for another state.
fn other_substance(rng: &mut Rng, card: &Card) -> u32 {
    match rng.below(6) {
        3 | 4 if card.state == SOLUTION => rng.pick(printed().toxics()).cas,
        4 if card.kind == 1 => rng.pick(printed().solutes()).cas,
        0 => card.cas.wrapping_add(1),
        1 => card.cas.wrapping_sub(1),
        2 => *rng.pick(&[0, 1, u32::MAX, 8_014_957]),
        3 => rng.bits() as u32,
        _ if card.kind == 1 => rng.pick(printed().flammables()).cas,
        _ => rng.pick(printed().toxics()).cas,
    }
}

/// An area, wall, temperature or concentration out of range, in a card that has the field.
fn spoil_range(rng: &mut Rng, card: &mut Card) {
    if card.kind != 1 {
        return;
    }
    match rng.below(3) {
        0 if card.containment != 0 => card.area = *rng.pick(&[0, MAX_AREA + 1, u32::MAX]),
        1 if card.containment == 1 => card.wall = *rng.pick(&[MAX_WALL + 1, u16::MAX]),
        _ if card.state == 4 => card.tenths = *rng.pick(&[-501, 3_001, -32_768, 32_767]),
        _ if card.state == SOLUTION => card.tenths = concentration_out_of_range(rng, card.cas),
        _ => {
            card.containment = 1;
            card.area = *rng.pick(&[0, 1, MAX_AREA, MAX_AREA + 1]);
            card.wall = *rng.pick(&[0, 1, MAX_WALL, MAX_WALL + 1]);
        }
    }
}

/// None, one above the highest that is printed for a substance, one that a signed number could not hold, or any.
fn concentration_out_of_range(rng: &mut Rng, cas: u32) -> i32 {
    let highest = printed().solute(cas).map_or(1_000, highest_concentration);
    let above = highest + 1 + rng.below(u64::from(u16::MAX - highest)) as u16;
    i32::from(*rng.pick(&[0, 0, highest + 1, highest + 1, 32_768, u16::MAX, above]))
}

/// A state that the substance or the dike does not admit, or a temperature without data.
fn spoil_state(rng: &mut Rng, card: &mut Card) {
    if card.kind != 1 {
        return;
    }
    if rng.one_in(3) {
        let without_data: Vec<u32> = printed()
            .toxics()
            .iter()
            .filter(|toxic| matches!(&toxic.phase, Phase::Liquid(factors) if factors.at(300) == Factor::NoData))
            .map(|toxic| toxic.cas)
            .collect();
        card.cas = *rng.pick(&without_data);
        card.state = 4;
        card.tenths = *rng.pick(&[274, 275, 325, 500, 501]);
        return;
    }
    card.state = rng.between(1, 5) as u8;
    if card.state < 4 {
        card.tenths = 0;
        if rng.one_in(4) {
            card.containment = 1;
            card.area = rng.any_size(MAX_AREA);
        }
    }
}

/// A quantity that is on or past the end of what the card's table can hold. A blast reads no table and stays sound: not even
/// where Table 13 ended is it refused.
fn beyond_the_table(rng: &mut Rng, card: Card) -> Card {
    if card.kind == 2 {
        let pounds = *rng.pick(&[2_000_000, 2_000_001, MAX_POUNDS]);
        return Card { pounds, ..card };
    }
    // Just above the last rows: 750,000 pounds a minute of ammonia, 200,000 of other dense gases.
    let pounds = *rng.pick(&[2_000_000, 2_000_010, 3_636_364, 7_500_000, 7_500_001, MAX_POUNDS]);
    // In the open, or in the largest shed with doors, which lowers no rate of a gas and few of a pool.
    let (containment, area) = *rng.pick(&[(0, 0), (0, 0), (SHED_WITH_DOORS, MAX_AREA)]);
    let card = Card { pounds, containment, area, wall: 0, ..card };
    let ammonia = rng.one_in(4);
    if ammonia {
        return Card { cas: 7_664_417, state: 3, tenths: 0, ..card };
    }
    card
}

/// Bytes changed, lost or added, sometimes with a length field that fits again.
fn damage(rng: &mut Rng, register: &mut Vec<u8>) {
    match rng.below(11) {
        0 => register.truncate(rng.below(register.len() as u64 + 1) as usize),
        1 => register.truncate(register.len().saturating_sub(1 + rng.below(24) as usize)),
        2 => {
            for _ in 0..=rng.below(30) {
                register.push(rng.bits() as u8);
            }
        }
        3 => register[..4].copy_from_slice(&(rng.bits() as u32 >> rng.below(32)).to_be_bytes()),
        4 | 5 => register[4] = *rng.pick(&[0, 1, 2, 3, 4, 5, 9, 128, 255]),
        6 => {
            let count = *rng.pick(&[0, 1, 2, 3, 2_000, 2_001, u16::MAX]);
            register[5..7].copy_from_slice(&count.to_be_bytes());
        }
        7 => *register = (0..rng.below(40)).map(|_| rng.bits() as u8).collect(),
        _ => {
            for _ in 0..=rng.below(3) {
                let place = rng.below(register.len() as u64) as usize;
                let flipped = register[place] ^ (1 << rng.below(8));
                register[place] = *rng.pick(&[0, 1, 2, 3, 255, flipped, flipped]);
            }
        }
    }
    if rng.one_in(2) && register.len() >= HEADER_LEN {
        let length = register.len() as u32;
        register[..4].copy_from_slice(&length.to_be_bytes());
    }
}
