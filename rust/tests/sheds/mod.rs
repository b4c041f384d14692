//! Sheds with doors, by the proved library and by the reference.
//!
//! Every toxic substance stands in a shed with doors and, as a register of its own, in a building: so it is counted what
//! the building's factors make of the same card. A third opinion is a card that is in neither and has to be answered like
//! the shed's. Then come all codes of byte 3, gases about the last row of their table, random registers in which the four
//! containments are mixed, and sheds with more in them or a larger floor, whose rings may not be shorter.

use crate::{random_case_of_sheds, Comparison, Refusals, LEAST_OF_EACH, SEED};
use rings_second::reference::printed::{printed, Toxic};
use rings_second::reference::{Refused, ANSWER_LEN};
use rings_second::samples::{self, cards_of, Card, Rng};
use rings_second::samples::{BUILDING, MAX_AREA, MAX_POUNDS, MAX_WALL, SHED_WITH_DOORS, SOLUTION};
use std::collections::BTreeMap;

const REGISTERS: usize = 250_000;
const PAIRS: usize = 60_000;

const LEAST_WITH_SHEDS: usize = 400_000;
/// Of cases that few cards can be.
const LEAST_OF_SELDOM: usize = 10;

/// The refusals that no shed is answered with: 12 and 13 are of comma lines alone, 17 and 18 of likely scenarios, 19 and 20 of
/// edits, and a wall is 6, whatever its height.
const NOT_OF_SHEDS: [usize; 7] = [12, 13, 14, 17, 18, 19, 20];

#[test]
fn sheds_with_doors_agree() {
    let mut sheds = Sheds::new(SEED);
    side_by_side(&mut sheds);
    codes_of_byte_3(&mut sheds);
    about_the_last_row(&mut sheds);
    for _ in 0..REGISTERS {
        let (register, buffer_len) = random_case_of_sheds(&mut sheds.comparison.rng);
        sheds.compare(&register, buffer_len);
    }
    rings_that_are_ordered(&mut sheds);
    sheds.report();
}

/// What both answer for a card.
#[derive(Debug, Clone, Copy, PartialEq, Eq)]
pub struct Answer {
    pub route: u8,
    table: u8,
    /// Thousandths of a pound per minute.
    pub rate: u64,
    /// Hundredths of a mile.
    miles: u16,
}

impl Answer {
    pub fn read(bytes: &[u8]) -> Self {
        let rate = u64::from_be_bytes(bytes[6..14].try_into().expect("eight bytes"));
        Answer { route: bytes[4], table: bytes[5], rate, miles: u16::from_be_bytes([bytes[14], bytes[15]]) }
    }

    /// Whether two are found by the same route and table.
    pub fn is_read_like(&self, other: &Self) -> bool {
        (self.route, self.table) == (other.route, other.table)
    }
}

/// Compares registers one by one and counts what it met of sheds with doors.
struct Sheds {
    comparison: Comparison,
    /// Registers with a toxic card in containment 3, and those of them that were accepted.
    registers: usize,
    accepted: usize,
    /// Refused as a whole or for such a card, and refused for another card.
    refused: Refusals,
    refused_for_another: usize,
    /// Accepted cards in containment 3, by state and route, by ground and by table.
    routes: BTreeMap<(u8, u8), usize>,
    grounds: BTreeMap<u8, usize>,
    tables: BTreeMap<u8, usize>,
    beside: Beside,
    ordered: Ordered,
}

impl Sheds {
    fn new(seed: u64) -> Self {
        Sheds {
            comparison: Comparison::new(seed),
            registers: 0,
            accepted: 0,
            refused: Refusals::default(),
            refused_for_another: 0,
            routes: BTreeMap::new(),
            grounds: BTreeMap::new(),
            tables: BTreeMap::new(),
            beside: Beside::default(),
            ordered: Ordered::default(),
        }
    }

    fn compare(&mut self, register: &[u8], buffer_len: usize) -> Option<Refused> {
        let refused = self.comparison.compare(register, buffer_len);
        let cards = cards_of(register).enumerate();
        let sheds: Vec<(usize, &[u8])> = cards.filter(|(_, card)| card[0] == 1 && card[3] == SHED_WITH_DOORS).collect();
        if !sheds.is_empty() {
            self.registers += 1;
            self.count(refused, &sheds);
        }
        refused
    }

    /// Counts a register with sheds at these places.
    fn count(&mut self, refused: Option<Refused>, sheds: &[(usize, &[u8])]) {
        let is_shed = |place: u64| sheds.iter().any(|(at, _)| *at as u64 == place);
        match refused {
            None => {
                self.accepted += 1;
                sheds.iter().for_each(|(place, card)| self.count_card(*place, card));
            }
            Some(Refused { number: 5.., place }) if !is_shed(place) => self.refused_for_another += 1,
            Some(Refused { number, .. }) => self.refused[usize::from(number)] += 1,
        }
    }

    fn count_card(&mut self, place: usize, card: &[u8]) {
        let answer = Answer::read(&self.comparison.answers.ours()[place * ANSWER_LEN..]);
        *self.routes.entry((card[1], answer.route)).or_default() += 1;
        *self.grounds.entry(card[2]).or_default() += 1;
        *self.tables.entry(answer.table).or_default() += 1;
    }

    /// The answer of a card alone, or the number of its refusal.
    fn answer(&mut self, card: Card) -> Result<Answer, u8> {
        match self.compare(&samples::register(&[card]), ANSWER_LEN) {
            Some(Refused { number, .. }) => Err(number),
            None => Ok(Answer::read(self.comparison.answers.ours())),
        }
    }

    fn report(&self) {
        let Comparison { accepted, refused, .. } = &self.comparison;
        let compared = accepted + refused.iter().sum::<usize>();
        println!("{compared} registers compared for sheds with doors");
        println!("{} registers with sheds with doors, {} accepted", self.registers, self.accepted);
        assert!(self.registers >= LEAST_WITH_SHEDS, "too few registers had sheds with doors");
        assert!(self.accepted * 4 >= self.registers, "too few registers with sheds with doors were accepted");
        println!("refused for a card beside a shed with doors: {}", self.refused_for_another);
        crate::report_refusals("sheds with doors refused", &self.refused, NOT_OF_SHEDS);
        self.report_cards();
        self.beside.report();
        self.ordered.report();
    }

    fn report_cards(&self) {
        for ((state, route), met) in &self.routes {
            println!("sheds with doors in state {state} by route {route}: {met} cards");
        }
        for (ground, met) in &self.grounds {
            println!("sheds with doors on ground {ground}: {met} cards");
        }
        for (table, met) in &self.tables {
            println!("sheds with doors answered from Table {table:2}: {met} cards");
        }
        // A gas by route 1 and a pool by route 2, and by no other.
        assert!(self.routes.keys().eq(&[(1, 1), (2, 1), (3, 1), (4, 2), (5, 2)]));
        assert!(self.grounds.keys().eq(&[1, 2]) && self.tables.keys().copied().eq(1..=12));
        for met in self.routes.values().chain(self.grounds.values()).chain(self.tables.values()) {
            assert!(*met >= LEAST_OF_EACH, "a case of sheds with doors was met too seldom");
        }
    }
}

/// Prints how often cases were met, each often enough.
fn report_each(what: &str, cases: &[(&str, usize)], least: usize) {
    for (case, met) in cases {
        println!("{what} {case}: {met}");
        assert!(*met >= least, "{what} {case} were met too seldom");
    }
}

// The same card in a building and in a shed with doors.

/// What was met of cards side by side.
#[derive(Default)]
struct Beside {
    /// Refused both, with the same number.
    refused: Refusals,
    /// Accepted in the building, and beyond the table in the shed.
    beyond: usize,
    /// Accepted both, and of these a gas, a pool that would cover more than the floor, and one that would not.
    accepted: usize,
    gases: usize,
    on_floor: usize,
    on_full_area: usize,
    /// Answered otherwise in the shed, by state; and these of them: from another table, with a longer ring.
    otherwise: BTreeMap<u8, usize>,
    other_table: usize,
    longer: usize,
    /// From the same table with a longer ring in the shed: no building is a counterpart of a shed.
    longer_by_table: usize,
    /// The rates are so small that both are rounded up to the same.
    same: usize,
    /// Answered like a card in the open, and like one in a dike that holds it.
    like_open: usize,
    like_dike: usize,
}

impl Beside {
    fn count(&mut self, state: u8, building: Answer, shed: Answer) {
        self.accepted += 1;
        *self.otherwise.entry(state).or_default() += usize::from(shed != building);
        self.other_table += usize::from(shed.table != building.table);
        self.longer += usize::from(shed.miles > building.miles);
        self.longer_by_table += usize::from(shed.miles > building.miles && shed.table == building.table);
        self.same += usize::from(shed == building);
    }

    fn report(&self) {
        for (number, met) in self.refused.iter().enumerate().filter(|(_, met)| **met > 0) {
            println!("side by side, both refused {number:2}: {met}");
        }
        for number in [6, 7, 9, 10] {
            assert!(self.refused[number] >= LEAST_OF_EACH, "both refused {number} were met too seldom");
        }
        for (state, met) in &self.otherwise {
            println!("side by side, answered otherwise in the shed, in state {state}: {met}");
        }
        assert!(self.otherwise.keys().copied().eq(1..=5) && self.otherwise.values().all(|met| *met >= LEAST_OF_EACH));
        let cases = [
            ("both accepted", self.accepted),
            ("as gases", self.gases),
            ("as pools on all of the floor", self.on_floor),
            ("as pools of their full area", self.on_full_area),
            ("with a longer ring in the shed", self.longer),
            ("with a longer ring in the shed, from the same table", self.longer_by_table),
            ("the shed like a card in the open", self.like_open),
            ("the shed like a card in a dike that holds it", self.like_dike),
        ];
        report_each("side by side,", &cases, LEAST_OF_EACH);
        let seldom = [
            ("from another table in the shed", self.other_table),
            ("the same, at a rate that is rounded up", self.same),
            ("beyond the table in the shed alone", self.beyond),
        ];
        report_each("side by side,", &seldom, LEAST_OF_SELDOM);
    }
}

/// Every toxic substance in each state, on both grounds, in a building and in a shed with doors.
fn side_by_side(sheds: &mut Sheds) {
    for (frame, density_factor) in frames() {
        for pounds in quantities(&mut sheds.comparison.rng) {
            let full = FullArea { hundredths: u64::from(pounds) * density_factor };
            for (area, wall) in full.floors() {
                for ground in 1..=2 {
                    compare_side_by_side(sheds, Card { pounds, ground, area, wall, ..frame }, full);
                }
            }
        }
    }
}

/// Pounds whose full area is whole square feet, and any.
fn quantities(rng: &mut Rng) -> impl Iterator<Item = u32> {
    const WHOLE: [u32; 5] = [100, 2_300, 20_000, 400_000, MAX_POUNDS];
    let any: [u32; 7] = std::array::from_fn(|_| rng.any_size(MAX_POUNDS));
    WHOLE.into_iter().chain(any)
}

/// The full area of a card.
#[derive(Clone, Copy)]
struct FullArea {
    hundredths: u64,
}

impl FullArea {
    /// Floors at it and a square foot beside it, far below it, and at the ends of their range and beyond, each without a
    /// wall; some with one.
    fn floors(self) -> [(u32, u16); 11] {
        let feet = (self.hundredths / 100) as u32;
        [
            (0, 0),
            (1, 0),
            (feet / 7, 0),
            (feet.saturating_sub(1), 0),
            (feet, 0),
            (feet + 1, 0),
            (MAX_AREA, 0),
            (MAX_AREA + 1, 0),
            (0, 1),
            (feet, MAX_WALL),
            (MAX_AREA + 1, MAX_WALL + 1),
        ]
    }

    /// Whether a pool of it would cover more than a floor.
    fn is_above(self, floor: u32) -> bool {
        self.hundredths > 100 * u64::from(floor)
    }

    /// Whether a pool of it, 0.033 feet deep, is held by a wall of a hundred feet around a floor.
    fn is_held_on(self, floor: u32) -> bool {
        self.hundredths * 33 <= u64::from(floor) * 100 * 100_000
    }
}

/// Cards of every toxic substance in each state, whether or not it suits the substance, each with the DF that is read.
/// Liquids are at temperatures of different factors, solutions at each printed concentration.
fn frames() -> Vec<(Card, u64)> {
    const PURE: [(u8, i32); 6] = [(1, 0), (2, 0), (3, 0), (4, 250), (4, 300), (4, 501)];
    let frame = |row: &Toxic, state, tenths| {
        let card = Card { kind: 1, state, cas: row.cas, tenths, number: 1, ..Card::default() };
        (card, row.density_factor)
    };
    let mut frames = Vec::new();
    for toxic in printed().toxics() {
        frames.extend(PURE.map(|(state, tenths)| frame(toxic, state, tenths)));
        if printed().solute(toxic.cas).is_none() {
            frames.push(frame(toxic, SOLUTION, 100));
        }
    }
    for solute in printed().solutes() {
        frames.extend(solute.rows().map(|(tenths, row)| frame(row, SOLUTION, i32::from(tenths))));
        if printed().toxic(solute.cas).is_none() {
            let (_, row) = crate::highest_row(solute);
            frames.extend(PURE.map(|(state, tenths)| frame(row, state, tenths)));
        }
    }
    frames
}

/// A card in a building and in a shed with doors. Both are refused alike, but the shed may be beyond its table by itself.
fn compare_side_by_side(sheds: &mut Sheds, card: Card, full: FullArea) {
    let building = sheds.answer(Card { containment: BUILDING, ..card });
    let shed = sheds.answer(Card { containment: SHED_WITH_DOORS, ..card });
    match (building, shed) {
        (Ok(building), Ok(shed)) => {
            assert!(is_lowered(building, shed), "{card:?} in a building: {building:?}, in a shed with doors: {shed:?}");
            sheds.beside.count(card.state, building, shed);
            compare_without_shed(sheds, card, full, shed);
        }
        (Ok(_), Err(11)) => sheds.beside.beyond += 1,
        (Err(number), Err(other)) if number == other => sheds.beside.refused[usize::from(number)] += 1,
        _ => panic!("{card:?} in a building: {building:?}, in a shed with doors: {shed:?}"),
    }
}

/// Whether the building's factor lies between two rates: 0.55 for a gas, whose rates are exact, and 0.1 for a pool, where a
/// tenth of the exact rate and of the one rounded up are rounded up to the same.
fn is_lowered(building: Answer, shed: Answer) -> bool {
    building.route == shed.route
        && match shed.route {
            1 => building.rate * 100 == shed.rate * 55,
            _ => building.rate == shed.rate.div_ceil(10),
        }
}

/// A card in no shed that has to be answered like the one in it: in the open, where nothing lowers a rate either, or, if its
/// pool would cover more than the floor, in a dike of that area whose wall holds it.
fn compare_without_shed(sheds: &mut Sheds, card: Card, full: FullArea, shed: Answer) {
    let is_gas = card.state <= 3;
    let on_floor = !is_gas && full.is_above(card.area);
    sheds.beside.gases += usize::from(is_gas);
    sheds.beside.on_floor += usize::from(on_floor);
    sheds.beside.on_full_area += usize::from(!is_gas && !on_floor);
    let without_shed = match on_floor {
        false => Card { containment: 0, area: 0, ..card },
        true if full.is_held_on(card.area) => Card { containment: 1, wall: MAX_WALL, ..card },
        true => return,
    };
    assert_eq!(sheds.answer(without_shed), Ok(shed), "a shed with doors, and {without_shed:?}");
    sheds.beside.like_open += usize::from(!on_floor);
    sheds.beside.like_dike += usize::from(on_floor);
}

// Byte 3.

/// Every code on a card of each state and on a flammable one, with areas and walls that suit some of them: none above 3 is
/// anything but 6 on a toxic card, and none but 0 on a flammable one.
fn codes_of_byte_3(sheds: &mut Sheds) {
    const FIELDS: [(u32, u16); 6] = [(0, 0), (100, 0), (100, 1), (0, 1), (MAX_AREA, 0), (MAX_AREA + 1, 0)];
    const CARDS: [(u8, u8, u8, u32, i32); 6] = [
        (1, 1, 2, 19_287_457, 0),
        (1, 2, 1, 7_782_505, 0),
        (1, 3, 1, 7_664_417, 0),
        (1, 4, 2, 7_726_956, 250),
        (1, SOLUTION, 1, 7_647_010, 370),
        (2, 0, 0, 74_986, 0),
    ];
    for (kind, state, ground, cas, tenths) in CARDS {
        for (containment, (area, wall)) in (0..=u8::MAX).flat_map(|code| FIELDS.map(|fields| (code, fields))) {
            let card = Card { kind, state, ground, containment, cas, pounds: 10_000, area, wall, tenths, number: 1 };
            let result = sheds.answer(card);
            let is_listed = containment == 0 || kind == 1 && containment <= SHED_WITH_DOORS;
            assert!(is_listed || result == Err(6), "{card:?}: {result:?}");
        }
    }
}

// The last row.

/// Quantities of gases whose last entry is under 25 miles: ammonia in towns, by Table 10, and methyl chloride, by Tables 5
/// and 7. A tenth of them a minute is beyond the table from a pound above the last row on.
fn about_the_last_row(sheds: &mut Sheds) {
    const GASES: [(u32, u8, u8, u32); 5] = [
        (7_664_417, 1, 2, 7_500_000),
        (7_664_417, 3, 2, 7_500_000),
        (74_873, 1, 1, 2_000_000),
        (74_873, 2, 2, 2_000_000),
        (74_873, 3, 1, 2_000_000),
    ];
    for (cas, state, ground, last) in GASES {
        for pounds in last - 300..=last + 300 {
            let area = sheds.comparison.rng.any_size(MAX_AREA);
            let containment = SHED_WITH_DOORS;
            let card = Card { kind: 1, state, ground, containment, cas, pounds, area, number: 1, ..Card::default() };
            assert_eq!(sheds.answer(card).err(), (pounds > last).then_some(11), "{card:?}");
        }
    }
}

// Sheds with doors of which one has at least as much in it and at least as large a floor.

/// What was met of such pairs, if both were accepted.
#[derive(Default)]
struct Ordered {
    /// By the same route and table, by state.
    states: BTreeMap<u8, usize>,
    longer: usize,
    equal: usize,
    /// By another table, where the ring may be shorter.
    other_table: usize,
    other_table_shorter: usize,
}

impl Ordered {
    fn count(&mut self, state: u8, less: Answer, more: Answer) {
        if (less.route, less.table) != (more.route, more.table) {
            self.other_table += 1;
            self.other_table_shorter += usize::from(more.miles < less.miles);
            return;
        }
        *self.states.entry(state).or_default() += 1;
        self.longer += usize::from(more.miles > less.miles);
        self.equal += usize::from(more.miles == less.miles);
    }

    fn report(&self) {
        for (state, met) in &self.states {
            println!("sheds with doors that are ordered, in state {state}: {met} pairs");
        }
        assert!(self.states.keys().copied().eq(1..=5) && self.states.values().all(|met| *met >= LEAST_OF_EACH));
        let cases = [("with a longer ring", self.longer), ("with an equal ring", self.equal)];
        report_each("sheds with doors that are ordered,", &cases, LEAST_OF_EACH);
        let cases = [("met", self.other_table), ("with a shorter ring", self.other_table_shorter)];
        report_each("more in a shed with doors by another table,", &cases, LEAST_OF_SELDOM);
    }
}

/// By the same route and table, more in a shed and a larger floor never have the shorter ring.
fn rings_that_are_ordered(sheds: &mut Sheds) {
    for _ in 0..PAIRS {
        let card = samples::cards_with_sheds(&mut sheds.comparison.rng, 1)[0];
        let larger = with_more(&mut sheds.comparison.rng, card);
        let (Ok(less), Ok(more)) = (sheds.answer(card), sheds.answer(larger)) else {
            continue;
        };
        let same_table = (less.route, less.table) == (more.route, more.table);
        assert!(!same_table || more.miles >= less.miles, "{card:?}: {less:?}, and {larger:?}: {more:?}");
        sheds.ordered.count(card.state, less, more);
    }
}

/// The card with more pounds, a larger floor or both, by one or by any number that is in range.
fn with_more(rng: &mut Rng, card: Card) -> Card {
    let mut more = |least: u32, largest: u32| match rng.below(5) {
        0 => least,
        1 => least.saturating_add(1).min(largest),
        2 => least.saturating_mul(2).min(largest),
        _ => least + rng.any_size(largest) % (largest - least + 1),
    };
    Card { pounds: more(card.pounds, MAX_POUNDS), area: more(card.area, MAX_AREA), ..card }
}
