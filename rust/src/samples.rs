//! Registers made from a seed, with quantities that fall on and around the edges of the printed tables and the steps of
//! blasts, and texts.

pub mod blasts;
pub mod edits;
pub mod lines;
pub mod seasons;

use crate::reference::printed::{printed, Factor, LiquidFactors, Phase, Plume, Solute, Toxic};
use crate::reference::{
    self, Accepted, Farthest, ANSWER_LEN, CARD_LEN, HEADER_LEN, SEASONAL_CARD_LEN, STORED_HEADER_LEN,
};
use seasons::Season;
use std::slice::ChunksExact;

/// The most pounds a card may have.
pub const MAX_POUNDS: u32 = 10_000_000;
/// The most square feet a card may have.
pub const MAX_AREA: u32 = 1_000_000;
/// The highest wall a card may have, in hundredths of a foot.
pub const MAX_WALL: u16 = 10_000;

/// The state of a solution.
pub const SOLUTION: u8 = 5;

/// The containment of a building, whose factors lower a rate.
pub const BUILDING: u8 = 2;
/// The containment of a shed with doors, a building without the factor.
pub const SHED_WITH_DOORS: u8 = 3;

/// Ammonia, chlorine and sulfur dioxide.
const WITH_OWN_TABLE: [u32; 3] = [7_664_417, 7_782_505, 7_446_095];

/// A generator of random numbers (splitmix64): small, and the same on every machine.
#[derive(Default)]
pub struct Rng(u64);

impl Rng {
    /// A generator that gives the same numbers for the same seed.
    pub fn new(seed: u64) -> Self {
        Rng(seed)
    }

    /// The next 64 random bits.
    pub fn bits(&mut self) -> u64 {
        self.0 = self.0.wrapping_add(0x9e37_79b9_7f4a_7c15);
        let z = (self.0 ^ (self.0 >> 30)).wrapping_mul(0xbf58_476d_1ce4_e5b9);
        let z = (z ^ (z >> 27)).wrapping_mul(0x94d0_49bb_1331_11eb);
        z ^ (z >> 31)
    }

    /// A number under `bound`, which is not zero.
    pub fn below(&mut self, bound: u64) -> u64 {
        self.bits() % bound
    }

    /// A number from `low` to `high`, both included.
    pub fn between(&mut self, low: i64, high: i64) -> i64 {
        low + self.below((high - low + 1) as u64) as i64
    }

    /// True once in `times`.
    pub fn one_in(&mut self, times: u64) -> bool {
        self.below(times) == 0
    }

    /// One of `choices`.
    pub fn pick<'c, T>(&mut self, choices: &'c [T]) -> &'c T {
        &choices[self.below(choices.len() as u64) as usize]
    }

    /// One of `choices`, to be changed.
    pub fn pick_mut<'c, T>(&mut self, choices: &'c mut [T]) -> &'c mut T {
        let place = self.below(choices.len() as u64) as usize;
        &mut choices[place]
    }

    /// A number from 1 to `largest`, small ones as likely as large ones.
    pub fn any_size(&mut self, largest: u32) -> u32 {
        let bits = 32 - largest.leading_zeros() as u64;
        let mask = u32::MAX >> (31 - self.below(bits));
        (self.bits() as u32 & mask).clamp(1, largest)
    }

    /// A figure, or one a little off it, from 1 to `largest`.
    pub fn near(&mut self, figure: u64, largest: u32) -> u32 {
        let nudge = *self.pick(&[0, 0, 0, 1, -1, 2, -2]);
        figure.saturating_add_signed(nudge).clamp(1, u64::from(largest)) as u32
    }
}

/// The fields of a card as they are written, right or wrong.
#[derive(Debug, Clone, Copy, Default, PartialEq, Eq)]
pub struct Card {
    /// 1 toxic, 2 flammable.
    pub kind: u8,
    /// 1 gas, 2 liquefied under pressure, 3 liquefied by refrigeration, 4 liquid, 5 solution.
    pub state: u8,
    /// 1 rural, 2 urban.
    pub ground: u8,
    /// 0 open, 1 dike, 2 building, 3 shed with doors.
    pub containment: u8,
    /// CAS number without hyphens.
    pub cas: u32,
    /// Pounds.
    pub pounds: u32,
    /// Dike or floor area in square feet.
    pub area: u32,
    /// Wall in hundredths of a foot.
    pub wall: u16,
    /// Tenths of a degree Celsius, or in state 5 of a percent. Its two bytes hold -32,768 to 32,767, or 0 to 65,535.
    pub tenths: i32,
    /// Card number.
    pub number: u32,
}

impl Card {
    /// The card as it stands in a register of version 1 or 2.
    pub fn bytes(&self) -> [u8; CARD_LEN] {
        let mut bytes = [0; CARD_LEN];
        bytes[..4].copy_from_slice(&[self.kind, self.state, self.ground, self.containment]);
        bytes[4..8].copy_from_slice(&self.cas.to_be_bytes());
        bytes[8..12].copy_from_slice(&self.pounds.to_be_bytes());
        bytes[12..16].copy_from_slice(&self.area.to_be_bytes());
        bytes[16..18].copy_from_slice(&self.wall.to_be_bytes());
        bytes[18..20].copy_from_slice(&(self.tenths as u16).to_be_bytes());
        bytes[20..].copy_from_slice(&self.number.to_be_bytes());
        bytes
    }

    /// The card as it stands in a register of version 3.
    pub fn in_season(&self, season: Season) -> [u8; SEASONAL_CARD_LEN] {
        season.behind(&self.bytes())
    }
}

/// A register of cards, with a header that fits them.
pub fn register(cards: &[Card]) -> Vec<u8> {
    let cards: Vec<_> = cards.iter().map(Card::bytes).collect();
    register_of_bytes(&cards)
}

/// The same of cards as they stand in it.
pub fn register_of_bytes(cards: &[[u8; CARD_LEN]]) -> Vec<u8> {
    laid(1, cards.len(), &[], cards.as_flattened())
}

/// A register of version 2 that stores two distances, toxic then flammable, right or wrong; its header fits the cards.
pub fn stored_register(cards: &[[u8; CARD_LEN]], distances: [u16; 2]) -> Vec<u8> {
    laid(2, cards.len(), distances.map(u16::to_be_bytes).as_flattened(), cards.as_flattened())
}

/// The same of version 3.
pub fn seasonal_register(cards: &[[u8; SEASONAL_CARD_LEN]], distances: [u16; 2]) -> Vec<u8> {
    laid(3, cards.len(), distances.map(u16::to_be_bytes).as_flattened(), cards.as_flattened())
}

/// Length, version and count, then what is stored, then the cards.
fn laid(version: u8, count: usize, stored: &[u8], cards: &[u8]) -> Vec<u8> {
    let length = HEADER_LEN + stored.len() + cards.len();
    let mut bytes = Vec::with_capacity(length);
    bytes.extend((length as u32).to_be_bytes());
    bytes.push(version);
    bytes.extend((count as u16).to_be_bytes());
    bytes.extend(stored);
    bytes.extend(cards);
    bytes
}

/// The same register in version 2, with the distances that the reference finds: none where it refuses the cards.
pub fn as_version_2(register: &[u8]) -> Vec<u8> {
    stored_register(&plain_cards(register), farthest_distances(register))
}

/// The same in version 3, each card in a season of its own. A season has always a day, so the distances are the same.
pub fn as_version_3(rng: &mut Rng, register: &[u8]) -> Vec<u8> {
    seasonal_register(&seasonal_cards(rng, register), farthest_distances(register))
}

/// The distances of a register's farthest cards, toxic then flammable: zero for none, and where it is refused.
pub fn farthest_distances(register: &[u8]) -> [u16; 2] {
    let Accepted { toxic, flammable } = reference::leaders_after(register, usize::MAX).unwrap_or_default();
    [toxic, flammable].map(|farthest: Option<Farthest>| farthest.map_or(0, |farthest| farthest.miles))
}

/// The whole cards behind the header that a register's version has, as long as its version has them, however many it counts.
pub fn cards_of(register: &[u8]) -> ChunksExact<'_, u8> {
    register.get(header_len(register)..).unwrap_or_default().chunks_exact(card_len(register))
}

/// The cards of a register without their seasons.
pub fn plain_cards(register: &[u8]) -> Vec<[u8; CARD_LEN]> {
    cards_of(register).map(|card| *card.first_chunk().expect("24 bytes at least")).collect()
}

/// The cards of a register, each in a season of its own.
pub fn seasonal_cards(rng: &mut Rng, register: &[u8]) -> Vec<[u8; SEASONAL_CARD_LEN]> {
    plain_cards(register).iter().map(|card| seasons::any_season(rng).behind(card)).collect()
}

/// The bytes before a register's first card, as its version says: 7, or 11 in versions 2 and 3.
pub fn header_len(register: &[u8]) -> usize {
    match register.get(4) {
        Some(2 | 3) => STORED_HEADER_LEN,
        _ => HEADER_LEN,
    }
}

/// The bytes of a register's card, as its version says: 24, or 28 in version 3.
pub fn card_len(register: &[u8]) -> usize {
    match register.get(4) {
        Some(3) => SEASONAL_CARD_LEN,
        _ => CARD_LEN,
    }
}

/// A register of so many cards that the reference accepts, of all routes and tables.
pub fn accepted_register(rng: &mut Rng, count: usize) -> Vec<u8> {
    register(&accepted_cards(rng, count))
}

/// Cards of rising numbers that the reference accepts.
pub fn accepted_cards(rng: &mut Rng, count: usize) -> Vec<Card> {
    let mut cards = Vec::with_capacity(count);
    let mut number = 0;
    while cards.len() < count {
        let next = number + step(rng);
        let card = sound_card(rng, next);
        if reference::answer(&register(&[card]), &mut [0; ANSWER_LEN]).is_ok() {
            number = card.number;
            cards.push(card);
        }
    }
    cards
}

/// Cards of rising numbers with every field in range; some may lack data or lie beyond their table.
pub fn sound_cards(rng: &mut Rng, count: usize) -> Vec<Card> {
    let mut number = 0;
    let mut next = |_| {
        number += step(rng);
        sound_card(rng, number)
    };
    (0..count).map(&mut next).collect()
}

/// Cards as [`sound_cards`] makes them, most of them solutions and one of them at least.
pub fn cards_with_solutions(rng: &mut Rng, count: usize) -> Vec<Card> {
    cards_with(rng, count, |rng| !rng.one_in(4), solution_card)
}

/// Cards as [`sound_cards`] makes them, held in every way, over half of them in sheds with doors and one of them at least.
pub fn cards_with_sheds(rng: &mut Rng, count: usize) -> Vec<Card> {
    cards_with(rng, count, |rng| rng.one_in(2), shed_card)
}

/// Cards as [`sound_cards`] makes them, most of them flammable and one of them at least.
pub fn cards_with_blasts(rng: &mut Rng, count: usize) -> Vec<Card> {
    cards_with(rng, count, |rng| !rng.one_in(4), flammable_card)
}

/// Sound cards, of which one for certain, and the others as often as is drawn, are made in a way of their own.
fn cards_with(rng: &mut Rng, count: usize, drawn: fn(&mut Rng) -> bool, make: fn(&mut Rng, u32) -> Card) -> Vec<Card> {
    let mut cards = sound_cards(rng, count);
    let certain = rng.below(count as u64) as usize;
    for (place, card) in cards.iter_mut().enumerate() {
        if place == certain || drawn(rng) {
            *card = make(rng, card.number);
        }
    }
    cards
}

/// From a card's number to the next card's: mostly 1, sometimes far.
fn step(rng: &mut Rng) -> u32 {
    if rng.one_in(8) {
        1 + rng.below(1_000_000) as u32
    } else {
        1
    }
}

fn sound_card(rng: &mut Rng, number: u32) -> Card {
    if rng.one_in(5) {
        return flammable_card(rng, number);
    }
    if rng.one_in(6) {
        return solution_card(rng, number);
    }
    let toxic = toxic_substance(rng);
    let ground = rng.between(1, 2) as u8;
    let frame = Card { kind: 1, ground, cas: toxic.cas, number, ..Card::default() };
    match &toxic.phase {
        Phase::Gas { lfb } => gas_card(rng, frame, toxic, *lfb),
        Phase::Liquid(factors) => liquid_card(rng, frame, toxic, factors),
        Phase::Solution { .. } => unreachable!("B-1 and B-2 have no solution"),
    }
}

fn flammable_card(rng: &mut Rng, number: u32) -> Card {
    let (cas, pounds) = blasts::any_quantity(rng);
    Card { kind: 2, cas, pounds, number, ..Card::default() }
}

/// A sound card in a shed with doors, which about one in five is.
fn shed_card(rng: &mut Rng, number: u32) -> Card {
    loop {
        let card = sound_card(rng, number);
        if card.containment == SHED_WITH_DOORS {
            return card;
        }
    }
}

/// Any toxic substance, the few that are not read from a dense table more often than the rest.
fn toxic_substance(rng: &mut Rng) -> &'static Toxic {
    let toxics = printed().toxics();
    let apart = |toxic: &Toxic| toxic.plume == Plume::Neutral || WITH_OWN_TABLE.contains(&toxic.cas);
    let first = rng.pick(toxics);
    if apart(first) || rng.one_in(2) {
        return first;
    }
    let wanted = rng.below(toxics.iter().filter(|toxic| apart(toxic)).count() as u64);
    toxics.iter().filter(|toxic| apart(toxic)).nth(wanted as usize).unwrap_or(first)
}

fn gas_card(rng: &mut Rng, frame: Card, toxic: &Toxic, lfb: u64) -> Card {
    let state = rng.between(1, 3) as u8;
    let frame = Card { state, ..frame };
    if state == 3 && rng.one_in(2) {
        return pool_card(rng, Card { containment: 1, ..frame }, toxic, lfb * 100);
    }
    let rate = edge_rate(rng, toxic);
    let containment = *rng.pick(&[0, 0, BUILDING, SHED_WITH_DOORS]);
    let thousandths_a_pound = if containment == BUILDING { 55 } else { 100 };
    let pounds = match rng.below(6) {
        0 => rng.any_size(MAX_POUNDS),
        _ => rng.near(rate / thousandths_a_pound, MAX_POUNDS),
    };
    let area = if containment == 0 { 0 } else { rng.any_size(MAX_AREA) };
    Card { containment, pounds, area, ..frame }
}

fn liquid_card(rng: &mut Rng, frame: Card, toxic: &Toxic, factors: &LiquidFactors) -> Card {
    let tenths = edge_temperature(rng);
    let containment = rng.below(4) as u8;
    let frame = Card { state: 4, containment, tenths: i32::from(tenths), ..frame };
    pool_card(rng, frame, toxic, liquid_times_temperature(factors, tenths))
}

/// LF in millionths times TCF in hundredths, as near as a sample needs it.
fn liquid_times_temperature(factors: &LiquidFactors, tenths: i16) -> u64 {
    match factors.at(tenths) {
        Factor::Times(hundredths) if tenths <= 500 => factors.lfa * hundredths,
        _ => factors.lfb * 100,
    }
}

/// A solution of a substance of B-3, held in any way.
fn solution_card(rng: &mut Rng, number: u32) -> Card {
    let solute = rng.pick(printed().solutes());
    let tenths = edge_concentration(rng, solute);
    let (_, row) = solute.rows().find(|(printed, _)| *printed >= tenths).expect("none is above the highest");
    let Phase::Solution { lfa } = row.phase else {
        unreachable!("B-3 has solutions alone");
    };
    let frame = Card {
        kind: 1,
        state: SOLUTION,
        ground: rng.between(1, 2) as u8,
        containment: rng.below(4) as u8,
        cas: solute.cas,
        tenths: i32::from(tenths),
        number,
        ..Card::default()
    };
    pool_card(rng, frame, row, lfa * 100)
}

/// Pounds, area and wall such that the pool's rate falls on or near an edge of a table, or the pool's area or duration
/// on or near an edge of its own.
fn pool_card(rng: &mut Rng, frame: Card, toxic: &Toxic, factors: u64) -> Card {
    let rate = edge_rate(rng, toxic);
    let shelter = if frame.containment == BUILDING { 10 } else { 1 };
    // The area that evaporates at the rate, in hundredths of a square foot.
    let wanted = rate * 50_000_000 * shelter / (7 * factors);
    let (pounds, area) = pounds_and_area(rng, rate, wanted, toxic);
    let card = Card { pounds, ..frame };
    match frame.containment {
        0 => card,
        1 => {
            // Sometimes a smaller dike, so that what runs over its wall makes up the area.
            let area = if rng.one_in(4) { rng.any_size(area) } else { area };
            let wall = edge_wall(rng, pounds, area, wanted, toxic);
            Card { area, wall, ..card }
        }
        _ => Card { area, ..card },
    }
}

/// Pounds, and square feet to hold them: about the full area, about the wanted one, or any.
fn pounds_and_area(rng: &mut Rng, rate: u64, wanted: u64, toxic: &Toxic) -> (u32, u32) {
    let covering = wanted / toxic.density_factor;
    let feet = wanted / 100;
    let several = 1 + rng.below(20);
    let (pounds, feet) = match rng.below(12) {
        0..2 => (covering, feet),
        2..4 => (covering, feet * several),
        // Evaporates in about ten minutes.
        4..6 => (rate / 100, feet),
        6 => return (rng.any_size(MAX_POUNDS), rng.any_size(MAX_AREA)),
        _ => (covering * several, feet),
    };
    (rng.near(pounds, MAX_POUNDS), rng.near(feet, MAX_AREA))
}

/// A wall on or near the height that just holds the spill, or that lets the wanted area be covered, or any.
fn edge_wall(rng: &mut Rng, pounds: u32, area: u32, wanted: u64, toxic: &Toxic) -> u16 {
    let full = u64::from(pounds) * toxic.density_factor;
    let area = u64::from(area);
    let wall = match rng.below(6) {
        0 | 1 => full * 33 / (1_000 * area),
        2 | 3 => (100 * area + full).saturating_sub(wanted) * 33 / (1_000 * area),
        4 => return *rng.pick(&[0, 1, 3, 4, MAX_WALL - 1, MAX_WALL]),
        _ => rng.below(u64::from(MAX_WALL) + 1),
    };
    rng.near(wall, u32::from(MAX_WALL)) as u16
}

/// A rate at a row, a midpoint or a range's bound of a table, in thousandths.
fn edge_rate(rng: &mut Rng, toxic: &Toxic) -> u64 {
    let tables = printed().worst_case();
    if toxic.plume == Plume::Neutral && rng.one_in(2) {
        let table = rng.pick(tables.neutral());
        let bound = rng.pick(table.bounds());
        // The least thousandths at which rate / endpoint reaches the bound.
        return (bound * toxic.endpoint).div_ceil(1_000);
    }
    let table =
        if WITH_OWN_TABLE.contains(&toxic.cas) { rng.pick(tables.specific()) } else { rng.pick(tables.dense()) };
    let edges = if rng.one_in(2) { table.rates() } else { table.cuts() };
    *rng.pick(edges)
}

/// A concentration at or a tenth beside a printed one, a small one, or any that is in range.
fn edge_concentration(rng: &mut Rng, solute: &Solute) -> u16 {
    let printed: Vec<u16> = solute.rows().map(|(printed, _)| printed).collect();
    let highest = highest_concentration(solute);
    let tenths = match rng.below(6) {
        0 => 1 + rng.below(u64::from(highest)) as u16,
        1 => *rng.pick(&[1, 2, 3, 10, 100]),
        _ => rng.pick(&printed).saturating_add_signed(*rng.pick(&[0, 0, -1, 1])),
    };
    tenths.clamp(1, highest)
}

/// The highest concentration that is printed for a substance of B-3, in tenths of a percent.
pub fn highest_concentration(solute: &Solute) -> u16 {
    solute.rows().map(|(printed, _)| printed).max().expect("a printed concentration")
}

/// A temperature at or near a column of B-4, a midpoint or a limit, or any.
fn edge_temperature(rng: &mut Rng) -> i16 {
    const EDGES: [i16; 14] = [-500, 0, 250, 275, 300, 325, 350, 375, 400, 425, 450, 475, 500, 3_000];
    let tenths = match rng.below(5) {
        0 => rng.between(-500, 3_000) as i16,
        1 => rng.between(240, 510) as i16,
        _ => *rng.pick(&EDGES) + rng.between(-1, 1) as i16,
    };
    tenths.clamp(-500, 3_000)
}
