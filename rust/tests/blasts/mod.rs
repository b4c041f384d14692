//! Blasts, by the proved library and by the reference.
//!
//! A ring has whole metres, so it grows in steps: every flammable substance stands at the last quantity of each of its steps
//! and a pound beside it, and at every quantity that meets Equation C-1 exactly. Then come the ends of what a card may have,
//! substances that are not listed, random registers, and tanks of which one is fuller.
//!
//! A third opinion is the equation in the words of document 02, on Exhibit C-1 as it is read here. It judges each answer by
//! two numbers of metres, whatever finds the ring; and no answer may be told as old.

use crate::lent::hex;
use crate::{random_case_of_blasts, Comparison, Refusals, LEAST_OF_EACH, SEED};
use rings_second::proved;
use rings_second::reference::printed::printed;
use rings_second::reference::{self, Refused, ANSWER_LEN, MAX_CARDS};
use rings_second::samples::{self, blasts::exact_quantities, cards_of, Card, Rng, MAX_POUNDS};
use std::collections::BTreeMap;

const REGISTERS: usize = 100_000;
const PAIRS: usize = 50_000;
/// Of answered cards in the sweep of all steps.
const LEAST_IN_SWEEP: usize = 450_000;

/// How many substances Exhibit C-1 lists, how many steps their rings have up to the most that a card may have, and how many
/// of these end at a quantity that meets the equation exactly.
const LISTED: usize = 63;
const STEPS: usize = 150_716;
const EXACT: usize = 87;

/// What a flammable card can be refused with.
const OF_BLASTS: [usize; 5] = [5, 6, 7, 8, 21];

/// Bytes 4 to 13 of a blast's answer: route 3, no table, no rate.
const ROUTE_TABLE_RATE: [u8; 10] = [3, 0, 0, 0, 0, 0, 0, 0, 0, 0];

/// The longest ring, of the most hydrogen that a card may have, in hundredths of a mile.
const LONGEST: u16 = 240;

/// The quantities over the columns of Table 13, about which a ring once grew.
const COLUMNS: [u32; 11] = [500, 2_000, 5_000, 10_000, 20_000, 50_000, 100_000, 200_000, 500_000, 1_000_000, 2_000_000];

#[test]
fn blasts_agree() {
    let mut blasts = Blasts::new(SEED);
    sweep_steps(&mut blasts);
    sweep_exact_quantities(&mut blasts);
    sweep_ends(&mut blasts);
    sweep_unlisted(&mut blasts);
    for _ in 0..REGISTERS {
        let (register, buffer_len) = random_case_of_blasts(&mut blasts.comparison.rng);
        blasts.compare(&register, buffer_len);
    }
    compare_pairs(&mut blasts);
    blasts.report();
}

/// Of an answer's sixteen bytes only the sixth counts: not one that is 13 by itself, nor what the others say.
#[test]
fn answers_are_old_by_their_table_alone() {
    let mut rng = Rng::new(SEED);
    for table in 0..=u8::MAX {
        let random = |_| std::array::from_fn(|_| if rng.one_in(4) { 13 } else { rng.bits() as u8 });
        let answers: Vec<[u8; ANSWER_LEN]> = (0..1_000).map(random).chain([[0; 16], [13; 16], [255; 16]]).collect();
        for mut answer in answers {
            answer[5] = table;
            let met = (reference::is_old(&answer), proved::is_old(&answer));
            assert_eq!(met, (table == 13, table == 13), "the answer {}", hex(&answer));
        }
    }
}

/// A line of Exhibit C-1.
#[derive(Debug, Clone, Copy)]
struct Fuel {
    cas: u32,
    /// HC, in kilojoules per kilogram.
    heat: u128,
}

/// Exhibit C-1 in its order, read here once more, so that no implementation's reading is taken for it.
fn exhibit() -> Vec<Fuel> {
    let text = include_str!("../../../data/c1.tsv");
    let rows = text.lines().filter(|line| !line.starts_with('#')).skip(1);
    let fuels = rows.map(|row| {
        let cells: Vec<&str> = row.split('\t').collect();
        let cas = cells[0].replace('-', "").parse().expect("a CAS number");
        Fuel { cas, heat: cells[2].parse().expect("whole kilojoules per kilogram") }
    });
    fuels.collect()
}

impl Fuel {
    /// Whether so many metres are enough for a quantity, in the words of document 02.
    fn is_met(self, pounds: u32, metres: u128) -> bool {
        metres * metres * metres * 102_960 >= 4_913 * u128::from(pounds) * self.heat
    }

    /// Whether these are the least metres that are enough.
    fn has_ring(self, pounds: u32, metres: u128) -> bool {
        self.is_met(pounds, metres) && !self.is_met(pounds, metres - 1)
    }

    /// Whether a ring of so many hundredths of a mile is right. Its metres lie above the most that a hundredth less has and
    /// not above the most that these have; so the latter are enough, and the former are not.
    fn has_hundredths(self, pounds: u32, hundredths: u16) -> bool {
        let most_metres = |hundredths: u16| u128::from(hundredths) * 1_609_344 / 100_000;
        self.is_met(pounds, most_metres(hundredths)) && !self.is_met(pounds, most_metres(hundredths - 1))
    }

    /// Each ring that some quantity has, with the largest quantity that has it.
    fn steps(self) -> Vec<(u128, u32)> {
        let mut steps = Vec::new();
        let mut last = 0;
        let mut metres: u128 = 0;
        while last < MAX_POUNDS {
            metres += 1;
            let enough_for = metres.pow(3) * 102_960 / (4_913 * self.heat);
            let largest = enough_for.min(u128::from(MAX_POUNDS)) as u32;
            if largest > last {
                steps.push((metres, largest));
            }
            last = largest;
        }
        steps
    }

    fn card(self, pounds: u32, number: u32) -> Card {
        Card { kind: 2, cas: self.cas, pounds, number, ..Card::default() }
    }
}

/// Compares registers one by one and counts what it met of blasts.
struct Blasts {
    comparison: Comparison,
    fuels: BTreeMap<u32, Fuel>,
    /// Flammable cards that were answered, all of them and by hundredths of a mile.
    answered: usize,
    by_hundredths: BTreeMap<u16, usize>,
    /// Refused for a flammable card, and refused as a whole or for another card.
    refused: Refusals,
    refused_otherwise: usize,
    /// Cards in the sweep of all steps, the steps, and those of them after which the miles grow too.
    in_sweep: usize,
    steps: usize,
    told_by_miles: usize,
    /// Steps that end where both sides of the equation are equal, and those of them after which the miles grow too.
    exact: usize,
    exact_told_by_miles: usize,
    /// Tanks with a longer and with an equal ring, beside the one of the same substance that has no more in it.
    longer: usize,
    equal: usize,
}

impl Blasts {
    fn new(seed: u64) -> Self {
        Blasts {
            comparison: Comparison::new(seed),
            fuels: exhibit().into_iter().map(|fuel| (fuel.cas, fuel)).collect(),
            answered: 0,
            by_hundredths: BTreeMap::new(),
            refused: Refusals::default(),
            refused_otherwise: 0,
            in_sweep: 0,
            steps: 0,
            told_by_miles: 0,
            exact: 0,
            exact_told_by_miles: 0,
            longer: 0,
            equal: 0,
        }
    }

    fn compare(&mut self, register: &[u8], buffer_len: usize) -> Option<Refused> {
        let refused = self.comparison.compare(register, buffer_len);
        let cards = cards_of(register);
        match refused {
            Some(refused) => self.count_refused(refused, cards.map(|card| card[0]).collect()),
            None => {
                for (place, card) in cards.enumerate().filter(|(_, card)| card[0] == 2) {
                    self.judge(place, card);
                }
            }
        }
        refused
    }

    /// A flammable card is refused for its number, its form, its substance, its quantity or its season, and for nothing else.
    fn count_refused(&mut self, Refused { number, place }: Refused, kinds: Vec<u8>) {
        if number < 5 || kinds[place as usize] != 2 {
            self.refused_otherwise += 1;
            return;
        }
        assert!(OF_BLASTS.contains(&usize::from(number)), "a flammable card was refused with {number}");
        self.refused[usize::from(number)] += 1;
    }

    /// Holds the answer of the flammable card at a place to the equation.
    fn judge(&mut self, place: usize, card: &[u8]) {
        let answer = &self.comparison.answers.ours()[place * ANSWER_LEN..][..ANSWER_LEN];
        let word = |at: usize| u32::from_be_bytes([card[at], card[at + 1], card[at + 2], card[at + 3]]);
        let hundredths = miles(answer);
        let fuel = self.fuels[&word(4)];
        let is_right = hundredths > 0 && fuel.has_hundredths(word(8), hundredths);
        assert!(is_right && answer[4..14] == ROUTE_TABLE_RATE, "{} lb of {fuel:?}: {}", word(8), hex(answer));
        self.answered += 1;
        *self.by_hundredths.entry(hundredths).or_default() += 1;
    }

    /// The refusal of a card alone.
    fn refusal(&mut self, card: Card) -> Option<u8> {
        self.compare(&samples::register(&[card]), ANSWER_LEN).map(|refused| refused.number)
    }

    /// One substance at quantities that rise, in registers as long as they may be. Gives their miles: a fuller tank never
    /// has the smaller ring.
    fn compare_rising(&mut self, fuel: Fuel, quantities: &[u32]) -> Vec<u16> {
        let mut distances = Vec::with_capacity(quantities.len());
        for some in quantities.chunks(MAX_CARDS) {
            let cards: Vec<Card> = some.iter().zip(1..).map(|(pounds, number)| fuel.card(*pounds, number)).collect();
            let buffer_len = cards.len() * ANSWER_LEN + self.comparison.rng.below(40) as usize;
            let refused = self.compare(&samples::register(&cards), buffer_len);
            assert_eq!(refused, None, "{fuel:?}");
            let answers = self.comparison.answers.ours().chunks_exact(ANSWER_LEN);
            distances.extend(answers.take(cards.len()).map(miles));
        }
        for (pounds, pair) in quantities.iter().zip(distances.windows(2)) {
            assert!(pair[0] <= pair[1], "{fuel:?}: above {pounds} lb the ring is smaller");
            self.longer += usize::from(pair[0] < pair[1]);
            self.equal += usize::from(pair[0] == pair[1]);
        }
        distances
    }

    fn report(&self) {
        let Comparison { accepted, refused, .. } = &self.comparison;
        println!("{} registers compared for blasts, {accepted} accepted", accepted + refused.iter().sum::<usize>());
        println!("blasts answered: {} cards, {} of them in the sweep of all steps", self.answered, self.in_sweep);
        assert!(self.in_sweep >= LEAST_IN_SWEEP && self.answered > self.in_sweep, "too few blasts were answered");
        println!("blasts answered with {} distances", self.by_hundredths.len());
        assert!(self.by_hundredths.keys().copied().eq(1..=LONGEST), "each distance up to the longest, and no other");
        println!("steps of a ring: {}, of which the miles grow too: {}", self.steps, self.told_by_miles);
        println!("exact steps: {}, of which the miles grow too: {}", self.exact, self.exact_told_by_miles);
        assert_eq!((self.fuels.len(), self.steps, self.exact), (LISTED, STEPS, EXACT));
        println!("fuller tanks with a longer ring: {}, with an equal one: {}", self.longer, self.equal);
        println!("refused for a card that is not flammable, or as a whole: {}", self.refused_otherwise);
        for number in OF_BLASTS {
            let met = self.refused[number];
            println!("blasts refused {number:2}: {met}");
            assert!(met >= LEAST_OF_EACH, "blasts refused {number} were met too seldom");
        }
        assert!(self.told_by_miles.min(self.longer).min(self.equal) >= LEAST_OF_EACH);
        assert!(self.exact_told_by_miles > 0);
    }
}

/// The distance in the bytes of a card's answer.
fn miles(answer: &[u8]) -> u16 {
    u16::from_be_bytes([answer[14], answer[15]])
}

/// Every step of every substance: its last quantity, a pound less and a pound more.
fn sweep_steps(blasts: &mut Blasts) {
    for fuel in exhibit() {
        let steps = fuel.steps();
        for (metres, pounds) in &steps {
            assert!(fuel.has_ring(*pounds, *metres), "{metres} metres for {pounds} lb of {fuel:?}");
            let is_last = *pounds == MAX_POUNDS || !fuel.is_met(pounds + 1, *metres);
            assert!(is_last, "{metres} metres for a pound above {pounds} lb of {fuel:?}");
        }
        let beside = steps.iter().flat_map(|(_, pounds)| [pounds - 1, *pounds, pounds + 1]);
        let mut quantities: Vec<u32> = beside.filter(|pounds| (1..=MAX_POUNDS).contains(pounds)).collect();
        quantities.sort_unstable();
        quantities.dedup();
        let distances = blasts.compare_rising(fuel, &quantities);
        let of: BTreeMap<u32, u16> = quantities.iter().copied().zip(distances).collect();
        let grows = |pounds: u32| of.get(&(pounds + 1)).is_some_and(|more| *more > of[&pounds]);
        blasts.in_sweep += quantities.len();
        blasts.steps += steps.len();
        blasts.told_by_miles += steps.iter().filter(|(_, pounds)| grows(*pounds)).count();
    }
}

/// Every quantity at which both sides of the equation are equal still has that ring, and a pound more has a metre more.
fn sweep_exact_quantities(blasts: &mut Blasts) {
    for fuel in exhibit() {
        for (metres, pounds) in fuel.steps() {
            if metres.pow(3) * 102_960 != 4_913 * u128::from(pounds) * fuel.heat {
                continue;
            }
            assert!(fuel.has_ring(pounds, metres) && fuel.has_ring(pounds + 1, metres + 1), "{pounds} lb of {fuel:?}");
            let distances = blasts.compare_rising(fuel, &[pounds - 1, pounds, pounds + 1]);
            blasts.exact += 1;
            blasts.exact_told_by_miles += usize::from(distances[1] < distances[2]);
        }
    }
    // The samples draw on the same quantities.
    assert_eq!(exact_quantities().len(), blasts.exact);
}

/// The ends of what a card may have, and what were columns of Table 13, the last of them its end.
fn sweep_ends(blasts: &mut Blasts) {
    let columns = COLUMNS.into_iter().flat_map(|quantity| [quantity - 1, quantity, quantity + 1]);
    let quantities: Vec<u32> = [1, 2].into_iter().chain(columns).chain([MAX_POUNDS - 1, MAX_POUNDS]).collect();
    for fuel in exhibit() {
        blasts.compare_rising(fuel, &quantities);
        for pounds in [0, MAX_POUNDS + 1, 1 << 31, u32::MAX] {
            assert_eq!(blasts.refusal(fuel.card(pounds, 1)), Some(8), "{pounds} lb of {fuel:?}");
        }
    }
}

/// CAS numbers beside the listed ones, those of toxic substances, and others.
fn sweep_unlisted(blasts: &mut Blasts) {
    let beside = exhibit().into_iter().flat_map(|fuel| [fuel.cas - 1, fuel.cas, fuel.cas + 1]);
    let toxics = printed().toxics().iter().map(|toxic| toxic.cas);
    let solutes = printed().solutes().iter().map(|solute| solute.cas);
    let numbers: Vec<u32> = beside.chain(toxics).chain(solutes).chain([0, 1, 1 << 31, u32::MAX]).collect();
    for cas in numbers {
        // Listed or not is settled before the pounds are looked at.
        for pounds in [1, 10_000, MAX_POUNDS, MAX_POUNDS + 1] {
            let card = Card { kind: 2, cas, pounds, number: 1, ..Card::default() };
            let expected = match (blasts.fuels.contains_key(&cas), pounds) {
                (false, _) => Some(7),
                (true, ..=MAX_POUNDS) => None,
                (true, _) => Some(8),
            };
            assert_eq!(blasts.refusal(card), expected, "{card:?}");
        }
    }
}

/// Two tanks of a substance, of any size.
fn compare_pairs(blasts: &mut Blasts) {
    let fuels = exhibit();
    for _ in 0..PAIRS {
        let fuel = *blasts.comparison.rng.pick(&fuels);
        let mut quantities = [(); 2].map(|()| blasts.comparison.rng.any_size(MAX_POUNDS));
        quantities.sort_unstable();
        blasts.compare_rising(fuel, &quantities);
    }
}
