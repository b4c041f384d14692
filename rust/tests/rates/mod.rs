//! Reported rates beside the exact ones.
//!
//! Each accepted card of each register that is compared is held to the bound on its rate, by the bytes that the proved
//! library wrote. A test of its own comes close to the bound. A dike that overflows has an area of 33rds of a hundredth of
//! a square foot: it is met with each number of them that rounding can add, its pounds chosen so that the rate, too, is
//! rounded up from just above a whole thousandth. On a floor the area is whole hundredths, and the rate alone is rounded.

use crate::lent::hex;
use crate::sheds::Answer;
use crate::{Comparison, LEAST_OF_EACH, SEED};
use rings_second::reference::printed::{printed, Phase, Toxic};
use rings_second::reference::{exact_rate, ExactRate, Fraction, ANSWER_LEN, CARD_LEN};
use rings_second::samples::{self, Card, Rng};
use rings_second::samples::{BUILDING, MAX_AREA, MAX_POUNDS, MAX_WALL, SOLUTION};
use std::collections::BTreeMap;

/// Of accepted cards in the test that aims at the bound.
const LEAST_AIMED: usize = 200_000;
/// Cards of a substance that overflow with each number of 33rds added, on floors of each kind, and on their full area.
const DIKES: usize = 10;
const FLOORS: u32 = 40;
const FULL_AREAS: usize = 70;
/// How many neighbours the most telling is chosen from.
const NEIGHBOURS: u32 = 256;

/// The temperatures of the columns of B-4, and one above them all, in tenths of a degree.
const TEMPERATURES: [i32; 7] = [250, 300, 350, 400, 450, 500, 501];

#[test]
fn rates_stay_below_their_bounds() {
    let mut comparison = Comparison::new(SEED);
    for pool in pools() {
        for card in pool.cards(&mut comparison.rng) {
            comparison.compare(&samples::register(&[card]), ANSWER_LEN);
        }
    }
    println!("{} cards aimed at the bounds of their rates", comparison.accepted);
    assert!(comparison.accepted >= LEAST_AIMED, "too few cards were aimed at their bounds");
    comparison.rates.report();
    // Where LF and TCF are small nearly all of the slack is the 0.001, and some rate takes nearly all of it: no wider one would
    // be seen to be wrong otherwise.
    for closest in comparison.rates.closest() {
        assert!(closest.share > Fraction::new(9_999, 10_000), "no rate came close: {}", closest.text());
    }
}

/// What was met of rates, all of them held to their bounds.
#[derive(Default)]
pub struct Rates {
    /// Cards by routes 1 and 3, whose rates are exact.
    equal: usize,
    /// Cards by route 2, by state and containment, and those of them whose rates are exact all the same.
    pools: BTreeMap<(u8, u8), usize>,
    equal_pools: usize,
    /// Cards in dikes that do not overflow, in those that do and cover whole hundredths of a square foot, and in others, by
    /// the 33rds of a hundredth that rounding adds, from 1 on.
    within_dike: usize,
    over_to_whole: usize,
    over_and_rounded: [usize; 32],
    closest_in_dike: Option<Closest>,
    closest_in_building: Option<Closest>,
}

impl Rates {
    /// Holds the answer of an accepted card to the bound on its rate.
    pub fn hold(&mut self, card: &[u8], answer: &[u8]) {
        let card: &[u8; CARD_LEN] = card.try_into().expect("24 bytes");
        let Answer { route, rate: reported, .. } = Answer::read(answer);
        let exact = exact_rate(card).expect("an accepted card");
        let holds = exact.route == route && exact.holds(reported);
        assert!(holds, "{} is answered with {reported} thousandths by route {route}, but {exact:?}", hex(card));
        if route != 2 {
            self.equal += 1;
            return;
        }
        let [_, state, _, containment, ..] = *card;
        *self.pools.entry((state, containment)).or_default() += 1;
        let met = Closest::new(card, reported, exact);
        self.equal_pools += usize::from(met.share == Fraction::NONE);
        match containment {
            1 => {
                self.count_dike(card, exact.area);
                keep_closer(&mut self.closest_in_dike, met);
            }
            BUILDING => keep_closer(&mut self.closest_in_building, met),
            _ => {}
        }
    }

    fn count_dike(&mut self, card: &[u8; CARD_LEN], area: Fraction) {
        let diked = u32::from_be_bytes([card[12], card[13], card[14], card[15]]);
        if area <= Fraction::new(diked.into(), 1) {
            self.within_dike += 1;
            return;
        }
        // Whole, since the area is made of hundredths and of what 0.033 divides.
        let parts = 3_300 * area.numerator() / area.denominator();
        match (parts.next_multiple_of(33) - parts) as usize {
            0 => self.over_to_whole += 1,
            added => self.over_and_rounded[added - 1] += 1,
        }
    }

    /// What came closest to its bound, in a dike and in a building.
    fn closest(&self) -> [&Closest; 2] {
        [&self.closest_in_dike, &self.closest_in_building].map(|closest| closest.as_ref().expect("a pool was met"))
    }

    pub fn report(&self) {
        let Rates { equal, pools, equal_pools, within_dike, over_to_whole, over_and_rounded, .. } = self;
        let by_pools: usize = pools.values().sum();
        println!("rates held to their bounds: {equal} by routes 1 and 3, {by_pools} by route 2");
        println!("rates by route 2 that are exact: {equal_pools}");
        for ((state, containment), met) in pools {
            println!("rates of pools in state {state} and containment {containment}: {met}");
        }
        println!("rates in dikes that do not overflow: {within_dike}");
        println!("rates in dikes that overflow to whole hundredths: {over_to_whole}");
        let rounded: usize = over_and_rounded.iter().sum();
        let least = over_and_rounded.iter().min().expect("32 of them");
        println!("rates in dikes that overflow to other areas: {rounded}, at least {least} with each 33rd added");
        let each = [4, 5].into_iter().flat_map(|state| (0..4).map(move |containment| (state, containment)));
        assert!(
            pools.keys().copied().eq([(3, 1)].into_iter().chain(each)),
            "each state of a pool, each way to hold one"
        );
        let others = [equal, equal_pools, within_dike, over_to_whole];
        for met in pools.values().chain(others).chain(over_and_rounded) {
            assert!(*met >= LEAST_OF_EACH, "a case of rates was met too seldom");
        }
        for (place, closest) in ["dike", "building"].into_iter().zip(self.closest()) {
            println!("closest to its bound in a {place}: {}", closest.text());
        }
    }
}

/// A card by route 2, the thousandths that are reported, and how much of the slack they take.
struct Closest {
    card: [u8; CARD_LEN],
    reported: u64,
    exact: ExactRate,
    share: Fraction,
}

impl Closest {
    fn new(card: &[u8; CARD_LEN], reported: u64, exact: ExactRate) -> Self {
        let gap = Fraction::new(reported, 1_000).minus(exact.exact);
        Closest { card: *card, reported, exact, share: gap.over(exact.slack) }
    }

    fn text(&self) -> String {
        let number = |fraction: Fraction| fraction.numerator() as f64 / fraction.denominator() as f64;
        let told = |fraction: Fraction| format!("{:.9} ({fraction})", number(fraction));
        let (exact, bound) = (told(self.exact.exact), told(self.exact.bound()));
        let reported = number(Fraction::new(self.reported, 1_000));
        let share = number(self.share);
        format!("{}, exact {exact}, reported {reported:.3}, bound {bound}, {share:.9} of the slack", hex(&self.card))
    }
}

fn keep_closer(closest: &mut Option<Closest>, met: Closest) {
    if closest.as_ref().is_none_or(|closest| met.share > closest.share) {
        *closest = Some(met);
    }
}

/// A substance that makes a pool, with what decides its rate.
struct Pool {
    /// Numbered and on rural ground, without pounds or containment.
    card: Card,
    /// DF, in hundredths.
    density_factor: u64,
    /// Thousandths of a pound per minute from a hundredth of a square foot.
    per_hundredth: Fraction,
}

/// Every refrigerated gas, every liquid at each temperature with a factor of its own, and every solution.
fn pools() -> Vec<Pool> {
    let pure = printed().toxics().iter().flat_map(|toxic| match toxic.phase {
        Phase::Gas { .. } => vec![(toxic, 3, 0)],
        _ => TEMPERATURES.map(|tenths| (toxic, 4, tenths)).to_vec(),
    });
    let solutes = printed().solutes().iter().flat_map(|solute| solute.rows());
    let solutions = solutes.map(|(tenths, row)| (row, SOLUTION, i32::from(tenths)));
    pure.chain(solutions).filter_map(|(row, state, tenths)| Pool::of(row, state, tenths)).collect()
}

impl Pool {
    /// None where there is no data at the temperature.
    fn of(row: &Toxic, state: u8, tenths: i32) -> Option<Self> {
        let card = Card { kind: 1, state, ground: 1, cas: row.cas, tenths, number: 1, ..Card::default() };
        let any = Card { pounds: 1_000, containment: 1, area: 1, ..card };
        let rate = exact_rate(&any.bytes()).ok()?;
        let per_hundredth = rate.exact.over(rate.area).times(Fraction::new(10, 1));
        Some(Pool { card, density_factor: row.density_factor, per_hundredth })
    }

    /// Held in every way. A refrigerated gas that is not in a dike makes no pool; its rate is exact.
    fn cards(&self, rng: &mut Rng) -> Vec<Card> {
        let mut cards = Vec::new();
        for added in 0..33 {
            cards.extend((0..DIKES).map(|_| self.over_a_wall(rng, added)));
        }
        for containment in 0..4 {
            cards.extend((0..FULL_AREAS).map(|_| self.on_full_area(rng, containment)));
        }
        for containment in 1..4 {
            cards.extend((1..=FLOORS).map(|floor| self.on_floor(rng, containment, floor)));
            cards.extend((1..=FLOORS).map(|_| self.on_odd_floor(rng, containment)));
        }
        cards
    }

    /// In a dike of any size with a wall of any height that what is spilled runs over, such that rounding adds so many 33rds
    /// of a hundredth of a square foot to the area.
    fn over_a_wall(&self, rng: &mut Rng, added: u64) -> Card {
        loop {
            // A wall of 3 or less holds no more than the pool's depth, so the full area is covered and nothing is rounded.
            let wall = 3 + rng.any_size(u32::from(MAX_WALL) - 3);
            let start = rng.any_size(MAX_AREA - 33);
            // What the dike holds would cover so many 33rds of a hundredth.
            let held = |area: u32| 1_000 * u64::from(area) * u64::from(wall);
            let Some(area) = (start..start + 33).find(|area| held(*area) % 33 == added) else { continue };
            let least = held(area) / 33 / self.density_factor + 1;
            if least >= u64::from(MAX_POUNDS - NEIGHBOURS) {
                continue;
            }
            let least = least as u32;
            let pounds = least - 1 + rng.any_size(MAX_POUNDS - NEIGHBOURS - least + 1);
            let covered = |pounds: u32| self.full_area(pounds) + 100 * u64::from(area) - held(area) / 33;
            let pounds = self.telling(1, pounds..pounds + NEIGHBOURS, covered);
            return Card { containment: 1, pounds, area, wall: wall as u16, ..self.card };
        }
    }

    /// In the open, or on the largest floor or diked area, which is not covered.
    fn on_full_area(&self, rng: &mut Rng, containment: u8) -> Card {
        let area = if containment == 0 { 0 } else { MAX_AREA };
        // No DF is above 2.
        let start = rng.any_size(MAX_AREA / 2 - NEIGHBOURS);
        let pounds = self.telling(shelter(containment), start..start + NEIGHBOURS, |pounds| self.full_area(pounds));
        Card { containment, pounds, area, ..self.card }
    }

    /// On an odd floor or diked area of any size.
    fn on_odd_floor(&self, rng: &mut Rng, containment: u8) -> Card {
        let start = 2 * rng.any_size(MAX_AREA / 2 - NEIGHBOURS) - 1;
        let floors = (start..).step_by(2).take(NEIGHBOURS as usize);
        let area = self.telling(shelter(containment), floors, |floor| 100 * u64::from(floor));
        self.on_floor(rng, containment, area)
    }

    /// On a floor or a diked area that is covered, if pounds can be enough. A wall is as high as it may be.
    fn on_floor(&self, rng: &mut Rng, containment: u8, area: u32) -> Card {
        let covering = 100 * u64::from(area) / self.density_factor;
        let pounds = (covering + u64::from(rng.any_size(MAX_POUNDS))).min(u64::from(MAX_POUNDS)) as u32;
        let wall = if containment == 1 { MAX_WALL } else { 0 };
        Card { containment, pounds, area, wall, ..self.card }
    }

    /// Pounds × DF, in hundredths.
    fn full_area(&self, pounds: u32) -> u64 {
        u64::from(pounds) * self.density_factor
    }

    /// The figure whose rate is rounded up by the most, from just above whole thousandths. A figure's pool covers so many
    /// hundredths of a square foot; one part in so many of its vapor gets out.
    fn telling(&self, parts: u128, figures: impl Iterator<Item = u32>, covered: impl Fn(u32) -> u64) -> u32 {
        let whole = self.per_hundredth.denominator() * parts;
        let above_whole = |figure: &u32| match u128::from(covered(*figure)) * self.per_hundredth.numerator() % whole {
            // Not rounded at all.
            0 => whole,
            above => above,
        };
        figures.min_by_key(above_whole).expect("figures to choose from")
    }
}

/// Of how many parts of a vapor one gets out.
fn shelter(containment: u8) -> u128 {
    match containment {
        BUILDING => 10,
        _ => 1,
    }
}
