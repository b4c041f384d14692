//! Registers of which one has at least as much in it, on each day on which every card in force has a counterpart in force.

use super::{is_in_force, miles};
use crate::sheds::Answer;
use crate::{LEAST_OF_EACH, SEED};
use rings_second::proved;
use rings_second::reference::{Accepted, ANSWER_LEN};
use rings_second::samples::seasons::{any_day, any_season, Season, LAST_DAY, WHOLE_YEAR};
use rings_second::samples::{self, accepted_cards, Card, Rng, MAX_POUNDS};

const PAIRS: usize = 20_000;
const DAYS: usize = 8;

/// What was met of days on which rings are ordered, and of such on which they need not be.
#[derive(Default)]
struct Met {
    longer: usize,
    equal: usize,
    no_counterpart: usize,
    shorter_without: usize,
}

#[test]
fn the_rings_of_a_day_are_ordered() {
    let mut rng = Rng::new(SEED);
    let mut met = Met::default();
    for _ in 0..PAIRS {
        let count = rng.between(1, 4) as usize;
        let less =
            Side::of(accepted_cards(&mut rng, count).into_iter().map(|card| (card, any_season(&mut rng))).collect());
        let (Some(less), Some(more)) = (less, Side::of_more(&mut rng, count)) else { continue };
        for _ in 0..DAYS {
            met.compare(&less, &more, any_day(&mut rng).into());
        }
        let Some(more) = less.with_more(&mut rng) else { continue };
        for _ in 0..DAYS {
            met.compare(&less, &more, any_day(&mut rng).into());
        }
    }
    for (what, met) in [
        ("with a longer ring", met.longer),
        ("with an equal ring", met.equal),
        ("with no counterpart of some card", met.no_counterpart),
        ("with no counterpart, and a shorter ring", met.shorter_without),
    ] {
        println!("classes on days of two registers, {what}: {met}");
        assert!(met >= LEAST_OF_EACH, "{what} was met too seldom");
    }
}

/// An accepted register of version 3, with its cards and their answers.
struct Side {
    register: Vec<u8>,
    cards: Vec<(Card, Season, Answer)>,
}

impl Side {
    /// None where a card is refused.
    fn of(cards: Vec<(Card, Season)>) -> Option<Self> {
        let plain: Vec<Card> = cards.iter().map(|(card, _)| *card).collect();
        let seasonal: Vec<_> = cards.iter().map(|(card, season)| card.in_season(*season)).collect();
        let distances = samples::farthest_distances(&samples::register(&plain));
        let register = samples::seasonal_register(&seasonal, distances);
        let mut answers = vec![0; cards.len() * ANSWER_LEN];
        proved::answer(&register, &mut answers).ok()?;
        let answers = answers.chunks_exact(ANSWER_LEN).map(Answer::read);
        let cards = cards.into_iter().zip(answers).map(|((card, season), answer)| (card, season, answer)).collect();
        Some(Side { register, cards })
    }

    /// Any other register.
    fn of_more(rng: &mut Rng, count: usize) -> Option<Self> {
        Side::of(accepted_cards(rng, count).into_iter().map(|card| (card, any_season(rng))).collect())
    }

    /// The same cards, most of them with more in them, some longer in force and some in another season, and another card.
    fn with_more(&self, rng: &mut Rng) -> Option<Self> {
        let mut cards = Vec::new();
        for (card, season, _) in &self.cards {
            let pounds = *rng.pick(&[card.pounds, card.pounds + 1, card.pounds.saturating_mul(2), MAX_POUNDS]);
            let season = match rng.below(8) {
                0 => any_season(rng),
                1..4 => WHOLE_YEAR,
                4 => Season { last: season.last % LAST_DAY + 1, ..*season },
                _ => *season,
            };
            cards.push((Card { pounds: pounds.min(MAX_POUNDS), ..*card }, season));
        }
        let last = cards.last().map_or(0, |(card, _)| card.number);
        let [other] = accepted_cards(rng, 1).try_into().expect("one card");
        cards.push((Card { number: last + 1, ..other }, any_season(rng)));
        Side::of(cards)
    }

    /// The answers of a class in force on a day.
    fn in_force(&self, kind: u8, day: u32) -> impl Iterator<Item = &(Card, Season, Answer)> {
        self.cards.iter().filter(move |(card, season, _)| card.kind == kind && is_in_force(*season, day))
    }

    fn rings(&self, day: u32) -> [u16; 2] {
        let Accepted { toxic, flammable } = proved::farthest_on(&self.register, day).expect("a day of a year");
        [miles(toxic), miles(flammable)]
    }
}

impl Met {
    /// On a day, for each class: if each card in force of one side has a counterpart in force on the other, its ring is no
    /// longer.
    fn compare(&mut self, less: &Side, more: &Side, day: u32) {
        let (rings, other_rings) = (less.rings(day), more.rings(day));
        for (kind, (ring, other)) in (1..).zip(rings.into_iter().zip(other_rings)) {
            let has_counterpart = |card| more.in_force(kind, day).any(|other| is_counterpart(card, other));
            if !less.in_force(kind, day).all(has_counterpart) {
                self.no_counterpart += 1;
                self.shorter_without += usize::from(other < ring);
                continue;
            }
            assert!(other >= ring, "on {day}, kind {kind}: {:?} and {:?}", less.cards, more.cards);
            self.longer += usize::from(other > ring);
            self.equal += usize::from(other == ring && ring > 0);
        }
    }
}

/// At least as much of the same substance, held in the very same way, by the same route and table. A season does not count.
fn is_counterpart(
    (card, _, answer): &(Card, Season, Answer),
    (other, _, other_answer): &(Card, Season, Answer),
) -> bool {
    let alike = Card { pounds: other.pounds, number: other.number, ..*card };
    alike == *other && other.pounds >= card.pounds && answer.is_read_like(other_answer)
}
