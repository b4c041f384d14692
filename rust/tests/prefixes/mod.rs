//! The leaders after the first cards of a register, by the proved library and by the reference.
//!
//! A short register is asked after each of its cards, a long one after some of them, and both beyond their count; all
//! three words are compared. `rings_answer` is a third opinion: the leaders after some cards of an accepted register
//! are the farthest of a register of those cards alone, and any other register is sent back as that call sends it back.

use crate::lent::hex;
use crate::{in_later_version, random_case, random_case_of_sheds, random_case_of_solutions, spoil, words};
use crate::{LEAST_OF_EACH, SEED};
use rings_second::proved;
use rings_second::reference::{self, Accepted, Farthest, Refused, ANSWER_LEN, CARD_LEN, MAX_CARDS};
use rings_second::samples::{self, cards_of, plain_cards, Card, Rng};

const REGISTERS: usize = 150_000;
const REGISTERS_OF_SOLUTIONS: usize = 30_000;
const REGISTERS_OF_SHEDS: usize = 30_000;
const LONG_REGISTERS: usize = 400;
/// A register of at most so many cards is asked after each of them.
const SHORT: usize = 40;
/// Beyond any count. Narrower numbers would make 0 or 1 of some, and of one the bytes of so many cards pass 2^64.
const FAR: [usize; 6] = [1 << 16, (1 << 16) + 1, 1 << 32, (1 << 32) + 1, usize::MAX / CARD_LEN + 1, 1 << 63];

const LEAST_ASKED: usize = 1_000_000;

#[test]
fn the_leaders_after_any_number_of_cards_agree() {
    let mut rng = Rng::new(SEED);
    let mut prefixes = Prefixes::new();
    for _ in 0..REGISTERS {
        let (register, _) = random_case(&mut rng);
        prefixes.compare(&mut rng, &register);
    }
    for _ in 0..REGISTERS_OF_SOLUTIONS {
        let (register, _) = random_case_of_solutions(&mut rng);
        prefixes.compare(&mut rng, &register);
    }
    for _ in 0..REGISTERS_OF_SHEDS {
        let (register, _) = random_case_of_sheds(&mut rng);
        prefixes.compare(&mut rng, &register);
    }
    for _ in 0..LONG_REGISTERS {
        let register = long_register(&mut rng);
        prefixes.compare(&mut rng, &register);
    }
    prefixes.report();
}

/// Compares register by register and counts what it met, each time that leaders are asked for.
#[derive(Default)]
struct Prefixes {
    /// Room for the answers of any register.
    answers: Vec<u8>,
    /// Registers, and those of them that are too long to be asked after each card.
    registers: usize,
    long: usize,
    accepted: usize,
    refused: usize,
    /// Refused for a card that is not among the first ones.
    refused_behind: usize,
    /// Of accepted registers: after no card, after some, after all, and beyond them.
    none: usize,
    some: usize,
    all: usize,
    beyond: usize,
    /// The leader's distance is that of another of the first cards in its class too.
    tied: usize,
    /// The leader is not the whole register's.
    overtaken: usize,
    only_toxic: usize,
    only_flammable: usize,
}

impl Prefixes {
    fn new() -> Self {
        Prefixes { answers: vec![0; MAX_CARDS * ANSWER_LEN], ..Prefixes::default() }
    }

    fn compare(&mut self, rng: &mut Rng, register: &[u8]) {
        let count = cards_of(register).len();
        let whole = reference::answer(register, &mut self.answers);
        self.registers += 1;
        self.long += usize::from(count > SHORT);
        for cards in numbers_to_ask(rng, count) {
            let untouched = (rng.bits(), rng.bits());
            let leaders = compare_after(register, cards, untouched);
            let third = match leaders {
                Ok(_) => answer_words(&first_cards(register, cards.min(count)), untouched),
                Err(_) => answer_words(register, untouched),
            };
            assert_eq!(words(leaders, untouched), third, "after {cards} cards of the register {}", hex(register));
            match leaders {
                Ok(leaders) => self.count(register, cards, leaders, whole.expect("accepted with room enough")),
                Err(refused) => self.count_refused(cards, refused),
            }
        }
    }

    fn count(&mut self, register: &[u8], cards: usize, leaders: Accepted, whole: Accepted) {
        let count = cards_of(register).len();
        self.accepted += 1;
        self.none += usize::from(cards == 0);
        self.some += usize::from(cards > 0 && cards < count);
        self.all += usize::from(cards == count);
        self.beyond += usize::from(cards > count);
        let Accepted { toxic, flammable } = leaders;
        self.tied +=
            usize::from(self.is_tied(register, cards, 1, toxic) || self.is_tied(register, cards, 2, flammable));
        let is_overtaken = |leader: Option<Farthest>, last| leader.is_some() && leader != last;
        self.overtaken += usize::from(is_overtaken(toxic, whole.toxic) || is_overtaken(flammable, whole.flammable));
        self.only_toxic += usize::from(toxic.is_some() && flammable.is_none());
        self.only_flammable += usize::from(toxic.is_none() && flammable.is_some());
    }

    /// Whether several of the first cards of a kind have its leader's distance, by the answers of the whole register.
    fn is_tied(&self, register: &[u8], cards: usize, kind: u8, leader: Option<Farthest>) -> bool {
        let kinds = cards_of(register).map(|card| card[0]);
        let distances = self.answers.chunks_exact(ANSWER_LEN).map(miles);
        let as_far = |(of, miles): &(u8, u16)| *of == kind && leader.is_some_and(|leader| leader.miles == *miles);
        kinds.zip(distances).take(cards).filter(as_far).count() > 1
    }

    fn count_refused(&mut self, cards: usize, Refused { number, place }: Refused) {
        let of_a_card = number > 4;
        self.refused += 1;
        self.refused_behind += usize::from(of_a_card && place >= cards as u64);
    }

    fn report(&self) {
        let asked = self.accepted + self.refused;
        println!("{asked} leaders compared, of {} registers, {} of them long", self.registers, self.long);
        assert!(asked >= LEAST_ASKED && self.long >= LONG_REGISTERS);
        for (what, met) in [
            ("of accepted registers", self.accepted),
            ("of refused registers", self.refused),
            ("before the card that is refused", self.refused_behind),
            ("after no card", self.none),
            ("after some cards", self.some),
            ("after all cards", self.all),
            ("beyond the count", self.beyond),
            ("with a tie at the lead", self.tied),
            ("with a leader that is overtaken later", self.overtaken),
            ("with toxic cards alone", self.only_toxic),
            ("with flammable cards alone", self.only_flammable),
        ] {
            println!("leaders {what}: {met}");
            assert!(met >= LEAST_OF_EACH, "leaders {what} were met too seldom");
        }
    }
}

/// From none to two beyond a short register's count, or some of a long one's cards and its ends; then far beyond.
fn numbers_to_ask(rng: &mut Rng, count: usize) -> Vec<usize> {
    let near: Vec<usize> = if count <= SHORT {
        (0..=count + 2).collect()
    } else {
        let within = (0..8).map(|_| rng.any_size(count as u32) as usize);
        within.chain([0, count - 1, count, count + 1]).collect()
    };
    near.into_iter().chain([*rng.pick(&FAR), usize::MAX]).collect()
}

/// Both are asked, and words that should stay are given; panics where they differ.
fn compare_after(register: &[u8], cards: usize, untouched: (u64, u64)) -> Result<Accepted, Refused> {
    let ours = reference::leaders_after(register, cards);
    let (mut toxic, mut flammable) = untouched;
    let code = proved::leaders_after_words(register, cards, &mut toxic, &mut flammable);
    let (expected, met) = (words(ours, untouched), (code, toxic, flammable));
    assert_eq!(expected, met, "reference and proved library, after {cards} cards of the register {}", hex(register));
    ours
}

/// The three words of `rings_answer`. A card is longer than its answer, so as many bytes as the register has are enough.
fn answer_words(register: &[u8], untouched: (u64, u64)) -> (u64, u64, u64) {
    let (mut toxic, mut flammable) = untouched;
    let mut answers = vec![0; register.len()];
    let code = proved::answer_words(register, &mut answers, &mut toxic, &mut flammable);
    (code, toxic, flammable)
}

/// A register of the first cards of another alone, of version 1, since the others store the distances of all.
fn first_cards(register: &[u8], cards: usize) -> Vec<u8> {
    samples::register_of_bytes(&plain_cards(register)[..cards])
}

/// A long register: one in two has the nearest cards first, so that the leaders change up to the end, and one in three
/// has a fault.
fn long_register(rng: &mut Rng) -> Vec<u8> {
    let count = *rng.pick(&[100, 700, MAX_CARDS - 1, MAX_CARDS]);
    let mut cards = samples::accepted_cards(rng, count);
    if rng.one_in(2) {
        let numbers: Vec<u32> = cards.iter().map(|card| card.number).collect();
        cards.sort_by_cached_key(distance);
        cards.iter_mut().zip(numbers).for_each(|(card, number)| card.number = number);
    }
    if rng.one_in(3) {
        spoil(rng, &mut cards);
    }
    let register = samples::register(&cards);
    if !rng.one_in(3) {
        return in_later_version(rng, &register);
    }
    register
}

/// The distance of an accepted card, in hundredths of a mile.
fn distance(card: &Card) -> u16 {
    let mut answer = [0; ANSWER_LEN];
    reference::answer(&samples::register(&[*card]), &mut answer).expect("an accepted card");
    miles(&answer)
}

/// The distance in the bytes of a card's answer.
fn miles(answer: &[u8]) -> u16 {
    u16::from_be_bytes([answer[14], answer[15]])
}
