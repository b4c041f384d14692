//! Edits of registers in lent buffers: the proved library and the reference, timed on the same edits in the same process,
//! beside the proved library's answering of the whole register.
//!
//! `cargo bench --bench edits` prints one table in markdown, a line for each edit and each number of cards. The card that is
//! edited stands in the middle. It is added to the other cards, replaced by another, or withdrawn; the register is of
//! version 3, and the cards are counted with this one. The buffer has room for them and no more. Answering takes the register
//! with all cards, so that it can be seen what an edit costs beside one look at each of them.
//!
//! As in the benchmark of the rings, a pass goes once through many different registers that lie end to end, told is the
//! median pass, and the calls pass in turn. Since an edit changes the buffer, each one is handed a fresh copy of its
//! register, and the copying is measured with it.

mod timing;

use rings_second::reference::{Refused, ANSWER_LEN, SEASONAL_CARD_LEN, STORED_HEADER_LEN};
use rings_second::samples::edits::Edit;
use rings_second::samples::seasons::any_season;
use rings_second::samples::{accepted_cards, as_version_3, register, Card, Rng};
use rings_second::{proved, reference};
use std::hint::black_box;
use timing::{in_turn, PASSES};

const SEED: u64 = 15;
/// Cards of each register of a pass.
const SIZES: [usize; 5] = [1, 10, 100, 1_000, 2_000];
/// A pass has at least so many registers, and at least so many cards.
const LEAST_REGISTERS: usize = 100;
const LEAST_CARDS: usize = 100_000;

/// What is done with the card in the middle.
#[derive(Clone, Copy)]
enum Way {
    Add,
    Replace,
    Withdraw,
}

const WAYS: [(&str, Way); 3] = [("add", Way::Add), ("replace", Way::Replace), ("withdraw", Way::Withdraw)];

/// A call that is timed.
#[derive(Clone, Copy)]
enum Call {
    Proved,
    Reference,
    Answer,
}

fn main() {
    println!("Median of {PASSES} passes over all registers of a size, ns:\n");
    println!(
        "| | cards | registers | proved, an edit | a card | reference, an edit | proved / reference | proved, answering | \
         edit / answering |"
    );
    println!("|---|---|---|---|---|---|---|---|---|");
    for (name, way) in WAYS {
        for cards in SIZES {
            print_row(name, &Work::make(way, cards));
        }
    }
}

fn print_row(name: &str, work: &Work) {
    let mut buffer = vec![0; STORED_HEADER_LEN + work.cards * SEASONAL_CARD_LEN];
    let mut answers = vec![0; ANSWER_LEN * work.cards];
    let times = in_turn([Call::Proved, Call::Reference, Call::Answer], |call| match call {
        Call::Proved => work.edit_all(&mut buffer, by_proved),
        Call::Reference => work.edit_all(&mut buffer, by_reference),
        Call::Answer => work.answer_all(&mut answers),
    });
    let [proved, reference, answering] = times.map(|pass| pass / work.edits.len() as f64);
    println!(
        "| {name} | {} | {} | {proved:.0} | {:.1} | {reference:.0} | {:.2} | {answering:.0} | {:.2} |",
        work.cards,
        work.edits.len(),
        proved / work.cards as f64,
        proved / reference,
        proved / answering,
    );
}

/// The registers of a pass and an edit for each.
struct Work {
    cards: usize,
    /// The registers that are edited, and those with all cards, one behind the other.
    edited: Registers,
    whole: Registers,
    edits: Vec<Edit>,
}

/// Registers of the same length, so that no pointers are followed between them.
struct Registers {
    length: usize,
    bytes: Vec<u8>,
}

impl Registers {
    fn new() -> Self {
        Registers { length: 0, bytes: Vec::new() }
    }

    fn push(&mut self, register: &[u8]) {
        self.length = register.len();
        self.bytes.extend(register);
    }

    fn each(&self) -> impl Iterator<Item = &[u8]> {
        self.bytes.chunks_exact(self.length)
    }
}

impl Work {
    fn make(way: Way, cards: usize) -> Self {
        let mut rng = Rng::new(SEED);
        let count = LEAST_REGISTERS.max(LEAST_CARDS.div_ceil(cards));
        let mut work = Work { cards, edited: Registers::new(), whole: Registers::new(), edits: Vec::new() };
        for _ in 0..count {
            work.push(&mut rng, way, cards);
        }
        work
    }

    fn push(&mut self, rng: &mut Rng, way: Way, count: usize) {
        let (cards, other) = (accepted_cards(rng, count), accepted_cards(rng, 1)[0]);
        let middle = cards.len() / 2;
        let (card, number, season) = (cards[middle], cards[middle].number, any_season(rng));
        let others = [&cards[..middle], &cards[middle + 1..]].concat();
        let (edited, edit) = match way {
            Way::Add => (&others, Edit::Add(card.in_season(season))),
            Way::Replace => (&cards, Edit::Replace(Card { number, ..other }.in_season(season))),
            Way::Withdraw => (&cards, Edit::Withdraw(number)),
        };
        self.edited.push(&as_version_3(rng, &register(edited)));
        self.whole.push(&as_version_3(rng, &register(&cards)));
        self.edits.push(edit);
    }

    /// One edit for each register.
    fn edit_all(&self, buffer: &mut [u8], by: fn(&mut [u8], &Edit) -> Result<usize, Refused>) {
        for (register, edit) in self.edited.each().zip(&self.edits) {
            buffer[..register.len()].copy_from_slice(register);
            let edited = by(black_box(buffer), black_box(edit));
            assert!(edited.is_ok(), "all edits of a benchmark are accepted");
        }
    }

    /// One answering of each register.
    fn answer_all(&self, answers: &mut [u8]) {
        for register in self.whole.each() {
            let answered = proved::answer(black_box(register), black_box(answers));
            assert!(answered.is_ok(), "all registers of a benchmark are accepted");
        }
    }
}

fn by_proved(buffer: &mut [u8], edit: &Edit) -> Result<usize, Refused> {
    match edit {
        Edit::Add(card) => proved::add(buffer, card),
        Edit::Replace(card) => proved::replace(buffer, card),
        Edit::Withdraw(number) => proved::withdraw(buffer, *number),
    }
}

fn by_reference(buffer: &mut [u8], edit: &Edit) -> Result<usize, Refused> {
    match edit {
        Edit::Add(card) => reference::add(buffer, card),
        Edit::Replace(card) => reference::replace(buffer, card),
        Edit::Withdraw(number) => reference::withdraw(buffer, *number),
    }
}
