//! The proved library and the reference, timed on the same registers in the same process.
//!
//! `cargo bench` prints one table in markdown, a line for each size of register. Measured is the whole call, from the
//! bytes of a register to the bytes of its answers, on many different registers: a benchmark that repeats one
//! register lets the processor learn its branches by heart. (Of those with one card, three in four differ.) A pass
//! answers every register of a size once, in their order, and is timed as a whole; told is the median pass. The two
//! implementations pass in turn, so that a slow spell of the machine meets both.
//!
//! The registers are made beforehand and all are accepted. They lie end to end, 5 to 10 MB of them, so a pass fetches
//! each from the last cache or from memory. That is the same for both and small beside the work: touching the cards
//! takes half a nanosecond a card at 2,000 cards, and not two at one. One buffer is lent for all answers of a size and
//! not cleared between calls.

mod timing;

use rings_second::reference::{ANSWER_LEN, CARD_LEN, HEADER_LEN};
use rings_second::samples::{accepted_register, Rng};
use rings_second::{proved, reference};
use std::hint::black_box;
use timing::{in_turn, PASSES};

const SEED: u64 = 13;
/// Cards in each register of a pass.
const SIZES: [usize; 5] = [1, 10, 100, 1_000, 2_000];
/// A pass has at least so many registers.
const LEAST_REGISTERS: usize = 200;
/// A pass has at least so many cards, or the branches of short registers would be learned after all.
const LEAST_CARDS: usize = 200_000;

/// Answers a register into a buffer; true if it was accepted.
type Answer = fn(&[u8], &mut [u8]) -> bool;

fn main() {
    let mut rng = Rng::new(SEED);
    println!("Median of {PASSES} passes over all registers of a size, ns:\n");
    println!(
        "| cards | registers | proved, a register | a card | reference, a register | a card | proved / reference |"
    );
    println!("|---|---|---|---|---|---|---|");
    for cards in SIZES {
        let registers = Registers::make(&mut rng, cards);
        let (proved, reference) = measure(&registers);
        println!(
            "| {cards} | {} | {proved:.0} | {:.1} | {reference:.0} | {:.1} | {:.2} |",
            registers.count(),
            proved / cards as f64,
            reference / cards as f64,
            proved / reference,
        );
    }
}

/// Registers of the same number of cards.
struct Registers {
    cards: usize,
    /// One register behind the other, so that no pointers are followed between them.
    bytes: Vec<u8>,
}

impl Registers {
    fn make(rng: &mut Rng, cards: usize) -> Self {
        let count = LEAST_REGISTERS.max(LEAST_CARDS.div_ceil(cards));
        Registers { cards, bytes: (0..count).flat_map(|_| accepted_register(rng, cards)).collect() }
    }

    fn each(&self) -> impl ExactSizeIterator<Item = &[u8]> {
        self.bytes.chunks_exact(HEADER_LEN + self.cards * CARD_LEN)
    }

    fn count(&self) -> usize {
        self.each().len()
    }
}

/// The nanoseconds that a register takes in the median pass of the proved library and of the reference.
fn measure(registers: &Registers) -> (f64, f64) {
    let proved: Answer = |register, out| proved::answer(register, out).is_ok();
    let reference: Answer = |register, out| reference::answer(register, out).is_ok();
    let mut buffer = vec![0; ANSWER_LEN * registers.cards];
    let [proved, reference] = in_turn([proved, reference], |answer| pass(registers, &mut buffer, answer));
    let count = registers.count() as f64;
    (proved / count, reference / count)
}

/// One call for each register.
fn pass(registers: &Registers, buffer: &mut [u8], answer: Answer) {
    for register in registers.each() {
        let accepted = answer(black_box(register), black_box(buffer));
        assert!(accepted, "all registers of a benchmark are accepted");
    }
}
