//! The rings of a day and of a year: the proved library and the reference, timed on the same registers in the same process,
//! beside the proved library's answering of the whole register.
//!
//! `cargo bench --bench days` prints one table in markdown, a line for each call and each number of cards. The registers are
//! of version 3, and their seasons of every kind. A day is drawn for each register. The reference finds the year by going
//! through the days, up to the one that it looks for.
//!
//! As in the benchmark of the rings, a pass goes once through many different registers that lie end to end, told is the
//! median pass, and the calls pass in turn.

mod timing;

use rings_second::reference::ANSWER_LEN;
use rings_second::samples::seasons::any_day;
use rings_second::samples::{accepted_register, as_version_3, Rng};
use rings_second::{proved, reference};
use std::hint::black_box;
use timing::{in_turn, PASSES};

const SEED: u64 = 15;
/// Cards of each register of a pass.
const SIZES: [usize; 5] = [1, 10, 100, 1_000, 2_000];
/// A pass has at least so many registers, and at least so many cards.
const LEAST_REGISTERS: usize = 100;
const LEAST_CARDS: usize = 100_000;

/// A call that is timed.
#[derive(Clone, Copy)]
enum Call {
    Proved,
    Reference,
    Answer,
}

/// What is asked for.
#[derive(Clone, Copy)]
enum Asked {
    Day,
    Year,
}

fn main() {
    println!("Median of {PASSES} passes over all registers of a size, ns:\n");
    println!(
        "| | cards | registers | proved | a card | reference | proved / reference | proved, answering | proved / answering |"
    );
    println!("|---|---|---|---|---|---|---|---|---|");
    for (name, asked) in [("day", Asked::Day), ("year", Asked::Year)] {
        for cards in SIZES {
            print_row(name, asked, &Work::make(cards));
        }
    }
}

fn print_row(name: &str, asked: Asked, work: &Work) {
    let mut answers = vec![0; ANSWER_LEN * work.cards];
    let times = in_turn([Call::Proved, Call::Reference, Call::Answer], |call| match (call, asked) {
        (Call::Proved, Asked::Day) => work.each(|register, day| proved::farthest_on(register, day).is_ok()),
        (Call::Proved, Asked::Year) => work.each(|register, _| proved::year(register).is_ok()),
        (Call::Reference, Asked::Day) => work.each(|register, day| reference::farthest_on(register, day).is_ok()),
        (Call::Reference, Asked::Year) => work.each(|register, _| reference::year(register).is_ok()),
        (Call::Answer, _) => work.each(|register, _| proved::answer(register, black_box(&mut answers)).is_ok()),
    });
    let [proved, reference, answering] = times.map(|pass| pass / work.days.len() as f64);
    println!(
        "| {name} | {} | {} | {proved:.0} | {:.1} | {reference:.0} | {:.2} | {answering:.0} | {:.2} |",
        work.cards,
        work.days.len(),
        proved / work.cards as f64,
        proved / reference,
        proved / answering,
    );
}

/// The registers of a pass, all of one length and one behind the other, and a day for each.
struct Work {
    cards: usize,
    length: usize,
    registers: Vec<u8>,
    days: Vec<u32>,
}

impl Work {
    fn make(cards: usize) -> Self {
        let mut rng = Rng::new(SEED);
        let count = LEAST_REGISTERS.max(LEAST_CARDS.div_ceil(cards));
        let mut work = Work { cards, length: 0, registers: Vec::new(), days: Vec::new() };
        for _ in 0..count {
            let plain = accepted_register(&mut rng, cards);
            let register = as_version_3(&mut rng, &plain);
            work.length = register.len();
            work.registers.extend(register);
            work.days.push(any_day(&mut rng).into());
        }
        work
    }

    /// One call for each register.
    fn each(&self, mut call: impl FnMut(&[u8], u32) -> bool) {
        for (register, day) in self.registers.chunks_exact(self.length).zip(&self.days) {
            assert!(call(black_box(register), black_box(*day)), "all registers of a benchmark are accepted");
        }
    }
}
