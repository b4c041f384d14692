//! Reading and writing comma lines: the proved library and the reference, timed on the same texts in the same process.
//!
//! `cargo bench --bench lines` prints one table in markdown, a line for each way and each number of lines. Read are
//! texts as a consultancy might write them, with spaces, zeros and remarks, and the same cards in strict form; written
//! are their registers, all of them accepted. MB are a million bytes of text, read or written. Measured is the whole
//! call, which for the writer has the checks of the whole register in it.
//!
//! As in the benchmark of the rings, a pass goes once through many different inputs that lie end to end, told is the
//! median pass, the two implementations pass in turn, and one buffer is lent for all and not cleared between calls.

mod timing;

use rings_second::reference::{Refused, MAX_CARDS, MAX_STRICT_LINE};
use rings_second::samples::lines::{decorated_text, strict_text};
use rings_second::samples::{accepted_cards, register, Card, Rng};
use rings_second::{proved, reference};
use std::hint::black_box;
use timing::{in_turn, PASSES};

const SEED: u64 = 14;
/// Lines in each text of a pass.
const SIZES: [usize; 4] = [10, 100, 1_000, 2_000];
/// A pass has at least so many texts, and at least so many lines.
const LEAST_TEXTS: usize = 200;
const LEAST_LINES: usize = 200_000;
/// Room for the lines of any register, and for any register.
const ROOM: usize = MAX_CARDS * MAX_STRICT_LINE;

type Convert = fn(&[u8], &mut [u8]) -> Result<usize, Refused>;

/// What is converted, and by whom.
struct Way {
    name: &'static str,
    input: fn(&mut Rng, &[Card]) -> Vec<u8>,
    /// The text is what comes out, and not what goes in.
    writes: bool,
    proved: Convert,
    reference: Convert,
}

const WAYS: [Way; 3] = [
    Way {
        name: "read, decorated",
        input: decorated_text,
        writes: false,
        proved: proved::read_lines,
        reference: reference::read_lines,
    },
    Way {
        name: "read, strict",
        input: |_, cards| strict_text(cards),
        writes: false,
        proved: proved::read_lines,
        reference: reference::read_lines,
    },
    Way {
        name: "write",
        input: |_, cards| register(cards),
        writes: true,
        proved: proved::write_lines,
        reference: reference::write_lines,
    },
];

fn main() {
    println!("Median of {PASSES} passes over all texts of a size:\n");
    println!(
        "| | lines | texts | bytes a line | proved, MB/s | reference, MB/s | proved, ns a line | reference, ns a line | \
         proved / reference |"
    );
    println!("|---|---|---|---|---|---|---|---|---|");
    for way in &WAYS {
        for lines in SIZES {
            print_row(way, lines);
        }
    }
}

fn print_row(way: &Way, lines: usize) {
    let inputs = Inputs::make(way, lines);
    let mut buffer = vec![0; ROOM];
    let text_bytes = inputs.text_bytes(way, &mut buffer) as f64;
    let [proved, reference] = in_turn([way.proved, way.reference], |convert| pass(&inputs, &mut buffer, convert));
    let texts = inputs.count();
    let all_lines = (texts * lines) as f64;
    // A byte a nanosecond is a thousand MB a second.
    println!(
        "| {} | {lines} | {texts} | {:.1} | {:.0} | {:.0} | {:.1} | {:.1} | {:.2} |",
        way.name,
        text_bytes / all_lines,
        1_000.0 * text_bytes / proved,
        1_000.0 * text_bytes / reference,
        proved / all_lines,
        reference / all_lines,
        proved / reference,
    );
}

/// The inputs of a pass.
struct Inputs {
    /// One behind the other, so that no pointers are followed between them.
    bytes: Vec<u8>,
    /// Where each ends and the next begins.
    ends: Vec<usize>,
}

impl Inputs {
    /// Inputs of the same number of lines; those of every way are made from the same cards.
    fn make(way: &Way, lines: usize) -> Self {
        let (mut of_cards, mut of_lines) = (Rng::new(SEED), Rng::new(SEED));
        let mut inputs = Inputs { bytes: Vec::new(), ends: Vec::new() };
        for _ in 0..LEAST_TEXTS.max(LEAST_LINES.div_ceil(lines)) {
            let cards = accepted_cards(&mut of_cards, lines);
            inputs.bytes.extend((way.input)(&mut of_lines, &cards));
            inputs.ends.push(inputs.bytes.len());
        }
        inputs
    }

    fn each(&self) -> impl Iterator<Item = &[u8]> {
        let starts = [0].into_iter().chain(self.ends.iter().copied());
        starts.zip(&self.ends).map(|(start, &end)| &self.bytes[start..end])
    }

    fn count(&self) -> usize {
        self.ends.len()
    }

    /// How many bytes of text are read or written in a pass.
    fn text_bytes(&self, way: &Way, buffer: &mut [u8]) -> usize {
        if !way.writes {
            return self.bytes.len();
        }
        let written = self.each().map(|input| (way.reference)(input, buffer).expect("an accepted register"));
        written.sum()
    }
}

/// One call for each input.
fn pass(inputs: &Inputs, buffer: &mut [u8], convert: Convert) {
    for input in inputs.each() {
        let converted = convert(black_box(input), black_box(buffer));
        assert!(converted.is_ok(), "all inputs of a benchmark are converted");
    }
}
