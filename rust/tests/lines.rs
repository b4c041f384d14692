//! Comma lines, read by the proved library and by the reference: texts made from a fixed seed.
//!
//! Every byte of the lent buffers and of the bytes around them is compared, and both words of the call, whether the text
//! is read or refused. Where a text was made for a purpose, the result is also held against that: the cards it was made
//! from, or the line that was spoiled. Run with `cargo test --release --test lines -- --nocapture` to see the counts.

mod breakers;
mod lent;

use breakers::{lengthen, Breaker, Filler, BREAKERS};
use lent::{Lent, READ_LINES, WRITE_LINES};
use rings_second::reference::{Refused, CARD_LEN, HEADER_LEN, MAX_CARDS, MAX_LEN, MAX_LINE};
use rings_second::samples::lines::{any_card, decorated_text, strict_text, text, Line};
use rings_second::samples::lines::{CAS, CONTAINMENT, REMARK, STATE, TENTHS};
use rings_second::samples::{accepted_cards, cards_with_sheds, cards_with_solutions, register, sound_cards};
use rings_second::samples::{Card, Rng, SHED_WITH_DOORS, SOLUTION};
use rings_second::{proved, reference};
use std::cmp::Ordering;
use std::collections::BTreeMap;

const SEED: u64 = 0x0155_0b99_00a1;
/// Texts made in each way.
const SOUND: usize = 120_000;
const OF_EACH_BREAKER: usize = 1_500;
const OF_EACH_LENGTH: usize = 1_000;
const DAMAGED: usize = 80_000;
const PIECED: usize = 80_000;
const RANDOM: usize = 20_000;
/// Texts of each state and each ninth field that tells the states apart.
const OF_EACH_TENTHS: usize = 20;
/// Texts of each kind and each fourth field.
const OF_EACH_CONTAINMENT: usize = 100;
/// Rounds through all numbers of lines, places of a bad one, and rooms.
const ROUNDS_OF_COUNTS: usize = 4;

const LEAST_TEXTS: usize = 300_000;
const LEAST_OF_EACH: usize = 1_000;
const LEAST_OF_EACH_COUNT: usize = 100;

#[test]
fn both_read_the_same() {
    let mut comparison = Comparison::new(SEED);
    sound_texts(&mut comparison);
    broken_rules(&mut comparison);
    second_feeds(&mut comparison);
    lengths_of_lines(&mut comparison);
    numbers_of_lines(&mut comparison);
    tenths_by_state(&mut comparison);
    containments(&mut comparison);
    every_byte_everywhere(&mut comparison);
    damaged_texts(&mut comparison);
    pieced_texts(&mut comparison);
    random_bytes(&mut comparison);
    comparison.report();
}

/// A text of an accepted register is written back in strict form, whatever its decoration.
#[test]
fn decorated_texts_have_the_strict_form_of_their_cards() {
    let mut rng = Rng::new(SEED);
    let (mut read, mut written) = (Lent::default(), Lent::default());
    for _ in 0..10_000 {
        let count = rng.below(6) as usize;
        let cards = accepted_cards(&mut rng, count);
        let decorated = decorated_text(&mut rng, &cards);
        let strict = strict_text(&cards);
        let length = register_len(count);
        assert_eq!(read.compare(&mut rng, &READ_LINES, &decorated, length), Ok(length));
        assert_eq!(read.theirs(), register(&cards));
        assert_eq!(written.compare(&mut rng, &WRITE_LINES, read.theirs(), strict.len()), Ok(strict.len()));
        assert_eq!(written.theirs(), strict);
    }
}

/// The typed calls say the same as the words: a few thousand texts show each of their cases.
#[test]
fn the_typed_calls_agree_too() {
    let mut rng = Rng::new(SEED);
    for _ in 0..10_000 {
        let mut from = text(&sound_lines(&mut rng).1, true);
        if rng.one_in(2) {
            damage(&mut rng, &mut from);
        }
        let room = rng.below(150) as usize;
        let (mut ours, mut theirs) = (vec![0; room], vec![0; room]);
        let read = reference::read_lines(&from, &mut ours);
        assert_eq!(read, proved::read_lines(&from, &mut theirs), "\"{}\"", from.escape_ascii());
        assert_eq!(ours, theirs);
        let register = &ours[..read.unwrap_or(0)];
        let (mut ours, mut theirs) = (vec![0; room], vec![0; room]);
        assert_eq!(reference::write_lines(register, &mut ours), proved::write_lines(register, &mut theirs));
        assert_eq!(ours, theirs);
    }
}

/// What a text was made to be.
enum Made<'c> {
    /// The lines of cards, all well formed.
    Of(&'c [Card]),
    /// Lines of which this is the first that is not well formed.
    BadAt(usize),
    /// Bytes that may be anything.
    Unknown,
}

impl Made<'_> {
    /// The register that has to be read, or the refusal, if that is known.
    fn expected(&self, room: usize) -> Option<Result<Vec<u8>, Refused>> {
        match self {
            Made::Unknown => None,
            Made::BadAt(line) => Some(Err(Refused { number: 12, place: *line as u64 })),
            Made::Of(cards) if cards.len() > MAX_CARDS || room < register_len(cards.len()) => {
                Some(Err(Refused { number: 13, place: 0 }))
            }
            Made::Of(cards) => Some(Ok(register(cards))),
        }
    }
}

fn register_len(cards: usize) -> usize {
    HEADER_LEN + cards * CARD_LEN
}

/// How many lines a text has, counted by its line feeds.
fn count_lines(text: &[u8]) -> usize {
    let feeds = text.iter().filter(|&&byte| byte == b'\n').count();
    let without_feed = !text.is_empty() && !text.ends_with(b"\n");
    feeds + usize::from(without_feed)
}

/// A buffer's length beside what the lines of a text need.
fn kind_of_room(room: usize, text: &[u8]) -> &'static str {
    let needed = register_len(count_lines(text));
    match room.cmp(&needed) {
        Ordering::Equal => "exact",
        Ordering::Greater => "longer",
        Ordering::Less if room + 1 == needed => "short by one",
        Ordering::Less if room == 0 => "empty",
        Ordering::Less => "shorter",
    }
}

/// How the reading of a text ended.
#[derive(Clone, Copy)]
enum Outcome {
    Read,
    BadLine,
    NoRoom,
}

impl Outcome {
    fn of(result: Result<usize, Refused>) -> Self {
        match result {
            Ok(_) => Outcome::Read,
            Err(Refused { number: 12, .. }) => Outcome::BadLine,
            Err(Refused { number: 13, .. }) => Outcome::NoRoom,
            Err(other) => panic!("the reader gives 12 and 13 alone, not {other:?}"),
        }
    }
}

/// What was met of one sort of text.
#[derive(Default)]
struct Tally {
    read: usize,
    bad_line: usize,
    no_room: usize,
}

impl Tally {
    fn count(&mut self, outcome: Outcome) {
        match outcome {
            Outcome::Read => self.read += 1,
            Outcome::BadLine => self.bad_line += 1,
            Outcome::NoRoom => self.no_room += 1,
        }
    }

    fn texts(&self) -> usize {
        self.read + self.bad_line + self.no_room
    }
}

/// Compares texts one by one and counts what it met.
#[derive(Default)]
struct Comparison {
    rng: Rng,
    lent: Lent,
    all: Tally,
    /// By how the text was made.
    sorts: BTreeMap<&'static str, Tally>,
    /// How many lines were found to break a rule.
    broken: BTreeMap<&'static str, usize>,
    /// By the buffer's length beside what the lines need.
    rooms: BTreeMap<&'static str, Tally>,
    /// By the length of a line that was made so long, and by how many lines there are where there are many.
    lengths: BTreeMap<usize, Tally>,
    counts: BTreeMap<usize, Tally>,
    /// Texts whose ninth field is looked at, with the line in state 5 and with it in another.
    states: BTreeMap<&'static str, Tally>,
    /// Texts whose fourth field is looked at, with a shed with doors in it, another number or none.
    containments: BTreeMap<&'static str, Tally>,
    /// Texts with and without the last line feed.
    fed: Tally,
    unfed: Tally,
}

impl Comparison {
    fn new(seed: u64) -> Self {
        Comparison { rng: Rng::new(seed), ..Comparison::default() }
    }

    /// Compares a text with a buffer of some length, mostly one that its lines need.
    fn compare(&mut self, sort: &'static str, text: &[u8], made: Made) -> Outcome {
        let needed = register_len(count_lines(text));
        let room = match self.rng.below(16) {
            0..8 => needed,
            8..10 => needed - 1,
            10..13 => needed + 1 + self.rng.below(60) as usize,
            13 => 0,
            14 => self.rng.below(needed as u64) as usize,
            _ => needed + CARD_LEN,
        };
        self.compare_with_room(sort, text, made, room)
    }

    fn compare_with_room(&mut self, sort: &'static str, text: &[u8], made: Made, room: usize) -> Outcome {
        let result = self.lent.compare(&mut self.rng, &READ_LINES, text, room);
        if let Some(expected) = made.expected(room) {
            let met = result.map(|length| self.lent.theirs()[..length].to_vec());
            assert_eq!(met, expected, "{sort}, a buffer of {room} bytes: \"{}\"", text.escape_ascii());
        }
        let outcome = Outcome::of(result);
        self.count(sort, text, room, outcome);
        outcome
    }

    fn count(&mut self, sort: &'static str, text: &[u8], room: usize, outcome: Outcome) {
        let fed = if text.ends_with(b"\n") { &mut self.fed } else { &mut self.unfed };
        let sort = self.sorts.entry(sort).or_default();
        let room = self.rooms.entry(kind_of_room(room, text)).or_default();
        for tally in [&mut self.all, fed, sort, room] {
            tally.count(outcome);
        }
    }

    fn report(&self) {
        println!("{} texts compared: {} read, the others refused", self.all.texts(), self.all.read);
        println!("with the last line feed {}, without it {}", self.fed.texts(), self.unfed.texts());
        print_tallies("a buffer that is", &self.rooms);
        print_tallies("with a line of so many bytes:", &self.lengths);
        print_tallies("so many lines:", &self.counts);
        print_tallies("a ninth field in", &self.states);
        print_tallies("a fourth field of", &self.containments);
        print_tallies("made as", &self.sorts);
        let seldom = self.broken.values().min().expect("a rule");
        let rules: Vec<_> = self.broken.keys().copied().collect();
        println!("{} rules broken, each in {seldom} texts or more: {}", rules.len(), rules.join("; "));
        self.assert_enough();
    }

    fn assert_enough(&self) {
        assert!(self.all.texts() >= LEAST_TEXTS);
        assert!(self.all.read * 4 >= self.all.texts(), "too few texts were read");
        let by_length = [MAX_LINE - 1, MAX_LINE, MAX_LINE + 1].map(|length| &self.lengths[&length]);
        let by_count = [MAX_CARDS - 1, MAX_CARDS, MAX_CARDS + 1].map(|count| &self.counts[&count]);
        assert_eq!(self.rooms.len(), 5);
        assert_eq!(self.broken.len(), BREAKERS.len() + 1, "each rule has a name of its own");
        assert_eq!((self.states.len(), self.containments.len()), (2, 3));
        let fields = self.states.values().chain(self.containments.values());
        for tally in by_length.into_iter().chain(self.rooms.values()).chain(fields).chain([&self.fed, &self.unfed]) {
            assert!(tally.texts() >= LEAST_OF_EACH, "a case was met too seldom");
        }
        for tally in by_count {
            assert!(tally.texts() >= LEAST_OF_EACH_COUNT, "a number of lines was met too seldom");
        }
        for (rule, times) in &self.broken {
            assert!(*times >= LEAST_OF_EACH, "{rule} was met too seldom");
        }
    }
}

fn print_tallies<K: std::fmt::Display>(what: &str, tallies: &BTreeMap<K, Tally>) {
    for (key, tally) in tallies {
        let Tally { read, bad_line, no_room } = tally;
        println!("{what} {key}: {} texts, {read} read, {bad_line} refused 12, {no_room} refused 13", tally.texts());
    }
}

// Texts that are well formed.

/// Up to six cards and their lines: cards that a register may have or any, lines in strict form or decorated.
fn sound_lines(rng: &mut Rng) -> (Vec<Card>, Vec<Line>) {
    let count = rng.below(7) as usize;
    let cards = match rng.below(4) {
        0 if count > 0 && rng.one_in(3) => cards_with_solutions(rng, count),
        0 if count > 0 && rng.one_in(2) => cards_with_sheds(rng, count),
        0 => sound_cards(rng, count),
        _ => (0..count).map(|_| any_card(rng)).collect(),
    };
    let lines = cards.iter().map(|card| some_line(rng, card)).collect();
    (cards, lines)
}

fn some_line(rng: &mut Rng, card: &Card) -> Line {
    if rng.one_in(5) {
        Line::strict(card)
    } else {
        Line::decorated(rng, card)
    }
}

fn sound_texts(comparison: &mut Comparison) {
    for _ in 0..SOUND {
        let (cards, lines) = sound_lines(&mut comparison.rng);
        let last_feed = comparison.rng.one_in(2);
        comparison.compare("well-formed lines", &text(&lines, last_feed), Made::Of(&cards));
    }
}

// Texts with one rule broken.

/// Each breaker on a line of a text whose other lines are sound, or sometimes bad further on.
fn broken_rules(comparison: &mut Comparison) {
    for breaker in &BREAKERS {
        for _ in 0..OF_EACH_BREAKER {
            let rng = &mut comparison.rng;
            let (_, mut lines) = sound_lines(rng);
            let place = rng.below(lines.len() as u64 + 1) as usize;
            lines.insert(place, broken_line(rng, breaker));
            if rng.one_in(3) {
                let later = rng.between(place as i64 + 1, lines.len() as i64) as usize;
                let other = rng.pick(&BREAKERS);
                lines.insert(later, broken_line(rng, other));
            }
            // An empty line with nothing behind it is a line only where its line feed is there.
            let last_feed = comparison.rng.one_in(2) || lines.last().is_some_and(|line| line.length() == 0);
            comparison.compare("lines with a rule broken", &text(&lines, last_feed), Made::BadAt(place + 1));
            *comparison.broken.entry(breaker.rule).or_default() += 1;
        }
    }
}

/// A line that is not too long unless that is the rule to be broken.
fn broken_line(rng: &mut Rng, breaker: &Breaker) -> Line {
    loop {
        let card = any_card(rng);
        let mut line = some_line(rng, &card);
        (breaker.spoil)(rng, &mut line);
        if (line.length() > MAX_LINE) == breaker.too_long {
            return line;
        }
    }
}

/// A line feed too many at the end is an empty line.
fn second_feeds(comparison: &mut Comparison) {
    for _ in 0..OF_EACH_BREAKER {
        let (_, mut lines) = sound_lines(&mut comparison.rng);
        lines.push(Line::default());
        comparison.compare("lines with a rule broken", &text(&lines, true), Made::BadAt(lines.len()));
        *comparison.broken.entry("a second line feed at the end").or_default() += 1;
    }
}

// Lines about as long as they may be, and about as many.

/// Lines of 198 to 202 bytes, among others or alone, the last with a line feed or without.
fn lengths_of_lines(comparison: &mut Comparison) {
    for length in MAX_LINE - 2..=MAX_LINE + 2 {
        for round in 0..OF_EACH_LENGTH {
            let rng = &mut comparison.rng;
            let (mut cards, mut lines) = sound_lines(rng);
            let place = *rng.pick(&[0, lines.len()]);
            let card = any_card(rng);
            let mut line = some_line(rng, &card);
            lengthen(rng, &mut line, length, Filler::ALL[round % Filler::ALL.len()]);
            cards.insert(place, card);
            lines.insert(place, line);
            let last_feed = rng.one_in(2);
            let made = if length > MAX_LINE { Made::BadAt(place + 1) } else { Made::Of(&cards) };
            let outcome = comparison.compare("long lines", &text(&lines, last_feed), made);
            comparison.lengths.entry(length).or_default().count(outcome);
        }
    }
}

/// 1,999 to 2,002 lines and more, all sound or with a bad one anywhere, in buffers of each kind.
fn numbers_of_lines(comparison: &mut Comparison) {
    let pool: Vec<(Card, Line)> = (0..500)
        .map(|_| {
            let card = any_card(&mut comparison.rng);
            let line = some_line(&mut comparison.rng, &card);
            (card, line)
        })
        .collect();
    let longest = register_len(MAX_CARDS);
    for _ in 0..ROUNDS_OF_COUNTS {
        for count in [MAX_CARDS - 1, MAX_CARDS, MAX_CARDS + 1, MAX_CARDS + 2, 2 * MAX_CARDS] {
            let needed = register_len(count);
            for bad in [None, Some(1), Some(MAX_CARDS - 1), Some(MAX_CARDS), Some(MAX_CARDS + 1), Some(count)] {
                for room in [0, needed - 1, needed, needed + 1, longest - 1, longest, MAX_LEN, needed + longest] {
                    compare_many(comparison, &pool, count, bad.filter(|bad| *bad <= count), room);
                }
            }
        }
    }
}

/// So many lines of a pool, the one at `bad` spoiled.
fn compare_many(comparison: &mut Comparison, pool: &[(Card, Line)], count: usize, bad: Option<usize>, room: usize) {
    let rng = &mut comparison.rng;
    let (cards, mut lines): (Vec<Card>, Vec<Line>) = (0..count).map(|_| rng.pick(pool).clone()).unzip();
    if let Some(bad) = bad {
        let breaker = rng.pick(&BREAKERS);
        lines[bad - 1] = broken_line(rng, breaker);
    }
    let made = bad.map_or(Made::Of(&cards), Made::BadAt);
    let last_feed = rng.one_in(2) || lines[count - 1].length() == 0;
    let outcome = comparison.compare_with_room("many lines", &text(&lines, last_feed), made, room);
    comparison.counts.entry(count).or_default().count(outcome);
}

// The ninth field, which is a concentration in state 5 and a temperature in every other.

/// A ninth field with its value as a concentration and as a temperature, where it is well formed as one.
const TELLING_TENTHS: [(&str, Option<i32>, Option<i32>); 20] = [
    ("0", Some(0), Some(0)),
    ("000", Some(0), Some(0)),
    ("1", Some(1), Some(1)),
    ("370", Some(370), Some(370)),
    ("00370", Some(370), Some(370)),
    (" 370 ", Some(370), Some(370)),
    ("32767", Some(32_767), Some(32_767)),
    ("32768", Some(32_768), None),
    ("65535", Some(65_535), None),
    ("0065535", Some(65_535), None),
    ("65536", None, None),
    ("4294967666", None, None),
    ("-1", None, Some(-1)),
    ("-370", None, Some(-370)),
    ("-32768", None, Some(-32_768)),
    ("-32769", None, None),
    ("-0", None, None),
    ("+1", None, None),
    ("37.0", None, None),
    ("", None, None),
];

/// Each such field in state 5 and in the others, on lines of every kind.
fn tenths_by_state(comparison: &mut Comparison) {
    const KINDS: [u8; 4] = [0, 1, 2, 255];
    const STATES: [(&str, u8); 9] =
        [("5", 5), (" 005 ", 5), ("0", 0), ("1", 1), ("4", 4), ("6", 6), ("15", 15), ("50", 50), ("255", 255)];
    for (tenths, concentration, temperature) in TELLING_TENTHS {
        for (kind, (state, code)) in KINDS.into_iter().flat_map(|kind| STATES.map(|state| (kind, state))) {
            let value = if code == SOLUTION { concentration } else { temperature };
            for _ in 0..OF_EACH_TENTHS {
                let card = Card { kind, state: code, tenths: value.unwrap_or(0), ..any_card(&mut comparison.rng) };
                let mut line = some_line(&mut comparison.rng, &card);
                line.fields[STATE] = state.into();
                line.fields[TENTHS] = tenths.into();
                let outcome = compare_among_others(comparison, "lines by state", card, line, value.is_some());
                let state = if code == SOLUTION { "state 5" } else { "another state" };
                comparison.states.entry(state).or_default().count(outcome);
            }
        }
    }
}

/// A card's line, well formed or not, anywhere among sound ones.
fn compare_among_others(
    comparison: &mut Comparison,
    sort: &'static str,
    card: Card,
    line: Line,
    well_formed: bool,
) -> Outcome {
    let rng = &mut comparison.rng;
    let (mut cards, mut lines) = sound_lines(rng);
    let place = rng.below(lines.len() as u64 + 1) as usize;
    cards.insert(place, card);
    lines.insert(place, line);
    let last_feed = rng.one_in(2);
    let made = if well_formed { Made::Of(&cards) } else { Made::BadAt(place + 1) };
    comparison.compare(sort, &text(&lines, last_feed), made)
}

// The fourth field, which takes what a byte can hold, whether or not it is listed.

/// A fourth field with its value, where it is well formed. 259 would be 3 in a byte.
const TELLING_CONTAINMENTS: [(&str, Option<u8>); 17] = [
    ("3", Some(3)),
    ("03", Some(3)),
    (" 3 ", Some(3)),
    ("0000003", Some(3)),
    ("0", Some(0)),
    ("1", Some(1)),
    ("2", Some(2)),
    ("4", Some(4)),
    ("33", Some(33)),
    ("255", Some(255)),
    ("256", None),
    ("259", None),
    ("-3", None),
    ("+3", None),
    ("3.0", None),
    ("0 3", None),
    ("", None),
];

/// Each such field on lines of every kind.
fn containments(comparison: &mut Comparison) {
    for (field, value) in TELLING_CONTAINMENTS {
        for kind in [1, 2, 255] {
            for _ in 0..OF_EACH_CONTAINMENT {
                let card = Card { kind, containment: value.unwrap_or(0), ..any_card(&mut comparison.rng) };
                let mut line = some_line(&mut comparison.rng, &card);
                line.fields[CONTAINMENT] = field.into();
                let outcome = compare_among_others(comparison, "lines by containment", card, line, value.is_some());
                let containment = match value {
                    Some(SHED_WITH_DOORS) => "3",
                    Some(_) => "another number",
                    None => "no number",
                };
                comparison.containments.entry(containment).or_default().count(outcome);
            }
        }
    }
}

// Texts of which nothing is known beforehand.

/// A line with each byte put at each place, in place of what is there and before it, and with each byte left out.
fn every_byte_everywhere(comparison: &mut Comparison) {
    const SORT: &str = "any byte at any place";
    const LINES: [&[u8]; 3] = [
        b"1,4,2,1,7726-95-6,20000,100,400,250,12,\n",
        b"1,05,1,2,7647-01-0,50000,900,0,40000,14,\n",
        b" 001 ,4, 2 ,1 , 07726-95-6,  20000,0100 , 400,-0025 ,012, \"shed\"\r",
    ];
    for line in LINES {
        for place in 0..line.len() {
            let mut text = line.to_vec();
            for byte in 0..=u8::MAX {
                text[place] = byte;
                comparison.compare(SORT, &text, Made::Unknown);
            }
            text.remove(place);
            comparison.compare(SORT, &text, Made::Unknown);
            for byte in 0..=u8::MAX {
                text = line.to_vec();
                text.insert(place, byte);
                comparison.compare(SORT, &text, Made::Unknown);
            }
        }
    }
}

fn damaged_texts(comparison: &mut Comparison) {
    for _ in 0..DAMAGED {
        let rng = &mut comparison.rng;
        let (_, lines) = sound_lines(rng);
        let mut text = text(&lines, rng.one_in(2));
        for _ in 0..=rng.below(3) {
            damage(rng, &mut text);
        }
        comparison.compare("damaged texts", &text, Made::Unknown);
    }
}

/// A few bytes changed, added, lost, doubled or exchanged.
fn damage(rng: &mut Rng, text: &mut Vec<u8>) {
    const TELLING: &[u8] = b"0123456789,,,---   \n\n\r\t+.";
    if text.is_empty() {
        text.push(*rng.pick(TELLING));
        return;
    }
    let place = rng.below(text.len() as u64) as usize;
    let other = rng.below(text.len() as u64) as usize;
    let (start, end) = (place.min(other), (place.max(other)).min(place.min(other) + 20));
    match rng.below(8) {
        0 => text[place] = *rng.pick(TELLING),
        1 => text[place] = rng.bits() as u8,
        2 => text.insert(place, *rng.pick(TELLING)),
        3 => text.insert(place, rng.bits() as u8),
        4 => drop(text.remove(place)),
        5 => text.swap(place, other),
        6 => drop(text.drain(start..end)),
        _ => {
            let doubled = text[start..end].to_vec();
            text.splice(end..end, doubled);
        }
    }
}

/// Lines pieced together from fields that suit their place and fields that may not.
fn pieced_texts(comparison: &mut Comparison) {
    for _ in 0..PIECED {
        let rng = &mut comparison.rng;
        let lines: Vec<Line> = (0..rng.between(1, 3)).map(|_| pieced_line(rng)).collect();
        let text = text(&lines, rng.one_in(2));
        comparison.compare("pieced lines", &text, Made::Unknown);
    }
}

fn pieced_line(rng: &mut Rng) -> Line {
    // At any place well formed, at some or nowhere.
    const SUITED: [&str; 8] = ["0", "00", "1", " 1", "9 ", "255", "5", " 05"];
    const SUITED_CAS: [&str; 4] = ["7782-50-5", " 07782-50-5 ", "0-00-0", "4294967-29-5"];
    #[rustfmt::skip]
    const DOUBTFUL: [&str; 26] = [
        "256", "65535", "65536", "32767", "32768", "4294967295", "4294967296", "-1", "-0", "-00", "-32768", "-32769",
        "-", "", " ", "+1", "1 1", "7782-50-5", "4294967-29-6", "99999999-99-9", "7782505", "-50-5", "7782-5-5",
        "778-250-5", "7782 -50-5", "-7782-50-5",
    ];
    let fields = *rng.pick(&[REMARK, REMARK + 1, REMARK + 1, REMARK + 1, REMARK + 1, REMARK + 2]);
    let mut field = |place| match place {
        _ if rng.one_in(20) => *rng.pick(&DOUBTFUL),
        CAS => *rng.pick(&SUITED_CAS),
        0..REMARK => *rng.pick(&SUITED),
        _ => *rng.pick(&["", " ", "x", "\r", "-0"]),
    };
    Line { fields: (0..fields).map(|place| field(place).as_bytes().to_vec()).collect() }
}

fn random_bytes(comparison: &mut Comparison) {
    const TELLING: &[u8] = b"01259,,,,,,,,-- \n";
    for round in 0..RANDOM {
        let rng = &mut comparison.rng;
        let length = rng.below(300);
        let any = round % 4 == 0;
        let byte = |_| if any { rng.bits() as u8 } else { *rng.pick(TELLING) };
        let text: Vec<u8> = (0..length).map(byte).collect();
        comparison.compare("random bytes", &text, Made::Unknown);
    }
}
