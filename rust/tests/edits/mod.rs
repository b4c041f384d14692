//! Edits of registers in lent buffers, by the proved library and by the reference.
//!
//! A buffer starts with a register, good or bad, and is handed a list of edits, one after the other. After each, refused or
//! not, every byte of both buffers and of what lies around them is compared, and so are the words. The other calls of the
//! proved library are a third opinion: they say whether the old register is accepted, what is wrong with the new card, and
//! which distances the cards have once a list of them has been edited here. So the whole buffer is told a third time.

mod lists;

use crate::lent::{hex, Lent};
use crate::versions::{self, stored_in, version};
use crate::{report_refusals, Refusals, LEAST_OF_EACH, SEED};
use lists::{edit_in, long_start, start, Start};
use rings_second::proved;
use rings_second::reference::{self, Accepted, Farthest, Refused, CARD_LEN, HEADER_LEN, MAX_CARDS, SEASONAL_CARD_LEN};
use rings_second::samples::edits::Edit;
use rings_second::samples::seasons::Season;
use rings_second::samples::{cards_of, register_of_bytes, seasonal_register, Rng};

const LISTS: usize = 250_000;
/// Lists on registers of a thousand cards and more, up to one too many.
const LONG_LISTS: usize = 500;
const MOST_EDITS: i64 = 7;

/// The refusals that no edit is given: it has neither an answer buffer nor lines, and is supplied with no rate.
const NOT_OF_EDITS: [usize; 5] = [4, 12, 13, 17, 18];
/// Of cases that long registers alone can be.
const LEAST_OF_LONG: usize = 50;

/// A card with its season.
type Card = [u8; SEASONAL_CARD_LEN];

#[test]
fn edits_agree() {
    let mut edits = Edits::new(SEED);
    for _ in 0..LISTS {
        let start = start(&mut edits.rng);
        edits.compare_list(&start);
    }
    for _ in 0..LONG_LISTS {
        let start = long_start(&mut edits.rng);
        edits.compare_list(&start);
    }
    edits.report();
}

/// Compares lists one by one and counts what it met, edit by edit.
#[derive(Default)]
struct Edits {
    rng: Rng,
    buffers: Lent,
    lists: usize,
    adds: usize,
    replaces: usize,
    withdraws: usize,
    refused: Refusals,
    met: Met,
}

/// What was met of accepted edits, and of some refused ones.
#[derive(Default)]
struct Met {
    /// A card came or went before all others, between two, or behind all.
    at_front: usize,
    in_middle: usize,
    at_end: usize,
    /// The first accepted edit carried version 1 or version 2 to version 3; cards had seasons before.
    carried_from_1: usize,
    carried_from_2: usize,
    seasonal: usize,
    /// The buffer has no byte behind the register as it now is; or had some, which are zeros now.
    filled: usize,
    cleared: usize,
    /// A stored distance grew, shrank, or stayed as it was.
    grew: usize,
    shrank: usize,
    stayed: usize,
    /// No card is left; the number is the largest; a card gave way to the same bytes.
    emptied: usize,
    largest: usize,
    same: usize,
    /// An accepted edit behind a refused one of its list.
    after_a_refusal: usize,
    /// Refused: the number zero; a byte too little; a card to withdraw, since the others grow; the cards pass, but a stored
    /// distance is wrong.
    zero: usize,
    short_by_one: usize,
    withdrawn_without_room: usize,
    stale: usize,
    /// Of registers with as many cards as there may be: accepted, and one card too many.
    full: usize,
    overfull: usize,
}

impl Edits {
    fn new(seed: u64) -> Self {
        Edits { rng: Rng::new(seed), ..Edits::default() }
    }

    fn compare_list(&mut self, start: &Start) {
        self.lists += 1;
        self.buffers.fill_behind(&mut self.rng, start.room, &start.register);
        let mut was_refused = false;
        for _ in 0..self.rng.between(1, MOST_EDITS) {
            let edit = edit_in(&mut self.rng, self.buffers.before());
            let result = self.compare(&edit);
            self.met.after_a_refusal += usize::from(was_refused && result.is_ok());
            was_refused |= result.is_err();
            self.buffers.go_on();
        }
    }

    /// Both edit their buffers; panics where a word or a byte differs, or is not what the third opinion says.
    fn compare(&mut self, edit: &Edit) -> Result<usize, Refused> {
        let ours = by_reference(self.buffers.ours(), edit);
        // The word is set in every case, whatever it held.
        let mut at = self.rng.bits();
        let code = by_proved(self.buffers.theirs(), edit, &mut at);
        let expected = words(ours);
        if expected != (code, at) || self.buffers.difference().is_some() {
            panic!(
                "they disagree on {edit:x?} in the buffer\n{}\nreference: {expected:?}\nproved:    {:?}\n\
                 first byte that differs (0 is the buffer's first): {:?}\n",
                hex(self.buffers.before()),
                (code, at),
                self.buffers.difference(),
            );
        }
        let third = third_opinion(self.buffers.before(), edit);
        self.hold(edit, ours, &third);
        match third {
            Ok(edited) => self.count(edit, &edited),
            Err(refused) => self.count_refused(edit, refused),
        }
        ours
    }

    /// Holds a result and the buffers to the third opinion.
    fn hold(&mut self, edit: &Edit, met: Result<usize, Refused>, third: &Result<Edited, Refused>) {
        let length = third.as_ref().map(|edited| edited.register.len()).map_err(|refused| *refused);
        assert_eq!(met, length, "{edit:x?} in the buffer {}", hex(self.buffers.before()));
        assert!(self.buffers.kept_around(), "a byte outside the buffer was changed");
        let (register, behind) = self.buffers.theirs().split_at(length.unwrap_or(0));
        match third {
            Ok(edited) => {
                assert_eq!(register, edited.register, "the register after {edit:x?}");
                assert!(behind.iter().all(|byte| *byte == 0), "no zeros behind the register after {edit:x?}");
                assert_eq!(answered(register), Ok(edited.distances), "the register after {edit:x?}");
            }
            Err(_) => assert!(self.buffers.kept_all(), "a refused edit changed a byte: {edit:x?}"),
        }
    }

    fn count(&mut self, edit: &Edit, edited: &Edited) {
        let Edited { place, others, distances, old_distances, old_version, .. } = *edited;
        match edit {
            Edit::Add(_) => self.adds += 1,
            Edit::Replace(_) => self.replaces += 1,
            Edit::Withdraw(_) => self.withdraws += 1,
        }
        let met = &mut self.met;
        met.at_front += usize::from(place == 0 && others > 0);
        met.in_middle += usize::from(place > 0 && place < others);
        met.at_end += usize::from(place > 0 && place == others);
        met.carried_from_1 += usize::from(old_version == 1);
        met.carried_from_2 += usize::from(old_version == 2);
        met.seasonal += usize::from(old_version == 3);
        met.filled += usize::from(edited.register.len() == self.buffers.before().len());
        met.cleared += usize::from(self.buffers.before()[edited.register.len()..].iter().any(|byte| *byte != 0));
        met.grew += usize::from((0..2).any(|class| distances[class] > old_distances[class]));
        met.shrank += usize::from((0..2).any(|class| distances[class] < old_distances[class]));
        met.stayed += usize::from(distances == old_distances);
        met.emptied += usize::from(edited.register.len() == 11);
        met.largest += usize::from(number_of(edit) == u32::MAX);
        let old_card = |place| cards_of(self.buffers.before()).nth(place).map(with_season);
        met.same += usize::from(matches!(edit, Edit::Replace(card) if old_card(place) == Some(*card)));
        met.full += usize::from(cards_of(&edited.register).len() == MAX_CARDS);
    }

    fn count_refused(&mut self, edit: &Edit, Refused { number, .. }: Refused) {
        self.refused[usize::from(number)] += 1;
        let before = self.buffers.before();
        let register = before.get(..length_in(before).unwrap_or(0)).unwrap_or_default();
        let cards = cards_of(register);
        let is_withdrawn = matches!(edit, Edit::Withdraw(_));
        let more = cards.len() + usize::from(matches!(edit, Edit::Add(_))) - usize::from(is_withdrawn && number == 20);
        let needed = 11 + more * SEASONAL_CARD_LEN;
        let met = &mut self.met;
        met.zero += usize::from(number_of(edit) == 0 && [5, 19].contains(&number));
        met.short_by_one += usize::from(number == 20 && before.len() + 1 == needed);
        met.withdrawn_without_room += usize::from(number == 20 && is_withdrawn);
        met.stale += usize::from(number == 3 && stored_in(register).is_some() && cards.len() <= MAX_CARDS);
        met.overfull += usize::from(number == 20 && cards.len() == MAX_CARDS && before.len() >= needed);
    }

    fn report(&self) {
        let Edits { adds, replaces, withdraws, met, .. } = self;
        let edits = adds + replaces + withdraws + self.refused.iter().sum::<usize>();
        println!("{} lists of edits compared, {edits} edits", self.lists);
        assert!(self.lists >= LISTS);
        for (what, met, least) in [
            ("accepted: cards added", *adds, LEAST_OF_EACH),
            ("accepted: cards replaced", *replaces, LEAST_OF_EACH),
            ("accepted: cards withdrawn", *withdraws, LEAST_OF_EACH),
            ("at the front", met.at_front, LEAST_OF_EACH),
            ("in the middle", met.in_middle, LEAST_OF_EACH),
            ("at the end", met.at_end, LEAST_OF_EACH),
            ("that carried version 1 to version 3", met.carried_from_1, LEAST_OF_EACH),
            ("that carried version 2 to version 3", met.carried_from_2, LEAST_OF_EACH),
            ("of version 3", met.seasonal, LEAST_OF_EACH),
            ("that filled the buffer", met.filled, LEAST_OF_EACH),
            ("that put zeros behind the register", met.cleared, LEAST_OF_EACH),
            ("after which a distance is longer", met.grew, LEAST_OF_EACH),
            ("after which a distance is shorter", met.shrank, LEAST_OF_EACH),
            ("after which both distances are the same", met.stayed, LEAST_OF_EACH),
            ("that left no card", met.emptied, LEAST_OF_EACH),
            ("of the largest number", met.largest, LEAST_OF_EACH),
            ("by the same bytes", met.same, LEAST_OF_EACH),
            ("accepted behind a refused one", met.after_a_refusal, LEAST_OF_EACH),
            ("refused for the number zero", met.zero, LEAST_OF_EACH),
            ("refused for a byte", met.short_by_one, LEAST_OF_EACH),
            ("refused for room to withdraw", met.withdrawn_without_room, LEAST_OF_EACH),
            ("refused for a stored distance", met.stale, LEAST_OF_EACH),
            ("that left as many cards as there may be", met.full, LEAST_OF_LONG),
            ("refused for one card too many", met.overfull, LEAST_OF_LONG),
        ] {
            println!("edits {what}: {met}");
            assert!(met >= least, "edits {what} were met too seldom");
        }
        report_refusals("edits refused", &self.refused, NOT_OF_EDITS);
    }
}

fn by_reference(buffer: &mut [u8], edit: &Edit) -> Result<usize, Refused> {
    match edit {
        Edit::Add(card) => reference::add(buffer, card),
        Edit::Replace(card) => reference::replace(buffer, card),
        Edit::Withdraw(number) => reference::withdraw(buffer, *number),
    }
}

fn by_proved(buffer: &mut [u8], edit: &Edit, at: &mut u64) -> u64 {
    match edit {
        Edit::Add(card) => proved::add_words(buffer, card, at),
        Edit::Replace(card) => proved::replace_words(buffer, card, at),
        Edit::Withdraw(number) => proved::withdraw_words(buffer, *number, at),
    }
}

/// The two words of the C interface for an edit's result.
fn words(result: Result<usize, Refused>) -> (u64, u64) {
    match result {
        Ok(length) => (0, length as u64),
        Err(Refused { number, place }) => (u64::from(number), place),
    }
}

// The third opinion.

/// What an accepted edit leaves, told by the other calls.
struct Edited {
    register: Vec<u8>,
    distances: [u16; 2],
    /// The place of the card that came or went, and how many cards there are beside it.
    place: usize,
    others: usize,
    old_distances: [u16; 2],
    old_version: u8,
}

/// What the calls for whole registers say of an edit of the register that a buffer starts with.
fn third_opinion(buffer: &[u8], edit: &Edit) -> Result<Edited, Refused> {
    let refused = |number| Err(Refused { number, place: 0 });
    let Some(old) = length_in(buffer).filter(|length| *length >= HEADER_LEN).and_then(|length| buffer.get(..length))
    else {
        return refused(1);
    };
    let old_distances = distances(old)?;
    let mut cards: Vec<Card> = cards_of(old).map(with_season).collect();
    let number = number_of(edit);
    let found = cards.binary_search_by_key(&number, |card| number_in(card));
    let (Ok(place) | Err(place)) = found;
    match (edit, found) {
        (Edit::Add(card), Err(_)) => cards.insert(place, *card),
        (Edit::Replace(card), Ok(_)) => cards[place] = *card,
        (Edit::Withdraw(_), Ok(_)) => drop(cards.remove(place)),
        _ => return refused(19),
    }
    let length = 11 + cards.len() * SEASONAL_CARD_LEN;
    if length > buffer.len() || cards.len() > MAX_CARDS {
        return refused(20);
    }
    if let Edit::Add(card) | Edit::Replace(card) = edit {
        if let Some(number) = refusal_alone(card) {
            return Err(Refused { number, place: place as u64 });
        }
    }
    let plain: Vec<_> = cards.iter().map(without_season).collect();
    let distances = distances(&register_of_bytes(&plain)).expect("cards that are accepted one by one");
    Ok(Edited {
        register: seasonal_register(&cards, distances),
        distances,
        place,
        others: cards.len() - usize::from(!matches!(edit, Edit::Withdraw(_))),
        old_distances,
        old_version: version(old).expect("an accepted register"),
    })
}

/// What is wrong with a card alone, with no number before its own: its season is judged here, the rest by the call for
/// whole registers.
fn refusal_alone(card: &Card) -> Option<u8> {
    let plain = distances(&register_of_bytes(&[without_season(card)])).err().map(|refused| refused.number);
    match versions::is_in_range(Season::of(card)) {
        true => plain,
        false => Some(versions::with_season(plain)),
    }
}

/// A card with the season that it has or, as older cards gain it, the whole year.
fn with_season(card: &[u8]) -> Card {
    Season::of(card).behind(card.first_chunk().expect("24 bytes at least"))
}

fn without_season(card: &Card) -> [u8; CARD_LEN] {
    *card.first_chunk().expect("24 bytes at least")
}

/// The distances of a register's farthest cards, zero for none, by the call that needs no answer buffer.
fn distances(register: &[u8]) -> Result<[u16; 2], Refused> {
    proved::leaders_after(register, usize::MAX).map(both_miles)
}

/// The same by the call that fills one. A card is longer than its answer, so as many bytes as the register has are enough.
fn answered(register: &[u8]) -> Result<[u16; 2], Refused> {
    proved::answer(register, &mut vec![0; register.len()]).map(both_miles)
}

fn both_miles(Accepted { toxic, flammable }: Accepted) -> [u16; 2] {
    [toxic, flammable].map(|farthest: Option<Farthest>| farthest.map_or(0, |farthest| farthest.miles))
}

/// What the length field of a buffer says.
fn length_in(buffer: &[u8]) -> Option<usize> {
    buffer.first_chunk().map(|field| u32::from_be_bytes(*field) as usize)
}

fn number_of(edit: &Edit) -> u32 {
    match edit {
        Edit::Add(card) | Edit::Replace(card) => number_in(card),
        Edit::Withdraw(number) => *number,
    }
}

/// The number of a card, with or without a season.
fn number_in(card: &[u8]) -> u32 {
    u32::from_be_bytes([card[20], card[21], card[22], card[23]])
}
