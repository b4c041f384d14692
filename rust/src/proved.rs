//! The proved library, called through its C interface.

use crate::reference::{Accepted, Farthest, Found, Likely, Refused, Year, ANSWER_LEN, CARD_LEN, SEASONAL_CARD_LEN};

mod c {
    extern "C" {
        pub fn rings_answer(
            register_ptr: *const u8,
            register_len: usize,
            answers_ptr: *mut u8,
            answers_len: usize,
            toxic: *mut u64,
            flammable: *mut u64,
        ) -> u64;
        pub fn rings_leaders_after(
            register_ptr: *const u8,
            register_len: usize,
            cards: usize,
            toxic: *mut u64,
            flammable: *mut u64,
        ) -> u64;
        pub fn rings_day(
            register_ptr: *const u8,
            register_len: usize,
            day: u32,
            toxic: *mut u64,
            flammable: *mut u64,
        ) -> u64;
        pub fn rings_year(
            register_ptr: *const u8,
            register_len: usize,
            toxic: *mut u64,
            flammable: *mut u64,
            toxic_day: *mut u64,
            flammable_day: *mut u64,
        ) -> u64;
        pub fn rings_read_lines(
            text_ptr: *const u8,
            text_len: usize,
            register_ptr: *mut u8,
            register_len: usize,
            at: *mut u64,
        ) -> u64;
        pub fn rings_write_lines(
            register_ptr: *const u8,
            register_len: usize,
            text_ptr: *mut u8,
            text_len: usize,
            at: *mut u64,
        ) -> u64;
        pub fn rings_likely(
            card: *const u8,
            rate: u64,
            minutes: u32,
            table: *mut u64,
            found: *mut u64,
            hundredths: *mut f64,
        ) -> u64;
        pub fn rings_is_old(answer: *const u8) -> u64;
        pub fn rings_add(buffer_ptr: *mut u8, buffer_len: usize, card: *const u8, at: *mut u64) -> u64;
        pub fn rings_replace(buffer_ptr: *mut u8, buffer_len: usize, card: *const u8, at: *mut u64) -> u64;
        pub fn rings_withdraw(buffer_ptr: *mut u8, buffer_len: usize, number: u32, at: *mut u64) -> u64;
    }
}

/// Answers a register into `out`, as [`crate::reference::answer`] does.
pub fn answer(register: &[u8], out: &mut [u8]) -> Result<Accepted, Refused> {
    let (mut toxic, mut flammable) = (0, 0);
    let code = answer_words(register, out, &mut toxic, &mut flammable);
    accepted(code, toxic, flammable)
}

/// The call as C sees it, for tests that look at its words: 0 or a refusal is returned, and the two words are those of
/// the farthest cards, left alone on refusal.
#[allow(unsafe_code)]
pub fn answer_words(register: &[u8], out: &mut [u8], toxic: &mut u64, flammable: &mut u64) -> u64 {
    // SAFETY: each pointer comes from a live slice or reference of the length passed beside it, the writable ones are
    // borrowed mutably and so overlap with nothing, and the library keeps none of them after it returns.
    unsafe { c::rings_answer(register.as_ptr(), register.len(), out.as_mut_ptr(), out.len(), toxic, flammable) }
}

/// The farthest cards among the first `cards` of a register, as [`crate::reference::leaders_after`] gives them.
pub fn leaders_after(register: &[u8], cards: usize) -> Result<Accepted, Refused> {
    let (mut toxic, mut flammable) = (0, 0);
    let code = leaders_after_words(register, cards, &mut toxic, &mut flammable);
    accepted(code, toxic, flammable)
}

/// The call as C sees it, with the words of [`answer_words`].
#[allow(unsafe_code)]
pub fn leaders_after_words(register: &[u8], cards: usize, toxic: &mut u64, flammable: &mut u64) -> u64 {
    // SAFETY: as in `answer_words`. The number of cards is no length of a buffer, and the library admits any.
    unsafe { c::rings_leaders_after(register.as_ptr(), register.len(), cards, toxic, flammable) }
}

/// The farthest cards of a register among those in force on a day, as [`crate::reference::farthest_on`] gives them.
pub fn farthest_on(register: &[u8], day: u32) -> Result<Accepted, Refused> {
    let (mut toxic, mut flammable) = (0, 0);
    let code = farthest_on_words(register, day, &mut toxic, &mut flammable);
    accepted(code, toxic, flammable)
}

/// The call as C sees it, with the words of [`answer_words`].
#[allow(unsafe_code)]
pub fn farthest_on_words(register: &[u8], day: u32, toxic: &mut u64, flammable: &mut u64) -> u64 {
    // SAFETY: as in `answer_words`. The day is any number.
    unsafe { c::rings_day(register.as_ptr(), register.len(), day, toxic, flammable) }
}

/// The farthest cards of a register in a year, with their days, as [`crate::reference::year`] gives them.
pub fn year(register: &[u8]) -> Result<Year, Refused> {
    let (mut rings, mut days) = ([0; 2], [0; 2]);
    let code = year_words(register, &mut rings, &mut days);
    let [toxic, flammable] = rings;
    let farthest = accepted(code, toxic, flammable)?;
    let [toxic_day, flammable_day] = days.map(|day| u16::try_from(day).expect("a day of a year"));
    Ok(Year { farthest, toxic_day, flammable_day })
}

/// The call as C sees it: the words of [`answer_words`], toxic then flammable, and each one's day, all left alone on
/// refusal.
#[allow(unsafe_code)]
pub fn year_words(
    register: &[u8],
    [toxic, flammable]: &mut [u64; 2],
    [toxic_day, flammable_day]: &mut [u64; 2],
) -> u64 {
    // SAFETY: as in `answer_words`. The four words are parts of two arrays that are borrowed mutably, none of them twice.
    unsafe { c::rings_year(register.as_ptr(), register.len(), toxic, flammable, toxic_day, flammable_day) }
}

/// Reads comma lines into `register`, as [`crate::reference::read_lines`] does.
pub fn read_lines(text: &[u8], register: &mut [u8]) -> Result<usize, Refused> {
    let mut at = 0;
    let code = read_lines_words(text, register, &mut at);
    converted(code, at)
}

/// Writes a register as comma lines into `text`, as [`crate::reference::write_lines`] does.
pub fn write_lines(register: &[u8], text: &mut [u8]) -> Result<usize, Refused> {
    let mut at = 0;
    let code = write_lines_words(register, text, &mut at);
    converted(code, at)
}

/// The call as C sees it, for tests that look at its words: 0 or a refusal's number is returned, and the word is set to
/// how many bytes were written or to the refusal's place.
#[allow(unsafe_code)]
pub fn read_lines_words(text: &[u8], register: &mut [u8], at: &mut u64) -> u64 {
    // SAFETY: as in `answer_words`.
    unsafe { c::rings_read_lines(text.as_ptr(), text.len(), register.as_mut_ptr(), register.len(), at) }
}

/// The call as C sees it, with the words of [`read_lines_words`].
#[allow(unsafe_code)]
pub fn write_lines_words(register: &[u8], text: &mut [u8], at: &mut u64) -> u64 {
    // SAFETY: as in `answer_words`.
    unsafe { c::rings_write_lines(register.as_ptr(), register.len(), text.as_mut_ptr(), text.len(), at) }
}

/// The alternative distance of a card, as [`crate::reference::likely`] finds it.
pub fn likely(card: &[u8; CARD_LEN], rate: u64, minutes: u32) -> Result<Likely, Refused> {
    let (mut table, mut found, mut hundredths) = (0, 0, 0.0);
    match likely_words(card, rate, minutes, &mut table, &mut found, &mut hundredths) {
        0 => Ok(Likely { table: table as u8, found: found_of(found), hundredths }),
        refusal => Err(refused(refusal)),
    }
}

/// The call as C sees it, for tests that look at its words: 0 or a refusal is returned, and the three words are the
/// table's number, how the distance was found, and its hundredths of a mile, all left alone on refusal.
#[allow(unsafe_code)]
pub fn likely_words(
    card: &[u8; CARD_LEN],
    rate: u64,
    minutes: u32,
    table: &mut u64,
    found: &mut u64,
    hundredths: &mut f64,
) -> u64 {
    // SAFETY: as in `answer_words`. The card has the 24 bytes that the library reads.
    unsafe { c::rings_likely(card.as_ptr(), rate, minutes, table, found, hundredths) }
}

/// Whether a stored answer is old, as [`crate::reference::is_old`] tells it.
#[allow(unsafe_code)]
pub fn is_old(answer: &[u8; ANSWER_LEN]) -> bool {
    // SAFETY: the answer has the sixteen bytes that the library reads, and it keeps no pointer after it returns.
    match unsafe { c::rings_is_old(answer.as_ptr()) } {
        0 => false,
        1 => true,
        other => panic!("the library has no {other} for whether an answer is old"),
    }
}

/// Adds a card to the register that `buffer` starts with, as [`crate::reference::add`] does.
pub fn add(buffer: &mut [u8], card: &[u8; SEASONAL_CARD_LEN]) -> Result<usize, Refused> {
    let mut at = 0;
    let code = add_words(buffer, card, &mut at);
    converted(code, at)
}

/// Replaces the card of a card's number, as [`crate::reference::replace`] does.
pub fn replace(buffer: &mut [u8], card: &[u8; SEASONAL_CARD_LEN]) -> Result<usize, Refused> {
    let mut at = 0;
    let code = replace_words(buffer, card, &mut at);
    converted(code, at)
}

/// Withdraws the card of a number, as [`crate::reference::withdraw`] does.
pub fn withdraw(buffer: &mut [u8], number: u32) -> Result<usize, Refused> {
    let mut at = 0;
    let code = withdraw_words(buffer, number, &mut at);
    converted(code, at)
}

/// The call as C sees it, for tests that look at its words: 0 or a refusal's number is returned, and the word is set to
/// the register's new length or to the refusal's place.
#[allow(unsafe_code)]
pub fn add_words(buffer: &mut [u8], card: &[u8; SEASONAL_CARD_LEN], at: &mut u64) -> u64 {
    // SAFETY: as in `answer_words`. The card has the 28 bytes that the library reads.
    unsafe { c::rings_add(buffer.as_mut_ptr(), buffer.len(), card.as_ptr(), at) }
}

/// The call as C sees it, with the words of [`add_words`].
#[allow(unsafe_code)]
pub fn replace_words(buffer: &mut [u8], card: &[u8; SEASONAL_CARD_LEN], at: &mut u64) -> u64 {
    // SAFETY: as in `add_words`.
    unsafe { c::rings_replace(buffer.as_mut_ptr(), buffer.len(), card.as_ptr(), at) }
}

/// The call as C sees it, with the words of [`add_words`].
#[allow(unsafe_code)]
pub fn withdraw_words(buffer: &mut [u8], number: u32, at: &mut u64) -> u64 {
    // SAFETY: as in `answer_words`. The number is any, and names no place.
    unsafe { c::rings_withdraw(buffer.as_mut_ptr(), buffer.len(), number, at) }
}

/// An answer's three words: 0 and those of the farthest cards, or a refusal's number × 2^32 + its place.
fn accepted(code: u64, toxic: u64, flammable: u64) -> Result<Accepted, Refused> {
    match code {
        0 => Ok(Accepted { toxic: farthest(toxic), flammable: farthest(flammable) }),
        refusal => Err(refused(refusal)),
    }
}

/// A refusal's number × 2^32 + its place.
fn refused(word: u64) -> Refused {
    Refused { number: (word >> 32) as u8, place: word & 0xffff_ffff }
}

/// How a distance was found, by its number in the C interface.
fn found_of(word: u64) -> Found {
    match word {
        1 => Found::Printed,
        2 => Found::Interpolated,
        3 => Found::Limit,
        other => panic!("the library has no {other} for how a distance was found"),
    }
}

/// The two words of a conversion or an edit: 0 and the bytes written, which a slice held, or a refusal's number and its place.
fn converted(code: u64, at: u64) -> Result<usize, Refused> {
    match code {
        0 => Ok(at as usize),
        number => Err(Refused { number: number as u8, place: at }),
    }
}

/// A farthest card's word is 0 for none, else its number × 65,536 + hundredths of a mile.
fn farthest(word: u64) -> Option<Farthest> {
    (word != 0).then_some(Farthest { card: (word >> 16) as u32, miles: word as u16 })
}
