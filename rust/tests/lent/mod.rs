//! Buffers that are lent to both implementations, so that every byte in and around them can be compared.

use rings_second::proved;
use rings_second::reference::{self, Refused};
use rings_second::samples::Rng;
use std::ops::Range;

/// Bytes kept on either side of a lent buffer, to catch a write outside it.
const MARGIN: usize = 32;

/// A buffer for each implementation, filled with the same random bytes, and what they held before.
#[derive(Default)]
pub struct Lent {
    length: usize,
    before: Vec<u8>,
    ours: Vec<u8>,
    theirs: Vec<u8>,
}

impl Lent {
    /// Makes both buffers a length, with the same new bytes in and around them.
    pub fn fill(&mut self, rng: &mut Rng, length: usize) {
        self.length = length;
        self.before.clear();
        while self.before.len() < length + 2 * MARGIN {
            self.before.extend(rng.bits().to_ne_bytes());
        }
        self.ours.clone_from(&self.before);
        self.theirs.clone_from(&self.before);
    }

    fn range(&self) -> Range<usize> {
        MARGIN..MARGIN + self.length
    }

    /// The reference's buffer.
    pub fn ours(&mut self) -> &mut [u8] {
        let range = self.range();
        &mut self.ours[range]
    }

    /// The proved library's buffer.
    pub fn theirs(&mut self) -> &mut [u8] {
        let range = self.range();
        &mut self.theirs[range]
    }

    /// Where the two differ first, in the buffers or around them; 0 is the buffers' first byte.
    pub fn difference(&self) -> Option<i64> {
        if self.ours == self.theirs {
            return None;
        }
        let place = self.ours.iter().zip(&self.theirs).position(|(ours, theirs)| ours != theirs);
        place.map(|place| place as i64 - MARGIN as i64)
    }

    /// Both convert with buffers of a length; panics where a word or a byte differs, or one changed that should stay.
    pub fn compare(
        &mut self,
        rng: &mut Rng,
        conversion: &Conversion,
        from: &[u8],
        room: usize,
    ) -> Result<usize, Refused> {
        self.fill(rng, room);
        let ours = (conversion.reference)(from, self.ours());
        let expected = words(ours);
        // The word is set in every case, whatever it held.
        let mut at = rng.bits();
        let code = (conversion.proved)(from, self.theirs(), &mut at);
        if expected != (code, at) || self.difference().is_some() {
            panic!(
                "{} into {room} bytes, they disagree on\n{}\nwhich is \"{}\"\n\
                 reference: {expected:?}\nproved:    {:?}\n\
                 first byte that differs (0 is the buffer's first): {:?}\n",
                conversion.name,
                hex(from),
                from.escape_ascii(),
                (code, at),
                self.difference(),
            );
        }
        assert!(self.kept_all_but(ours.unwrap_or(0)), "{} changed a byte that should stay", conversion.name);
        ours
    }

    /// Whether the reference changed none but the first so many bytes of its buffer.
    fn kept_all_but(&self, written: usize) -> bool {
        let behind = MARGIN + written;
        self.ours[..MARGIN] == self.before[..MARGIN] && self.ours[behind..] == self.before[behind..]
    }
}

/// For edits, which change in a buffer what it holds; the comparison of texts has none.
#[allow(dead_code)]
impl Lent {
    /// Makes both buffers a length, and lets them start with the same bytes, as many of them as there is room for.
    pub fn fill_behind(&mut self, rng: &mut Rng, length: usize, start: &[u8]) {
        self.fill(rng, length);
        let taken = start.len().min(length);
        for buffer in [&mut self.before, &mut self.ours, &mut self.theirs] {
            buffer[MARGIN..MARGIN + taken].copy_from_slice(&start[..taken]);
        }
    }

    /// What both buffers held before the call.
    pub fn before(&self) -> &[u8] {
        &self.before[self.range()]
    }

    /// Whether all bytes around the proved library's buffer are what they were.
    pub fn kept_around(&self) -> bool {
        let Range { start, end } = self.range();
        self.theirs[..start] == self.before[..start] && self.theirs[end..] == self.before[end..]
    }

    /// Whether the proved library's buffer, and all bytes around it, are what they were.
    pub fn kept_all(&self) -> bool {
        self.theirs == self.before
    }

    /// Takes what the buffers hold now, both the same, as what they hold before the next call.
    pub fn go_on(&mut self) {
        self.before.clone_from(&self.theirs);
    }
}

/// A call that converts one buffer into another, by both implementations.
pub struct Conversion {
    name: &'static str,
    reference: fn(&[u8], &mut [u8]) -> Result<usize, Refused>,
    proved: fn(&[u8], &mut [u8], &mut u64) -> u64,
}

pub const READ_LINES: Conversion =
    Conversion { name: "reading lines", reference: reference::read_lines, proved: proved::read_lines_words };

pub const WRITE_LINES: Conversion =
    Conversion { name: "writing lines", reference: reference::write_lines, proved: proved::write_lines_words };

/// The two words of the C interface for a conversion's result.
fn words(result: Result<usize, Refused>) -> (u64, u64) {
    match result {
        Ok(written) => (0, written as u64),
        Err(Refused { number, place }) => (u64::from(number), place),
    }
}

pub fn hex(bytes: &[u8]) -> String {
    bytes.iter().map(|byte| format!("{byte:02x}")).collect()
}
