//! The header of a register: length, version and count by document 01, and from version 2 on, by request A9 of document 02,
//! both classes' farthest distances behind them. The cards of version 3, by request A10, have a season.

use super::{Accepted, Farthest, Fault, Refused, CARD_LEN, MAX_CARDS, SEASONAL_CARD_LEN};

/// Bytes of a register of version 1 before its first card.
pub const HEADER_LEN: usize = 7;
/// Bytes of a register that stores distances, version 2 or 3, before its first card.
pub const STORED_HEADER_LEN: usize = HEADER_LEN + 4;

const VERSION_BYTE: usize = 4;
/// Document 01's version, which comma lines are read into and written from.
const VERSION: u8 = 1;
/// The version that stores the farthest distances.
const STORED_VERSION: u8 = 2;
/// The version whose cards have seasons, which every accepted edit makes.
const SEASONAL_VERSION: u8 = 3;

/// How long a version's header is, and how long its cards are.
struct Layout {
    header_len: usize,
    card_len: usize,
}

impl Layout {
    fn of(version: u8) -> Option<Self> {
        match version {
            VERSION => Some(Layout { header_len: HEADER_LEN, card_len: CARD_LEN }),
            STORED_VERSION => Some(Layout { header_len: STORED_HEADER_LEN, card_len: CARD_LEN }),
            SEASONAL_VERSION => Some(Layout { header_len: STORED_HEADER_LEN, card_len: SEASONAL_CARD_LEN }),
            _ => None,
        }
    }
}

/// The cards of a register, one behind the other.
#[derive(Clone, Copy)]
pub(super) struct Cards<'r> {
    bytes: &'r [u8],
    /// Bytes of a card.
    card_len: usize,
}

impl<'r> Cards<'r> {
    pub fn new<const LEN: usize>(cards: &'r [[u8; LEN]]) -> Self {
        Cards { bytes: cards.as_flattened(), card_len: LEN }
    }

    pub fn count(self) -> usize {
        self.bytes.len() / self.card_len
    }

    pub fn each(self) -> impl Iterator<Item = &'r [u8]> {
        self.bytes.chunks_exact(self.card_len)
    }
}

/// The farthest distances as a header stores them, toxic then flammable, in hundredths of a mile: zero for none. A season
/// has always a day, so those of the year are those of all cards.
#[derive(Clone, Copy, PartialEq, Eq)]
struct Stored([u16; 2]);

impl Stored {
    fn of(Accepted { toxic, flammable }: Accepted) -> Self {
        Stored([toxic, flammable].map(|farthest: Option<Farthest>| farthest.map_or(0, |farthest| farthest.miles)))
    }
}

/// A register that has passed checks 1 to 3, taken apart.
pub(super) struct Register<'r> {
    pub cards: Cards<'r>,
    stored: Option<Stored>,
}

impl<'r> Register<'r> {
    /// Checks 1 to 3, as far as they need no card.
    pub fn read(bytes: &'r [u8]) -> Result<Self, Refused> {
        Register::laid_out(bytes, Layout::of(version(bytes)?))
    }

    /// The same where no version but document 01's is taken.
    pub fn read_version_1(bytes: &'r [u8]) -> Result<Self, Refused> {
        let layout = match version(bytes)? {
            VERSION => Layout::of(VERSION),
            _ => None,
        };
        Register::laid_out(bytes, layout)
    }

    fn laid_out(bytes: &'r [u8], layout: Option<Layout>) -> Result<Self, Refused> {
        let Layout { header_len, card_len } = layout.ok_or_else(|| Fault::Version.of_register())?;
        let count = usize::from(u16::from_be_bytes([bytes[5], bytes[6]]));
        if count > MAX_CARDS || bytes.len() != header_len + count * card_len {
            return Err(Fault::Count.of_register());
        }
        let (header, cards) = bytes.split_at(header_len);
        let stored = match header[HEADER_LEN..] {
            [t0, t1, f0, f1] => Some(Stored([[t0, t1], [f0, f1]].map(u16::from_be_bytes))),
            _ => None,
        };
        Ok(Register { cards: Cards { bytes: cards, card_len }, stored })
    }

    /// The last of all checks, once every card has passed: stored distances are those of the farthest cards.
    pub fn check_stored(&self, farthest: Accepted) -> Result<(), Refused> {
        match self.stored {
            Some(stored) if stored != Stored::of(farthest) => Err(Fault::Count.of_register()),
            _ => Ok(()),
        }
    }
}

/// Check 1, and the version of a register that has passed it.
fn version(bytes: &[u8]) -> Result<u8, Refused> {
    let length = length_field(bytes).filter(|_| bytes.len() >= HEADER_LEN);
    if length != Some(bytes.len() as u64) {
        return Err(Fault::Length.of_register());
    }
    Ok(bytes[VERSION_BYTE])
}

/// What the first four bytes say, if there are so many.
pub(super) fn length_field(bytes: &[u8]) -> Option<u64> {
    bytes.first_chunk().map(|field| u32::from_be_bytes(*field).into())
}

/// The header of a register of version 1 with these cards, which are not too many.
pub(super) fn header_1(cards: &[u8]) -> [u8; HEADER_LEN] {
    start(HEADER_LEN + cards.len(), VERSION, cards.len() / CARD_LEN)
}

/// The header of a register of version 3 with these cards, which are not too many, and their farthest.
pub(super) fn header_3(cards: &[[u8; SEASONAL_CARD_LEN]], farthest: Accepted) -> [u8; STORED_HEADER_LEN] {
    let mut header = [0; STORED_HEADER_LEN];
    let (start_bytes, stored) = header.split_at_mut(HEADER_LEN);
    let length = STORED_HEADER_LEN + cards.as_flattened().len();
    start_bytes.copy_from_slice(&start(length, SEASONAL_VERSION, cards.len()));
    stored.copy_from_slice(Stored::of(farthest).0.map(u16::to_be_bytes).as_flattened());
    header
}

/// Length, version and count.
fn start(length: usize, version: u8, count: usize) -> [u8; HEADER_LEN] {
    let [l0, l1, l2, l3] = (length as u32).to_be_bytes();
    let [c0, c1] = (count as u16).to_be_bytes();
    [l0, l1, l2, l3, version, c0, c1]
}
