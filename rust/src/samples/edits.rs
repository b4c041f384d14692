//! Edits of registers in lent buffers.

use crate::reference::SEASONAL_CARD_LEN;

/// An edit of the register that a buffer starts with.
#[derive(Debug, Clone, Copy, PartialEq, Eq)]
pub enum Edit {
    /// A card is added at its place by number.
    Add([u8; SEASONAL_CARD_LEN]),
    /// The card of the same number gives way to this one.
    Replace([u8; SEASONAL_CARD_LEN]),
    /// The card of this number goes.
    Withdraw(u32),
}
