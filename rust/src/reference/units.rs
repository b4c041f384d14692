//! The four units of the guidance, the metres of Equation C-1, and the concentration of a solution. They never stand for
//! one another, so each is a type of its own.

use std::fmt;

/// Whole pounds.
#[derive(Debug, Clone, Copy, PartialEq, Eq, PartialOrd, Ord)]
pub struct Pounds(u64);

/// Pounds per minute, in thousandths.
#[derive(Debug, Clone, Copy, PartialEq, Eq, PartialOrd, Ord)]
pub struct PoundsPerMinute(u64);

/// Square feet, in hundredths.
#[derive(Debug, Clone, Copy, PartialEq, Eq, PartialOrd, Ord)]
pub struct SquareFeet(u64);

/// Miles, in hundredths.
#[derive(Debug, Clone, Copy, PartialEq, Eq, PartialOrd, Ord)]
pub struct Miles(u16);

/// Whole metres.
#[derive(Debug, Clone, Copy, PartialEq, Eq, PartialOrd, Ord)]
pub struct Metres(u64);

/// How much of a solution's weight is the substance, in tenths of a percent.
#[derive(Debug, Clone, Copy, PartialEq, Eq, PartialOrd, Ord)]
pub struct Concentration(u16);

impl Pounds {
    pub const fn new(pounds: u32) -> Self {
        Self(pounds as u64)
    }

    pub const fn whole(self) -> u64 {
        self.0
    }
}

impl PoundsPerMinute {
    /// The rate of a blast.
    pub const NONE: Self = Self(0);

    pub const fn from_thousandths(thousandths: u64) -> Self {
        Self(thousandths)
    }

    pub const fn thousandths(self) -> u64 {
        self.0
    }
}

impl SquareFeet {
    pub const fn from_hundredths(hundredths: u64) -> Self {
        Self(hundredths)
    }

    pub const fn from_whole(feet: u32) -> Self {
        Self(feet as u64 * 100)
    }

    pub const fn hundredths(self) -> u64 {
        self.0
    }
}

impl Miles {
    pub const fn from_hundredths(hundredths: u16) -> Self {
        Self(hundredths)
    }

    pub const fn hundredths(self) -> u16 {
        self.0
    }
}

impl Metres {
    pub const fn new(metres: u64) -> Self {
        Self(metres)
    }

    /// A mile has 1,609.344 metres; its hundredths are rounded up.
    pub const fn miles(self) -> Miles {
        Miles((self.0 * 100_000).div_ceil(1_609_344) as u16)
    }
}

impl Concentration {
    /// Water with nothing in it.
    pub const NONE: Self = Self(0);

    pub const fn from_tenths(tenths: u16) -> Self {
        Self(tenths)
    }

    pub const fn tenths(self) -> u16 {
        self.0
    }
}

impl fmt::Display for PoundsPerMinute {
    fn fmt(&self, f: &mut fmt::Formatter) -> fmt::Result {
        write!(f, "{}.{:03}", self.0 / 1_000, self.0 % 1_000)
    }
}

impl fmt::Display for Miles {
    fn fmt(&self, f: &mut fmt::Formatter) -> fmt::Result {
        write!(f, "{}.{:02}", self.0 / 100, self.0 % 100)
    }
}
