//! Fractions of two whole numbers, for what is told unrounded.

#[cfg(test)]
mod tests;

use std::cmp::Ordering;
use std::fmt;

/// What a sum or a product that 128 bits do not hold is told with. It never wraps.
const TOO_LARGE: &str = "a fraction has become too large";

/// A fraction of zero or more, in lowest terms, so that two of them are the same exactly when their values are.
#[derive(Debug, Clone, Copy, PartialEq, Eq)]
pub struct Fraction {
    numerator: u128,
    denominator: u128,
}

impl Fraction {
    /// Zero.
    pub const NONE: Self = Fraction { numerator: 0, denominator: 1 };
    /// One.
    pub const ONE: Self = Fraction { numerator: 1, denominator: 1 };

    /// A number divided by another, which is not zero: 1.4 is 14 by 10.
    pub fn new(numerator: u64, denominator: u64) -> Self {
        Self::in_lowest_terms(numerator.into(), denominator.into())
    }

    fn in_lowest_terms(numerator: u128, denominator: u128) -> Self {
        assert!(denominator > 0, "nothing is divided by zero");
        let divisor = greatest_common_divisor(numerator, denominator);
        Fraction { numerator: numerator / divisor, denominator: denominator / divisor }
    }

    /// The number above the line.
    pub fn numerator(self) -> u128 {
        self.numerator
    }

    /// The number below the line.
    pub fn denominator(self) -> u128 {
        self.denominator
    }

    /// The product of two.
    pub fn times(self, other: Self) -> Self {
        Self::in_lowest_terms(product(self.numerator, other.numerator), product(self.denominator, other.denominator))
    }

    /// The quotient by one that is not zero.
    pub fn over(self, other: Self) -> Self {
        self.times(Self::in_lowest_terms(other.denominator, other.numerator))
    }

    /// The sum of two.
    pub fn plus(self, other: Self) -> Self {
        let (ours, theirs) = self.crosswise(other);
        let sum = ours.checked_add(theirs).expect(TOO_LARGE);
        Self::in_lowest_terms(sum, product(self.denominator, other.denominator))
    }

    /// The difference to one that is no larger.
    pub fn minus(self, other: Self) -> Self {
        let (ours, theirs) = self.crosswise(other);
        let difference = ours.checked_sub(theirs).expect("no fraction is below zero");
        Self::in_lowest_terms(difference, product(self.denominator, other.denominator))
    }

    /// The numerators over the same denominator, the product of both.
    fn crosswise(self, other: Self) -> (u128, u128) {
        (product(self.numerator, other.denominator), product(other.numerator, self.denominator))
    }
}

/// By value.
impl Ord for Fraction {
    fn cmp(&self, other: &Self) -> Ordering {
        let (ours, theirs) = self.crosswise(*other);
        ours.cmp(&theirs)
    }
}

impl PartialOrd for Fraction {
    fn partial_cmp(&self, other: &Self) -> Option<Ordering> {
        Some(self.cmp(other))
    }
}

impl fmt::Display for Fraction {
    fn fmt(&self, f: &mut fmt::Formatter) -> fmt::Result {
        write!(f, "{}/{}", self.numerator, self.denominator)
    }
}

fn product(left: u128, right: u128) -> u128 {
    left.checked_mul(right).expect(TOO_LARGE)
}

fn greatest_common_divisor(left: u128, right: u128) -> u128 {
    let (mut larger, mut smaller) = (left, right);
    while smaller > 0 {
        (larger, smaller) = (smaller, larger % smaller);
    }
    larger
}
