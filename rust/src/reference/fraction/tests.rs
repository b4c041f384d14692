//! Fractions by value.

use super::Fraction;

fn fraction(numerator: u64, denominator: u64) -> Fraction {
    Fraction::new(numerator, denominator)
}

#[test]
fn a_fraction_is_in_lowest_terms() {
    assert_eq!(fraction(14, 10), fraction(7, 5));
    assert_eq!(fraction(90_958, 3_300).to_string(), "45479/1650");
    assert_eq!(fraction(0, 1_000).to_string(), "0/1");
    assert_eq!((fraction(0, 7), fraction(7, 7)), (Fraction::NONE, Fraction::ONE));
    assert_eq!(fraction(u64::MAX, 5).to_string(), format!("{}/1", u64::MAX / 5));
}

#[test]
fn fractions_are_calculated_with_exactly() {
    let (third, sixth) = (fraction(1, 3), fraction(1, 6));
    assert_eq!(third.plus(sixth), fraction(1, 2));
    assert_eq!(third.minus(sixth), sixth);
    assert_eq!(third.minus(third), Fraction::NONE);
    assert_eq!(third.times(sixth), fraction(1, 18));
    assert_eq!(third.over(sixth), fraction(2, 1));
    assert_eq!(third.times(Fraction::NONE), Fraction::NONE);
    assert_eq!(third.times(Fraction::ONE), third);
}

#[test]
fn fractions_are_ordered_by_value() {
    let rising = [fraction(0, 5), fraction(1, 1_000_000), fraction(32, 33), fraction(33, 34), fraction(7, 5)];
    assert!(rising.is_sorted_by(|lower, higher| lower < higher));
    assert_eq!(fraction(32, 33).min(fraction(33, 34)), fraction(32, 33));
    // Too close for a float.
    let (lower, higher) = (fraction(u64::MAX - 2, u64::MAX - 1), fraction(u64::MAX - 1, u64::MAX));
    assert!(lower < higher);
}

/// No data come near these: every factor just below the most that document 01 allows, and nothing to be divided out.
#[test]
fn the_largest_rate_that_a_card_could_have_is_calculated_with() {
    let factors = fraction(999_999, 1_000_000).times(fraction(999, 100)).times(fraction(1, 10));
    let area = fraction(65_999_999_999, 3_300);
    let exact = fraction(14, 10).times(factors).times(area);
    let slack = fraction(14, 1_000).times(factors).plus(fraction(1, 1_000));
    let bound = exact.plus(slack);
    assert_eq!(bound.minus(slack), exact);
    // About 27,971,972 pounds per minute.
    assert!(exact > fraction(27_971_971_000, 1_000) && bound < fraction(27_971_973_000, 1_000));
    assert_eq!(bound.minus(exact).over(slack), Fraction::ONE);
}
