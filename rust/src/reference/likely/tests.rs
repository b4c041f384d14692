//! Rules that no printed figure puts to the test by itself.

use super::{distance, interpolated, Found, Pair};
use crate::reference::printed::{Reading, Row};
use crate::reference::units::{Miles, PoundsPerMinute};

fn rate(thousandths: u64) -> PoundsPerMinute {
    PoundsPerMinute::from_thousandths(thousandths)
}

fn row(thousandths: u64, hundredths: u16) -> Row {
    Row { rate: rate(thousandths), miles: Miles::from_hundredths(hundredths) }
}

#[test]
fn an_entry_of_25_miles_is_the_limit_wherever_it_stands() {
    // No table begins with one: the first entry is the limit then, and so is all between it and the next.
    let limit = (Found::Limit, 2_500.0);
    assert_eq!(distance(Reading::Entry(Miles::from_hundredths(2_500)), rate(1)), limit);
    assert_eq!(distance(Reading::Between(row(1_000, 10), row(2_000, 2_500)), rate(1_001)), limit);
    assert_eq!(distance(Reading::Between(row(1_000, 2_500), row(2_000, 2_500)), rate(1_999)), limit);
    let printed = (Found::Printed, 2_490.0);
    assert_eq!(distance(Reading::Entry(Miles::from_hundredths(2_490)), rate(1)), printed);
}

#[test]
fn a_distance_between_rows_stays_between_theirs() {
    let (below, above) = (Pair::from(row(1_000, 10)), Pair::from(row(1_000_000_000, 2_490)));
    let at = |thousandths: u64| interpolated(below, above, rate(thousandths));
    assert!(at(1_001) > 10.0 && at(999_999_999) < 2_490.0);
    // Both ends come out exactly, though a row's own rate is never interpolated.
    assert_eq!([at(1_000), at(1_000_000_000)], [10.0, 2_490.0]);
}

#[test]
fn each_operation_is_rounded_by_itself() {
    // Chlorine, rural, at 450.050 pounds per minute: quotient first, and no two operations in one.
    let (below, above) = (Pair::from(row(400_000, 80)), Pair::from(row(500_000, 100)));
    let met = interpolated(below, above, rate(450_050));
    let quotient: f64 = 50_050.0 / 100_000.0;
    assert_eq!(met, 80.0 + 20.0 * quotient);
    assert_ne!(met, quotient.mul_add(20.0, 80.0));
    assert_ne!(met, 80.0 + 20.0 * 50_050.0 / 100_000.0);
    assert_ne!(met, 80.0 + 50_050.0 * (20.0 / 100_000.0));
}
