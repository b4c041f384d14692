//! The ring itself, which an answer tells in hundredths of a mile alone.

use super::ring;
use crate::reference::printed::{printed, Flammable};
use crate::reference::units::{Metres, Miles, Pounds};
use crate::samples::blasts::{exact_quantities, Exact};

const ETHYL_NITRITE: u32 = 109_955;
const HYDROGEN: u32 = 1_333_740;
const PROPANE: u32 = 74_986;

const MOST: u32 = 10_000_000;

fn flammable(cas: u32) -> &'static Flammable {
    printed().flammable(cas).expect("a listed substance")
}

fn metres(cas: u32, pounds: u32) -> Metres {
    ring(flammable(cas), Pounds::new(pounds))
}

#[test]
fn rings_to_try() {
    // 4,913 × 10,000 × 46,333 / 102,960 is 22,108,977.2, between the cubes of 280 and 281.
    assert_eq!(metres(PROPANE, 10_000), Metres::new(281));
    assert_eq!([20_000, 20_001].map(|pounds| metres(PROPANE, pounds)), [Metres::new(354); 2]);
    assert_eq!(metres(PROPANE, 50_000), Metres::new(480));
    assert_eq!(metres(PROPANE, 1), Metres::new(14));
    // The highest heat of combustion, and the most pounds.
    assert_eq!(metres(HYDROGEN, MOST), Metres::new(3_854));
}

#[test]
fn an_exact_quantity_is_the_last_of_its_step() {
    // 4,913 × 715 × 18,000 / 102,960 is 614,125, the cube of 85.
    let rings = [714, 715, 716].map(|pounds| metres(ETHYL_NITRITE, pounds));
    assert_eq!(rings, [85, 85, 86].map(Metres::new));
    assert_eq!(exact_quantities().len(), 87);
    for Exact { cas, pounds, metres: expected } in exact_quantities() {
        assert_eq!(
            [*pounds, pounds + 1].map(|pounds| metres(*cas, pounds)),
            [*expected, expected + 1].map(Metres::new)
        );
    }
}

/// By the words of the request: metres are counted up, and the first that are enough are the ring.
#[test]
fn a_ring_has_the_least_metres_that_are_enough() {
    for flammable in printed().flammables() {
        let mut expected: u128 = 0;
        for pounds in (1..3_000).chain((3_000..MOST).step_by(2_999)).chain([MOST]) {
            let cloud = 4_913 * u128::from(pounds) * u128::from(flammable.heat_of_combustion);
            while expected.pow(3) * 102_960 < cloud {
                expected += 1;
            }
            assert_eq!(
                ring(flammable, Pounds::new(pounds)),
                Metres::new(expected as u64),
                "{pounds} of {}",
                flammable.cas
            );
        }
    }
}

#[test]
fn the_highest_heat_that_the_paper_allows_overflows_nothing() {
    let hottest = Flammable { cas: 0, heat_of_combustion: 150_000 };
    // 4,913 × 10,000,000 × 150,000 / 102,960 is 71,576,340,326.3, between the cubes of 4,151 and 4,152.
    assert_eq!(ring(&hottest, Pounds::new(MOST)), Metres::new(4_152));
}

#[test]
fn hundredths_of_a_mile_are_rounded_up() {
    // 16 metres are 0.9942 hundredths of a mile, and 17 are 1.0563.
    let hundredths = |metres: u64| Metres::new(metres).miles();
    assert_eq!([1, 16, 17, 32, 33].map(hundredths), [1, 1, 2, 2, 3].map(Miles::from_hundredths));
    // The fewest metres that are whole hundredths: 1,609,344 and 100,000 share a factor of 32.
    assert_eq!([50_291, 50_292, 50_293].map(hundredths), [3_125, 3_125, 3_126].map(Miles::from_hundredths));
}
