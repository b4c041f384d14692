//! Request A10 of document 02, rule by rule. `tests/days.txt` has registers with their rings.

use super::{farthest_on, year, Year};
use crate::reference::{answer, leaders_after, Accepted, Farthest, Refused, ANSWER_LEN};
use crate::samples::seasons::{any_season, Season, LAST_DAY, WHOLE_YEAR};
use crate::samples::{accepted_register, as_version_2, as_version_3, register, seasonal_register};
use crate::samples::{Card, Rng};

/// Chlorine with a ring of 3.00 miles, numbered 1.
const CHLORINE: Card = Card {
    kind: 1,
    state: 2,
    ground: 1,
    containment: 0,
    cas: 7_782_505,
    pounds: 2_249,
    area: 0,
    wall: 0,
    tenths: 0,
    number: 1,
};

/// Bromine with a ring of 11.00 miles, numbered 2.
const BROMINE: Card = Card { state: 4, ground: 2, cas: 7_726_956, pounds: 20_000, tenths: 250, number: 2, ..CHLORINE };

/// Propane with a ring of 0.18 miles, numbered 3.
const PROPANE: Card = Card { kind: 2, state: 0, ground: 0, cas: 74_986, pounds: 10_000, number: 3, ..CHLORINE };

fn season(first: u16, last: u16) -> Season {
    Season { first, last }
}

/// The days on which a card is in force, by the rings of each.
fn days_of(season: Season) -> Vec<u32> {
    let register = seasonal_register(&[PROPANE.in_season(season)], [0, 18]);
    let is_in_force = |day: &u32| farthest_on(&register, *day).expect("a day").flammable.is_some();
    (1..=366).filter(is_in_force).collect()
}

#[test]
fn both_days_are_included_and_a_first_after_the_last_runs_across_new_year() {
    let days = |ranges: &[(u32, u32)]| ranges.iter().flat_map(|(first, last)| *first..=*last).collect::<Vec<_>>();
    assert_eq!(days_of(WHOLE_YEAR), days(&[(1, 366)]));
    assert_eq!(days_of(season(60, 151)), days(&[(60, 151)]));
    assert_eq!(days_of(season(200, 200)), [200]);
    assert_eq!(days_of(season(1, 1)), [1]);
    assert_eq!(days_of(season(366, 366)), [366]);
    assert_eq!(days_of(season(305, 31)), days(&[(1, 31), (305, 366)]));
    assert_eq!(days_of(season(366, 1)), [1, 366]);
    assert_eq!(days_of(season(152, 151)), days(&[(1, 366)]));
    assert_eq!(days_of(season(2, 1)), days(&[(1, 366)]));
    assert_eq!(days_of(season(366, 365)), days(&[(1, 366)]));
}

#[test]
fn a_day_outside_1_to_366_is_21_once_the_register_is_accepted() {
    let seasonal = seasonal_register(&[PROPANE.in_season(WHOLE_YEAR)], [0, 18]);
    let stale = seasonal_register(&[PROPANE.in_season(WHOLE_YEAR)], [0, 19]);
    let beyond = Card { state: 3, cas: 7_664_417, pounds: 7_500_010, ground: 2, number: 4, ..CHLORINE };
    let cards = [PROPANE.in_season(WHOLE_YEAR), beyond.in_season(WHOLE_YEAR)];
    let with_beyond = seasonal_register(&cards, [0, 18]);
    for day in [0, 367, 512, 65_537, 65_902, u32::MAX] {
        let refused = |register: &[u8]| farthest_on(register, day).map_err(|Refused { number, place }| (number, place));
        assert_eq!(refused(&seasonal), Err((21, 0)));
        assert_eq!(refused(&register(&[PROPANE])), Err((21, 0)));
        assert_eq!(refused(&register(&[])), Err((21, 0)));
        assert_eq!(refused(&stale), Err((3, 0)));
        assert_eq!(refused(&with_beyond), Err((11, 1)));
        assert_eq!(refused(&[0, 0, 0, 8, 1, 0, 0]), Err((1, 0)));
    }
}

#[test]
fn a_card_with_a_day_outside_1_to_366_is_21_at_its_place() {
    for days in [season(0, 366), season(1, 0), season(367, 1), season(1, 367), season(0, 0), season(65_535, 257)] {
        for card in [CHLORINE, Card { number: 1, ..PROPANE }] {
            let second = Card { number: 2, ..card };
            let cards = [card.in_season(WHOLE_YEAR), second.in_season(days), second.in_season(WHOLE_YEAR)];
            let register = seasonal_register(&cards, [0, 0]);
            let refused = Refused { number: 21, place: 1 };
            assert_eq!(answer(&register, &mut [0; 3 * ANSWER_LEN]), Err(refused));
            assert_eq!(leaders_after(&register, 0), Err(refused));
            assert_eq!(farthest_on(&register, 1), Err(refused));
            assert_eq!(farthest_on(&register, 0), Err(refused));
            assert_eq!(year(&register), Err(refused));
        }
    }
}

/// The number that a card alone is refused with, in a season that is none.
fn refusal_of(card: Card) -> Option<u8> {
    let register = seasonal_register(&[card.in_season(season(0, 366))], [0, 0]);
    answer(&register, &mut [0; ANSWER_LEN]).err().map(|refused| refused.number)
}

#[test]
fn the_season_is_checked_after_the_temperature_and_before_10() {
    let dike = Card { containment: 1, area: 100, wall: 400, ..BROMINE };
    assert_eq!(refusal_of(Card { number: 0, ..dike }), Some(5));
    assert_eq!(refusal_of(Card { ground: 0, ..dike }), Some(6));
    assert_eq!(refusal_of(Card { cas: 74_986, ..dike }), Some(7));
    assert_eq!(refusal_of(Card { pounds: 0, ..dike }), Some(8));
    assert_eq!(refusal_of(Card { area: 0, ..dike }), Some(9));
    assert_eq!(refusal_of(Card { wall: 10_001, ..dike }), Some(14));
    assert_eq!(refusal_of(Card { tenths: 3_001, ..dike }), Some(15));
    assert_eq!(refusal_of(dike), Some(21));
    // A gas in state 4, a liquid in state 2, a dike around a gas, no data in B-4.
    assert_eq!(refusal_of(Card { cas: 7_782_505, ..dike }), Some(21));
    assert_eq!(refusal_of(Card { state: 2, tenths: 0, ..dike }), Some(21));
    assert_eq!(refusal_of(Card { state: 2, cas: 7_782_505, tenths: 0, ..dike }), Some(21));
    assert_eq!(refusal_of(Card { cas: 814_686, tenths: 300, ..dike }), Some(21));
    // Beyond the table.
    assert_eq!(refusal_of(Card { state: 3, cas: 7_664_417, pounds: 7_500_010, ground: 2, ..CHLORINE }), Some(21));
    // A solution, and a blast.
    let acid = Card { state: 5, cas: 7_647_010, tenths: 370, ..dike };
    assert_eq!(refusal_of(Card { tenths: 381, ..acid }), Some(16));
    assert_eq!(refusal_of(acid), Some(21));
    assert_eq!(refusal_of(Card { ground: 1, ..PROPANE }), Some(6));
    assert_eq!(refusal_of(Card { cas: 7_782_505, ..PROPANE }), Some(7));
    assert_eq!(refusal_of(Card { pounds: 10_000_001, ..PROPANE }), Some(8));
    assert_eq!(refusal_of(PROPANE), Some(21));
}

#[test]
fn the_year_has_the_farthest_of_all_cards_and_the_earliest_day_with_its_distance() {
    let rings = |card, miles| Some(Farthest { card, miles });
    let of = |cards: &[(Card, Season)], distances| {
        let cards: Vec<_> = cards.iter().map(|(card, season)| card.in_season(*season)).collect();
        year(&seasonal_register(&cards, distances)).expect("an accepted register")
    };
    let both = of(&[(CHLORINE, season(60, 151)), (BROMINE, season(152, 243)), (PROPANE, season(305, 31))], [1_100, 18]);
    let farthest = Accepted { toxic: rings(2, 1_100), flammable: rings(3, 18) };
    assert_eq!(both, Year { farthest, toxic_day: 152, flammable_day: 1 });
    // The earlier card, and the day of the later one.
    let later = Card { number: 2, ..CHLORINE };
    let tied = of(&[(CHLORINE, season(200, 300)), (later, season(100, 110))], [300, 0]);
    assert_eq!(
        tied,
        Year { farthest: Accepted { toxic: rings(1, 300), flammable: None }, toxic_day: 100, flammable_day: 0 }
    );
    assert_eq!(of(&[], [0, 0]), Year::default());
}

#[test]
fn older_cards_are_in_force_all_the_year() {
    let mut rng = Rng::new(10);
    for count in 0..20 {
        let first = accepted_register(&mut rng, count);
        for older in [first.clone(), as_version_2(&first)] {
            let whole = leaders_after(&older, count).expect("an accepted register");
            for day in [1, 200, 366] {
                assert_eq!(farthest_on(&older, day), Ok(whole));
            }
            let day_of = |farthest: Option<Farthest>| u16::from(farthest.is_some());
            let (toxic_day, flammable_day) = (day_of(whole.toxic), day_of(whole.flammable));
            assert_eq!(year(&older), Ok(Year { farthest: whole, toxic_day, flammable_day }));
        }
    }
}

/// The request's sentence: the year's distance is reached on some day, the earliest of which is told, and exceeded on none.
#[test]
fn the_year_is_the_largest_of_its_days() {
    let mut rng = Rng::new(10);
    let miles = |farthest: Option<Farthest>| farthest.map_or(0, |farthest| farthest.miles);
    for count in (0..200).map(|count| count % 12) {
        let first = accepted_register(&mut rng, count);
        let seasonal = as_version_3(&mut rng, &first);
        let days: Vec<Accepted> =
            (1..=u32::from(LAST_DAY)).map(|day| farthest_on(&seasonal, day).expect("an accepted register")).collect();
        let Year { farthest, toxic_day, flammable_day } = year(&seasonal).expect("an accepted register");
        for (of_year, told, of_day) in [
            (farthest.toxic, toxic_day, days.iter().map(|day| miles(day.toxic)).collect::<Vec<_>>()),
            (farthest.flammable, flammable_day, days.iter().map(|day| miles(day.flammable)).collect()),
        ] {
            let largest = of_day.iter().max().copied().unwrap_or(0);
            assert_eq!(largest, miles(of_year));
            let earliest = of_day.iter().position(|miles| *miles == largest).map_or(0, |place| place as u16 + 1);
            assert_eq!(told, if of_year.is_some() { earliest } else { 0 });
        }
    }
}

/// Seasons as the samples make them are all in range, and of every kind.
#[test]
fn the_samples_have_every_kind_of_season() {
    let mut rng = Rng::new(10);
    let seasons: Vec<Season> = (0..10_000).map(|_| any_season(&mut rng)).collect();
    let days = 1..=LAST_DAY;
    assert!(seasons.iter().all(|season| days.contains(&season.first) && days.contains(&season.last)));
    for wanted in [WHOLE_YEAR, season(366, 1), season(1, 1), season(366, 366)] {
        assert!(seasons.contains(&wanted), "{wanted:?}");
    }
    let neighbours = |Season { first, last }: &Season| *first == last + 1;
    let across = |season: &Season| season.first > season.last && !neighbours(season);
    assert!(seasons.iter().any(neighbours) && seasons.iter().filter(|season| across(season)).count() > 1_000);
}
