//! Document 01's listing, refusals and cards to try, the solutions, the leaders, the versions, the sheds with doors, the
//! blasts and the exact rates of document 02, and the guidance's own examples.

use super::{answer, exact_rate, is_old, leaders_after, listing, Accepted, Farthest, Fraction, Refused};
use super::{ANSWER_LEN, CARD_LEN, HEADER_LEN, MAX_CARDS, MAX_LEN};
use crate::samples::seasons::WHOLE_YEAR;
use crate::samples::{accepted_register, plain_cards, register, seasonal_register, stored_register, Card, Rng};
use std::ops::Range;

const AMMONIA: u32 = 7_664_417;
const BROMINE: u32 = 7_726_956;
const CHLORINE: u32 = 7_782_505;
const DIBORANE: u32 = 19_287_457;
const FURAN: u32 = 110_009;
const HYDROCHLORIC_ACID: u32 = 7_647_010;
const NITRIC_ACID: u32 = 7_697_372;
const OLEUM: u32 = 8_014_957;
const SULFUR_DIOXIDE: u32 = 7_446_095;
const ETHYL_NITRITE: u32 = 109_955;
const HYDROGEN: u32 = 1_333_740;
const PROPANE: u32 = 74_986;

const RURAL: u8 = 1;
const URBAN: u8 = 2;

/// A toxic card in the open, numbered 1.
fn toxic(cas: u32, state: u8, ground: u8, pounds: u32) -> Card {
    Card { kind: 1, state, ground, cas, pounds, number: 1, ..Card::default() }
}

/// A flammable card, numbered 1.
fn flammable(cas: u32, pounds: u32) -> Card {
    Card { kind: 2, cas, pounds, number: 1, ..Card::default() }
}

fn diked(card: Card, area: u32, wall: u16) -> Card {
    Card { containment: 1, area, wall, ..card }
}

fn in_building(card: Card, area: u32) -> Card {
    Card { containment: 2, area, ..card }
}

fn in_shed_with_doors(card: Card, area: u32) -> Card {
    Card { containment: 3, area, ..card }
}

fn at(card: Card, tenths: i32) -> Card {
    Card { tenths, ..card }
}

fn numbered(card: Card, number: u32) -> Card {
    Card { number, ..card }
}

fn chlorine(ground: u8, pounds: u32) -> Card {
    toxic(CHLORINE, 2, ground, pounds)
}

/// Card 12 of the example, in the open and numbered 1.
fn bromine() -> Card {
    at(toxic(BROMINE, 4, URBAN, 20_000), 250)
}

/// A solution of so many tenths of a percent, in the open, rural and numbered 1.
fn solution(cas: u32, tenths: i32, pounds: u32) -> Card {
    at(toxic(cas, 5, RURAL, pounds), tenths)
}

/// Route, table, rate and miles of a single card, as its listing prints them.
fn line(card: Card) -> String {
    let text = listing(&register(&[numbered(card, 1)]));
    match text.lines().next().and_then(|line| line.strip_prefix("1 ")) {
        Some(answer) => answer.to_string(),
        None => text,
    }
}

/// The refusal of a register with a buffer that is long enough for any.
fn refusal(bytes: &[u8]) -> Option<(u8, u64)> {
    let refused = answer(bytes, &mut [0; MAX_CARDS * ANSWER_LEN]).err();
    refused.map(|Refused { number, place }| (number, place))
}

fn refusal_of(card: Card) -> Option<(u8, u64)> {
    refusal(&register(&[card]))
}

fn example() -> Vec<u8> {
    register(&[
        numbered(chlorine(URBAN, 2_500), 11),
        numbered(diked(bromine(), 100, 400), 12),
        numbered(flammable(PROPANE, 10_000), 13),
    ])
}

#[test]
fn the_example_is_listed() {
    assert_eq!(example().len(), 79);
    assert_eq!(
        listing(&example()),
        "11 1 11 250.000 1.50\n12 2 8 10.220 1.80\n13 3 0 0.000 0.18\nT 12 1.80\nF 13 0.18\n"
    );
}

#[test]
fn the_example_is_answered_and_the_bytes_beyond_stay() {
    let mut out = [0xa5; 50];
    let accepted = answer(&example(), &mut out).expect("an accepted register");
    let toxic = Some(Farthest { card: 12, miles: 180 });
    let flammable = Some(Farthest { card: 13, miles: 18 });
    assert_eq!(accepted, Accepted { toxic, flammable });
    #[rustfmt::skip]
    let expected = [
        0, 0, 0, 11, 1, 11, 0, 0, 0, 0, 0, 3, 0xd0, 0x90, 0, 150,
        0, 0, 0, 12, 2, 8, 0, 0, 0, 0, 0, 0, 0x27, 0xec, 0, 180,
        0, 0, 0, 13, 3, 0, 0, 0, 0, 0, 0, 0, 0, 0, 0, 18,
        0xa5, 0xa5,
    ];
    assert_eq!(out, expected);
}

#[test]
fn a_listing_tells_refusals_and_long_inputs() {
    assert_eq!(listing(&[]), "refused 1 at 0\n");
    assert_eq!(listing(&[0; MAX_LEN]), "refused 1 at 0\n");
    assert_eq!(listing(&[0; MAX_LEN + 1]), "too long\n");
    let second_lacks_pounds = [chlorine(RURAL, 1), numbered(chlorine(RURAL, 0), 2)];
    assert_eq!(listing(&register(&second_lacks_pounds)), "refused 8 at 1\n");
    let two_propanes = [flammable(PROPANE, 20_001), numbered(flammable(PROPANE, 20_001), 2)];
    assert_eq!(listing(&register(&two_propanes)), "1 3 0 0.000 0.22\n2 3 0 0.000 0.22\nT none\nF 1 0.22\n");
}

#[test]
fn the_examples_of_refusals() {
    assert_eq!(refusal(&[0, 0, 0, 8, 1, 0, 0]), Some((1, 0)));
    assert_eq!(refusal(&[0, 0, 0, 7, 9, 0, 0]), Some((2, 0)));
    assert_eq!(refusal(&[0, 0, 0, 7, 1, 0, 1]), Some((3, 0)));
    let four_four = [numbered(chlorine(RURAL, 1), 4), numbered(chlorine(RURAL, 1), 4)];
    assert_eq!(refusal(&register(&four_four)), Some((5, 1)));
    assert_eq!(refusal_of(Card { kind: 3, ..chlorine(RURAL, 1) }), Some((6, 0)));
    assert_eq!(refusal_of(toxic(PROPANE, 1, RURAL, 1)), Some((7, 0)));
    assert_eq!(refusal_of(chlorine(RURAL, 0)), Some((8, 0)));
    assert_eq!(refusal_of(diked(bromine(), 0, 400)), Some((9, 0)));
    assert_eq!(refusal_of(toxic(CHLORINE, 4, RURAL, 1)), Some((10, 0)));
    assert_eq!(refusal_of(toxic(AMMONIA, 3, URBAN, 7_500_010)), Some((11, 0)));
    assert_eq!(refusal_of(diked(bromine(), 100, 10_001)), Some((14, 0)));
    assert_eq!(refusal_of(at(bromine(), 3_001)), Some((15, 0)));
    assert_eq!(refusal_of(solution(HYDROCHLORIC_ACID, 0, 1)), Some((16, 0)));
}

#[test]
fn a_short_buffer_is_refused_and_no_refusal_changes_it() {
    let mut out = [0xa5; ANSWER_LEN];
    let one_card = register(&[chlorine(RURAL, 1)]);
    let refused = answer(&one_card, &mut out[1..]);
    assert_eq!(refused, Err(Refused { number: 4, place: 0 }));
    // The first card is sound, the second is not: nothing of the first may be written.
    let two_cards = register(&[chlorine(RURAL, 1), numbered(chlorine(RURAL, 0), 2)]);
    let mut longer = [0xa5; 2 * ANSWER_LEN];
    assert_eq!(answer(&two_cards, &mut longer), Err(Refused { number: 8, place: 1 }));
    assert!(out.iter().chain(&longer).all(|&byte| byte == 0xa5));
}

#[test]
fn a_field_that_must_be_zero_is_6_and_one_out_of_range_is_9_or_14_or_15() {
    assert_eq!(refusal_of(Card { area: 1, ..bromine() }), Some((6, 0)));
    assert_eq!(refusal_of(Card { wall: 10_001, ..bromine() }), Some((6, 0)));
    assert_eq!(refusal_of(Card { wall: 1, ..in_building(bromine(), 100) }), Some((6, 0)));
    assert_eq!(refusal_of(at(chlorine(RURAL, 1), 3_001)), Some((6, 0)));
    assert_eq!(refusal_of(at(chlorine(RURAL, 1), 250)), Some((6, 0)));
    assert_eq!(refusal_of(Card { ground: RURAL, ..flammable(PROPANE, 1) }), Some((6, 0)));
    assert_eq!(refusal_of(Card { wall: 10_001, ..flammable(PROPANE, 1) }), Some((6, 0)));
    assert_eq!(refusal_of(diked(bromine(), 1_000_001, 400)), Some((9, 0)));
    assert_eq!(refusal_of(diked(bromine(), 1_000_000, 10_000)), None);
    assert_eq!(refusal_of(diked(bromine(), 1_000_000, 10_001)), Some((14, 0)));
    assert_eq!(refusal_of(in_building(bromine(), 0)), Some((9, 0)));
    assert_eq!(refusal_of(at(bromine(), -501)), Some((15, 0)));
    assert_eq!(refusal_of(at(bromine(), -500)), None);
    assert_eq!(refusal_of(at(bromine(), 3_000)), None);
    assert_eq!(refusal_of(at(bromine(), 3_001)), Some((15, 0)));
}

/// A check's number, and the mend after which it is the next to find its fault.
type Mend = (u8, fn(&mut Card));

/// The card after all mends, each of which lets the next check find its fault.
fn mended(mut card: Card, mends: &[Mend]) -> Card {
    for (number, mend) in mends {
        mend(&mut card);
        assert_eq!(refusal_of(card), Some((*number, 0)));
    }
    card
}

#[test]
fn the_checks_come_in_their_order() {
    let card = Card { number: 0, state: 9, cas: 1, pounds: 0, ..at(diked(bromine(), 0, 10_001), 3_001) };
    assert_eq!(refusal_of(card), Some((5, 0)));
    // The last is a gas in state 4.
    mended(
        card,
        &[
            (6, |card| card.number = 1),
            (7, |card| card.state = 4),
            (8, |card| card.cas = CHLORINE),
            (9, |card| card.pounds = 1),
            (14, |card| card.area = 1),
            (15, |card| card.wall = 1),
            (10, |card| card.tenths = 250),
        ],
    );
}

#[test]
fn the_checks_of_a_solution_come_in_their_order() {
    let card = Card { number: 0, state: 6, ..at(diked(toxic(CHLORINE, 5, RURAL, 0), 0, 10_001), 0) };
    assert_eq!(refusal_of(card), Some((5, 0)));
    let card = mended(
        card,
        &[
            (6, |card| card.number = 1),
            (7, |card| card.state = 5),
            (8, |card| card.cas = HYDROCHLORIC_ACID),
            (9, |card| card.pounds = 1),
            (14, |card| card.area = 1),
            (16, |card| card.wall = 1),
        ],
    );
    // No 10 is left to be found.
    assert_eq!(refusal_of(at(card, 370)), None);
}

#[test]
fn no_cards_are_accepted() {
    assert_eq!(answer(&register(&[]), &mut []), Ok(Accepted::default()));
    assert_eq!(listing(&register(&[])), "T none\nF none\n");
}

/// The leaders after each of these numbers of cards, which are numbered from 1: the toxic and the flammable one's card
/// number and hundredths of a mile.
fn leaders(cards: &[Card], after: impl IntoIterator<Item = usize>) -> Vec<[Option<(u32, u16)>; 2]> {
    let cards: Vec<Card> = cards.iter().zip(1..).map(|(card, number)| numbered(*card, number)).collect();
    let bytes = register(&cards);
    let pair = |farthest: Option<Farthest>| farthest.map(|Farthest { card, miles }| (card, miles));
    let leaders = |cards| leaders_after(&bytes, cards).expect("an accepted register");
    after.into_iter().map(leaders).map(|accepted| [pair(accepted.toxic), pair(accepted.flammable)]).collect()
}

#[test]
fn the_leaders_are_kept_card_by_card() {
    let rising = [chlorine(RURAL, 2_249), chlorine(RURAL, 2_250)];
    assert_eq!(leaders(&rising, 0..=2), [[None, None], [Some((1, 300)), None], [Some((2, 340)), None]]);
    let falling = [chlorine(RURAL, 2_250), chlorine(RURAL, 2_249)];
    assert_eq!(leaders(&falling, 0..=2), [[None, None], [Some((1, 340)), None], [Some((1, 340)), None]]);
    let propanes = [flammable(PROPANE, 10_000), flammable(PROPANE, 20_000)];
    assert_eq!(leaders(&propanes, 0..=2), [[None, None], [None, Some((1, 18))], [None, Some((2, 22))]]);
}

#[test]
fn the_earlier_card_leads_on_a_tie() {
    // 3.40 miles by two routes and tables, and 0.22 for two quantities.
    let (gas, pool) = (chlorine(RURAL, 2_250), diked(bromine(), 100, 100));
    for cards in [[gas, pool, gas], [pool, gas, pool]] {
        assert_eq!(leaders(&cards, 1..=3), [[Some((1, 340)), None]; 3]);
    }
    let propanes = [flammable(PROPANE, 20_000), flammable(PROPANE, 20_001)];
    assert_eq!(leaders(&propanes, 1..=2), [[None, Some((1, 22))]; 2]);
    // Overtaken by two that tie: the first of these.
    let overtaken = [chlorine(RURAL, 2_249), gas, pool];
    assert_eq!(leaders(&overtaken, 2..=3), [[Some((2, 340)), None]; 2]);
}

#[test]
fn a_class_leads_by_itself() {
    let between = [in_building(bromine(), 100), flammable(PROPANE, 20_001), chlorine(RURAL, 2_249)];
    let (shed, propane, gas) = (Some((1, 40)), Some((2, 22)), Some((3, 300)));
    assert_eq!(leaders(&between, 0..=3), [[None, None], [shed, None], [shed, propane], [gas, propane]]);
}

#[test]
fn beyond_the_count_all_cards_are_the_first() {
    const FAR: [usize; 5] = [4, 1 << 16, 1 << 32, usize::MAX / CARD_LEN + 1, usize::MAX];
    let whole = answer(&example(), &mut [0; 3 * ANSWER_LEN]);
    assert_eq!(leaders_after(&example(), 3), whole);
    for cards in FAR {
        assert_eq!(leaders_after(&example(), cards), whole);
        assert_eq!(leaders_after(&register(&[]), cards), Ok(Accepted::default()));
    }
}

/// Document 01's example in version 2, with two stored distances.
fn stored_example(distances: [u16; 2]) -> Vec<u8> {
    stored_register(&plain_cards(&example()), distances)
}

#[test]
fn version_2_is_answered_led_and_listed_like_version_1() {
    let stored = stored_example([180, 18]);
    assert_eq!(stored.len(), 83);
    assert_eq!(listing(&stored), listing(&example()));
    let (mut first, mut second) = ([0xa5; 50], [0xa5; 50]);
    assert_eq!(answer(&stored, &mut second), answer(&example(), &mut first));
    assert_eq!(first, second);
    for cards in [0, 1, 2, 3, 4, usize::MAX] {
        assert_eq!(leaders_after(&stored, cards), leaders_after(&example(), cards));
    }
    assert_eq!(listing(&stored_register(&[], [0, 0])), "T none\nF none\n");
}

#[test]
fn a_wrong_stored_distance_is_3_and_changes_no_byte() {
    let wrong = [[0, 18], [180, 0], [0, 0], [18, 180], [179, 18], [181, 18], [180, 17], [180, 19], [u16::MAX; 2]];
    for distances in wrong {
        let mut out = [0xa5; 50];
        assert_eq!(answer(&stored_example(distances), &mut out), Err(Refused { number: 3, place: 0 }));
        assert_eq!(out, [0xa5; 50]);
        assert_eq!(listing(&stored_example(distances)), "refused 3 at 0\n");
    }
    // A class without cards stores zero.
    assert_eq!(refusal(&stored_register(&[], [1, 0])), Some((3, 0)));
    assert_eq!(refusal(&stored_register(&[], [0, 1])), Some((3, 0)));
}

#[test]
fn a_wrong_stored_distance_is_hidden_by_4_and_by_a_card() {
    let short = answer(&stored_example([0, 0]), &mut [0; 3 * ANSWER_LEN - 1]);
    assert_eq!(short, Err(Refused { number: 4, place: 0 }));
    let beyond = numbered(toxic(AMMONIA, 3, URBAN, 7_500_010), 2);
    let cards = [chlorine(RURAL, 2_249), beyond].map(|card| card.bytes());
    for toxic in [0, 300, 301] {
        assert_eq!(refusal(&stored_register(&cards, [toxic, 0])), Some((11, 1)));
    }
}

#[test]
fn versions_have_lengths_of_their_own() {
    // Seven to ten bytes have room for no distances, and are long enough for number 1.
    for version in [2, 3] {
        for length in 7..11 {
            let mut short = vec![0, 0, 0, length, version];
            short.resize(usize::from(length), 0);
            assert_eq!(refusal(&short), Some((3, 0)), "{length} bytes of version {version}");
        }
        assert_eq!(refusal(&[0, 0, 0, 6, version, 0]), Some((1, 0)));
        assert_eq!(refusal(&[0, 0, 0, 11, version, 0, 0, 0, 0, 0, 0]), None);
        assert_eq!(refusal(&[0, 0, 0, 11, version, 0, 1, 0, 0, 0, 0]), Some((3, 0)));
        assert_eq!(refusal(&[0, 0, 0, 12, version, 0, 0, 0, 0, 0, 0, 0]), Some((3, 0)));
    }
    for version in (0..=u8::MAX).filter(|version| ![1, 2, 3].contains(version)) {
        assert_eq!(refusal(&[0, 0, 0, 11, version, 0, 0, 0, 0, 0, 0]), Some((2, 0)), "version {version}");
    }
    // The bytes of one version do not become those of another by its byte.
    for (version, other) in [(1, 2), (1, 3), (2, 1), (2, 3), (3, 1), (3, 2)] {
        let mut relabelled = example_in(version);
        assert_eq!(refusal(&relabelled), None);
        relabelled[4] = other;
        assert_eq!(refusal(&relabelled), Some((3, 0)), "version {version} as {other}");
    }
}

/// Document 01's example in a version, right in all of them.
fn example_in(version: u8) -> Vec<u8> {
    let seasonal = || plain_cards(&example()).iter().map(|card| WHOLE_YEAR.behind(card)).collect::<Vec<_>>();
    match version {
        1 => example(),
        2 => stored_example([180, 18]),
        _ => seasonal_register(&seasonal(), [180, 18]),
    }
}

#[test]
fn the_longest_register_is_of_version_3() {
    let propane = |number| numbered(flammable(PROPANE, 10_000), number).in_season(WHOLE_YEAR);
    let cards: Vec<_> = (1..=MAX_CARDS as u32).map(propane).collect();
    let longest = seasonal_register(&cards, [0, 18]);
    assert_eq!((longest.len(), MAX_LEN), (56_011, 56_011));
    assert!(listing(&longest).ends_with("\nT none\nF 1 0.18\n"));
    let one_more = seasonal_register(&[cards.as_slice(), &cards[..1]].concat(), [0, 18]);
    assert_eq!(refusal(&one_more), Some((3, 0)));
}

#[test]
fn a_refused_register_has_no_leaders() {
    let second_lacks_pounds = register(&[chlorine(RURAL, 1), numbered(chlorine(RURAL, 0), 2)]);
    let other_version = [0, 0, 0, 7, 9, 0, 0];
    for cards in [0, 1, 2, 3, usize::MAX] {
        assert_eq!(leaders_after(&second_lacks_pounds, cards), Err(Refused { number: 8, place: 1 }));
        assert_eq!(leaders_after(&other_version, cards), Err(Refused { number: 2, place: 0 }));
    }
}

/// The two ways of this implementation to find the farthest.
#[test]
fn the_leaders_after_all_cards_are_the_farthest() {
    let mut rng = Rng::new(4);
    for count in (0..40).chain([MAX_CARDS]) {
        let bytes = accepted_register(&mut rng, count);
        assert_eq!(leaders_after(&bytes, count), answer(&bytes, &mut vec![0; count * ANSWER_LEN]));
    }
}

#[test]
fn gases_to_try() {
    assert_eq!(line(chlorine(RURAL, 2_249)), "1 11 224.900 3.00");
    assert_eq!(line(chlorine(RURAL, 2_250)), "1 11 225.000 3.40");
    assert_eq!(line(in_building(chlorine(RURAL, 1_000), 1)), "1 11 55.000 1.70");
    assert_eq!(line(in_building(chlorine(URBAN, 1_000), 1)), "1 11 55.000 0.70");
    assert_eq!(line(toxic(SULFUR_DIOXIDE, 2, RURAL, 95_000)), "1 12 9500.000 25.00");
    assert_eq!(line(toxic(AMMONIA, 3, URBAN, 7_500_000)), "1 10 750000.000 13.00");
}

#[test]
fn bromine_to_try() {
    assert_eq!(line(bromine()), "2 8 327.040 11.00");
    assert_eq!(line(diked(bromine(), 100, 400)), "2 8 10.220 1.80");
    // An area of 269.70 gives this rate, and the full area of 3,200 the one of an open pool.
    assert_eq!(line(diked(bromine(), 100, 100)), "2 8 27.564 3.40");
    assert_eq!(line(diked(bromine(), 100, 1)), "2 8 327.040 11.00");
    assert_eq!(line(in_building(bromine(), 100)), "2 8 1.022 0.40");
}

#[test]
fn propane_to_try() {
    // 281 metres, and 354 on either side of what was a column of Table 13.
    assert_eq!(line(flammable(PROPANE, 10_000)), "3 0 0.000 0.18");
    assert_eq!(line(flammable(PROPANE, 20_000)), "3 0 0.000 0.22");
    assert_eq!(line(flammable(PROPANE, 20_001)), "3 0 0.000 0.22");
}

#[test]
fn a_ring_grows_by_the_equation_and_not_by_columns() {
    // 354 metres are enough for 20,065 lb, and they are the last that 0.22 miles have.
    assert_eq!(line(flammable(PROPANE, 20_065)), "3 0 0.000 0.22");
    assert_eq!(line(flammable(PROPANE, 20_066)), "3 0 0.000 0.23");
    // Ethyl nitrite meets the equation exactly at 245,245 lb, 595 metres; 0.37 miles end there, too.
    assert_eq!(line(flammable(ETHYL_NITRITE, 245_245)), "3 0 0.000 0.37");
    assert_eq!(line(flammable(ETHYL_NITRITE, 245_246)), "3 0 0.000 0.38");
}

#[test]
fn a_blast_is_beyond_no_table() {
    // Table 13 ended at 2,000,000 lb.
    assert_eq!(line(flammable(PROPANE, 1)), "3 0 0.000 0.01");
    assert_eq!(line(flammable(PROPANE, 2_000_000)), "3 0 0.000 1.03");
    assert_eq!(line(flammable(PROPANE, 2_000_001)), "3 0 0.000 1.03");
    assert_eq!(line(flammable(PROPANE, 10_000_000)), "3 0 0.000 1.75");
    assert_eq!(line(flammable(HYDROGEN, 10_000_000)), "3 0 0.000 2.40");
    for pounds in [0, 10_000_001, u32::MAX] {
        assert_eq!(refusal_of(flammable(PROPANE, pounds)), Some((8, 0)));
    }
}

#[test]
fn a_flammable_substance_is_one_of_63() {
    use super::printed::printed;
    assert_eq!(printed().flammables().len(), 63);
    for listed in printed().flammables() {
        assert_eq!(refusal_of(flammable(listed.cas, 1)), None);
        for cas in [listed.cas - 1, listed.cas + 1] {
            let expected = if printed().flammable(cas).is_none() { Some((7, 0)) } else { None };
            assert_eq!(refusal_of(flammable(cas, 1)), expected);
        }
    }
    assert_eq!(refusal_of(flammable(CHLORINE, 1)), Some((7, 0)));
}

#[test]
fn an_answer_is_old_by_its_table_alone() {
    // Card 13 of the example, as it was answered from Table 13 and as it is answered now.
    let stored = [0, 0, 0, 13, 3, 13, 0, 0, 0, 0, 0, 0, 0, 0, 0, 20];
    let fresh = [0, 0, 0, 13, 3, 0, 0, 0, 0, 0, 0, 0, 0, 0, 0, 18];
    assert_eq!([stored, fresh].map(|answer| is_old(&answer)), [true, false]);
    for table in 0..=u8::MAX {
        for filling in [0, 3, 13, 255] {
            let mut answer = [filling; ANSWER_LEN];
            answer[5] = table;
            assert_eq!(is_old(&answer), table == 13);
        }
    }
}

#[test]
fn temperatures_read_the_closest_column() {
    // LFA 0.073 × 100 sq ft × 1.4 = 10.22 at factor 1; TCF 1.2 at 30 °C, 2.5 at 50 °C; LFB 0.23 above.
    let dike = diked(bromine(), 100, 400);
    assert_eq!(line(at(dike, 274)), "2 8 10.220 1.80");
    assert_eq!(line(at(dike, 275)), "2 8 12.264 1.80");
    assert_eq!(line(at(dike, 500)), "2 8 25.550 3.40");
    assert_eq!(line(at(dike, 501)), "2 8 32.200 3.40");
    // Furan has LFB printed at 35 °C, acrylyl chloride no data from 30 °C on.
    const ACRYLYL_CHLORIDE: u32 = 814_686;
    assert_eq!(line(at(toxic(FURAN, 4, RURAL, 1_000), 325)), "2 5 101.920 12.00");
    assert_eq!(refusal_of(at(toxic(ACRYLYL_CHLORIDE, 4, RURAL, 1_000), 274)), None);
    assert_eq!(refusal_of(at(toxic(ACRYLYL_CHLORIDE, 4, RURAL, 1_000), 275)), Some((10, 0)));
    assert_eq!(refusal_of(at(toxic(ACRYLYL_CHLORIDE, 4, RURAL, 1_000), 501)), None);
}

#[test]
fn a_solution_is_of_b_3_alone() {
    for cas in [CHLORINE, BROMINE, SULFUR_DIOXIDE, PROPANE] {
        assert_eq!(refusal_of(solution(cas, 100, 1)), Some((7, 0)));
        assert_eq!(refusal_of(solution(cas, 0, 1)), Some((7, 0)));
    }
    // In the other states its substances are what B-1 and B-2 say, or nothing.
    assert_eq!(line(toxic(HYDROCHLORIC_ACID, 1, RURAL, 10_000)), "1 5 1000.000 6.20");
    assert_eq!(refusal_of(at(toxic(HYDROCHLORIC_ACID, 4, RURAL, 10_000), 250)), Some((10, 0)));
    assert_eq!(line(at(toxic(NITRIC_ACID, 4, RURAL, 10_000), 250)), "2 6 53.760 3.80");
    for state in 1..=4 {
        assert_eq!(refusal_of(toxic(OLEUM, state, RURAL, 1)), Some((7, 0)));
    }
    assert_eq!(refusal_of(Card { state: 5, ..flammable(PROPANE, 1) }), Some((6, 0)));
    assert_eq!(refusal_of(Card { state: 6, ..solution(OLEUM, 300, 1) }), Some((6, 0)));
}

#[test]
fn a_concentration_reads_the_lowest_printed_one_not_below_it() {
    // 30 % is buoyant and the others are dense: 9.408 / 0.030 is 313.6.
    let strengths = [
        (1, "2 1 9.408 0.60"),
        (299, "2 1 9.408 0.60"),
        (300, "2 1 9.408 0.60"),
        (301, "2 5 28.224 1.30"),
        (340, "2 5 28.224 1.30"),
        (341, "2 5 42.336 1.70"),
        (360, "2 5 42.336 1.70"),
        (361, "2 5 49.980 1.70"),
        (370, "2 5 49.980 1.70"),
        (371, "2 5 57.400 1.70"),
        (380, "2 5 57.400 1.70"),
    ];
    for (tenths, expected) in strengths {
        assert_eq!(line(solution(HYDROCHLORIC_ACID, tenths, 10_000)), expected, "{tenths} tenths");
    }
    // The highest is the substance's own, and no concentration is a temperature.
    for (cas, highest) in [(AMMONIA, 300), (HYDROCHLORIC_ACID, 380), (NITRIC_ACID, 900), (OLEUM, 300)] {
        assert_eq!(refusal_of(solution(cas, highest, 1)), None);
        for tenths in [0, highest + 1, 1_000, 3_001, 32_768, 65_035, 65_535] {
            assert_eq!(refusal_of(solution(cas, tenths, 1)), Some((16, 0)));
        }
    }
}

#[test]
fn a_solution_is_contained_like_a_liquid_and_read_for_ten_minutes() {
    let acid = solution(HYDROCHLORIC_ACID, 370, 50_000);
    assert_eq!(line(acid), "2 5 249.900 3.40");
    assert_eq!(line(diked(acid, 9_000, 8)), "2 5 107.100 2.20");
    // An area of 16,363.64.
    assert_eq!(line(diked(acid, 9_000, 5)), "2 5 194.728 2.70");
    assert_eq!(line(diked(acid, 9_000, 1)), "2 5 249.900 3.40");
    assert_eq!(line(in_building(acid, 400)), "2 5 0.476 0.20");
    assert_eq!(line(Card { ground: URBAN, ..diked(acid, 400, 10_000) }), "2 7 4.760 0.40");
    assert_eq!(line(solution(AMMONIA, 300, 100_000)), "2 10 2002.000 2.20");
    assert_eq!(line(solution(OLEUM, 300, 10_000)), "2 1 2.800 0.60");
}

/// A card of each state, in the open.
fn one_of_each_state() -> [Card; 5] {
    let gas = toxic(DIBORANE, 1, URBAN, 2_500);
    let refrigerated = toxic(CHLORINE, 3, RURAL, 1_000);
    [gas, chlorine(RURAL, 1_000), refrigerated, bromine(), solution(HYDROCHLORIC_ACID, 370, 5_000)]
}

#[test]
fn a_gas_leaves_a_shed_with_doors_at_a_tenth_of_its_pounds_a_minute() {
    // 0.55 of it in a building. A floor plays no part.
    for floor in [1, 100, 1_000_000] {
        assert_eq!(line(in_building(chlorine(RURAL, 1_000), floor)), "1 11 55.000 1.70");
        assert_eq!(line(in_shed_with_doors(chlorine(RURAL, 1_000), floor)), "1 11 100.000 2.20");
        assert_eq!(line(in_shed_with_doors(chlorine(URBAN, 1_000), floor)), "1 11 100.000 0.90");
    }
    // 137.5 / 0.0011 is 125,000, and 250 / 0.0011 is 227,272.7.
    let diborane = toxic(DIBORANE, 1, URBAN, 2_500);
    assert_eq!(line(in_building(diborane, 1_000)), "1 3 137.500 5.80");
    assert_eq!(line(in_shed_with_doors(diborane, 1_000)), "1 3 250.000 8.10");
    // 550 is halfway between two rows of Tables 9 and 10.
    let ammonia = |state| toxic(AMMONIA, state, RURAL, 10_000);
    assert_eq!(line(in_building(ammonia(1), 1)), "1 10 550.000 1.30");
    assert_eq!(line(in_shed_with_doors(ammonia(1), 1)), "1 10 1000.000 1.60");
    assert_eq!(line(in_building(ammonia(2), 1)), "1 9 550.000 1.40");
    assert_eq!(line(in_shed_with_doors(ammonia(2), 1)), "1 9 1000.000 1.80");
}

#[test]
fn a_refrigerated_gas_leaves_a_shed_with_doors_as_a_gas() {
    // Its pool would have 310 square feet, but a floor is no dike, however small.
    let refrigerated = toxic(CHLORINE, 3, RURAL, 1_000);
    assert_eq!(line(diked(refrigerated, 309, 100)), "2 11 82.194 1.90");
    for floor in [1, 309, 310, 311, 1_000_000] {
        assert_eq!(line(in_building(refrigerated, floor)), "1 11 55.000 1.70");
        assert_eq!(line(in_shed_with_doors(refrigerated, floor)), "1 11 100.000 2.20");
    }
}

#[test]
fn a_pool_in_a_shed_with_doors_is_as_large_as_in_a_building_and_gives_off_ten_times_as_much() {
    // The full area is 3,200 square feet; 0.1022 pounds a minute come from each that is covered.
    assert_eq!(line(in_building(bromine(), 100)), "2 8 1.022 0.40");
    assert_eq!(line(in_shed_with_doors(bromine(), 100)), "2 8 10.220 1.80");
    assert_eq!(line(in_building(bromine(), 3_199)), "2 8 32.694 3.40");
    assert_eq!(line(in_shed_with_doors(bromine(), 3_199)), "2 8 326.938 11.00");
    for floor in [3_200, 3_201, 1_000_000] {
        assert_eq!(line(in_building(bromine(), floor)), "2 8 32.704 3.40");
        assert_eq!(line(in_shed_with_doors(bromine(), floor)), "2 8 327.040 11.00");
    }
    // At 50.1 °C by LFB.
    assert_eq!(line(at(in_building(bromine(), 100), 501)), "2 8 3.220 0.70");
    assert_eq!(line(at(in_shed_with_doors(bromine(), 100), 501)), "2 8 32.200 3.40");
}

#[test]
fn a_pool_is_gone_sooner_from_a_shed_with_doors() {
    // Furan at 30 °C gives off 1.4 × 0.12 × 1.2 = 0.2016 pounds a minute from each of its 520 square feet. 497 of them
    // are gone within ten minutes; 496 last a little longer, and so does whatever a building holds.
    let furan = at(toxic(FURAN, 4, RURAL, 1_000), 300);
    assert_eq!(line(in_building(furan, 520)), "2 6 10.484 8.10");
    assert_eq!(line(in_shed_with_doors(furan, 496)), "2 6 99.994 25.00");
    assert_eq!(line(in_shed_with_doors(furan, 497)), "2 5 100.196 12.00");
    assert_eq!(line(in_shed_with_doors(furan, 520)), "2 5 104.832 12.00");
}

#[test]
fn a_solution_in_a_shed_with_doors_is_read_for_ten_minutes() {
    // The full area is 2,100 square feet; 0.0119 pounds a minute come from each that is covered.
    let acid = solution(HYDROCHLORIC_ACID, 370, 5_000);
    assert_eq!(line(in_building(acid, 400)), "2 5 0.476 0.20");
    assert_eq!(line(in_shed_with_doors(acid, 400)), "2 5 4.760 0.50");
    for floor in [2_100, 2_101, 3_000] {
        assert_eq!(line(in_building(acid, floor)), "2 5 2.499 0.30");
        assert_eq!(line(in_shed_with_doors(acid, floor)), "2 5 24.990 1.30");
    }
    let ammonia = solution(AMMONIA, 250, 100_000);
    assert_eq!(line(in_building(ammonia, 2_000)), "2 10 7.280 0.10");
    assert_eq!(line(in_shed_with_doors(ammonia, 2_000)), "2 10 72.800 0.50");
}

#[test]
fn a_shed_with_doors_has_the_area_rules_of_a_building() {
    for card in one_of_each_state() {
        for held in [in_building, in_shed_with_doors] {
            for floor in [1, 1_000_000] {
                assert_eq!(refusal_of(held(card, floor)), None);
            }
            for floor in [0, 1_000_001, u32::MAX] {
                assert_eq!(refusal_of(held(card, floor)), Some((9, 0)));
            }
            // Of whatever height, and before an area out of range.
            for (floor, wall) in [(100, 1), (100, 10_000), (100, 10_001), (0, 1), (1_000_001, u16::MAX)] {
                assert_eq!(refusal_of(Card { wall, ..held(card, floor) }), Some((6, 0)));
            }
        }
    }
}

#[test]
fn byte_3_goes_up_to_3_on_a_toxic_card_and_is_zero_on_a_flammable_one() {
    for containment in 4..=u8::MAX {
        for card in one_of_each_state() {
            assert_eq!(refusal_of(Card { containment, ..card }), Some((6, 0)));
            assert_eq!(refusal_of(Card { containment, area: 100, ..card }), Some((6, 0)));
        }
    }
    for containment in 1..=u8::MAX {
        assert_eq!(refusal_of(Card { containment, ..flammable(PROPANE, 1) }), Some((6, 0)));
    }
    assert_eq!(refusal_of(in_shed_with_doors(flammable(PROPANE, 1), 100)), Some((6, 0)));
}

#[test]
fn a_shed_with_doors_suits_every_state_that_suits_its_substance() {
    for state in 1..=2 {
        assert_eq!(refusal_of(in_shed_with_doors(toxic(CHLORINE, state, RURAL, 1), 100)), None);
        assert_eq!(refusal_of(diked(toxic(CHLORINE, state, RURAL, 1), 100, 0)), Some((10, 0)));
    }
    for state in 1..=3 {
        assert_eq!(refusal_of(in_shed_with_doors(toxic(BROMINE, state, RURAL, 1), 100)), Some((10, 0)));
    }
    assert_eq!(refusal_of(in_shed_with_doors(toxic(CHLORINE, 4, RURAL, 1), 100)), Some((10, 0)));
    // 750,001 pounds a minute are beyond Table 10, 412,500.55 are not.
    let ammonia = toxic(AMMONIA, 3, URBAN, 7_500_010);
    assert_eq!(line(in_building(ammonia, 100)), "1 10 412500.550 7.80");
    assert_eq!(refusal_of(in_shed_with_doors(ammonia, 100)), Some((11, 0)));
}

#[test]
fn the_checks_of_a_shed_with_doors_come_in_their_order() {
    let card = Card { number: 0, wall: 10_001, cas: 1, pounds: 0, ..at(in_shed_with_doors(bromine(), 0), 3_001) };
    assert_eq!(refusal_of(card), Some((5, 0)));
    // No 14: a wall is 6, whatever its height. The last is a gas in state 4.
    mended(
        card,
        &[
            (6, |card| card.number = 1),
            (7, |card| card.wall = 0),
            (8, |card| card.cas = CHLORINE),
            (9, |card| card.pounds = 1),
            (15, |card| card.area = 1),
            (10, |card| card.tenths = 250),
        ],
    );
}

/// The exact rate of a card and the slack of its bound.
fn exact(card: Card) -> (Fraction, Fraction) {
    let rate = exact_rate(&card.bytes()).expect("an accepted card");
    (rate.exact, rate.slack)
}

/// Those of some rates, in thousandths, that could be reported for a card.
fn admitted(card: Card, rates: Range<u64>) -> Vec<u64> {
    let rate = exact_rate(&card.bytes()).expect("an accepted card");
    rates.filter(|thousandths| rate.holds(*thousandths)).collect()
}

fn over(numerator: u64, denominator: u64) -> Fraction {
    Fraction::new(numerator, denominator)
}

#[test]
fn the_exact_rate_of_a_dike_that_overflows_has_all_of_its_area() {
    // 100 + (3,200 × 0.033 - 100) / 0.033 is 8,900 / 33, times 0.1022 it is 27.56303.., and 0.014 × 0.073 is 0.001022.
    let dike = diked(bromine(), 100, 100);
    assert_eq!(exact(dike), (over(909_580, 33_000), over(2_022, 1_000_000)));
    assert!(line(dike).starts_with("2 8 27.564 "));
    assert_eq!(admitted(dike, 27_000..28_000), [27_564, 27_565]);
    // 37 % hydrochloric acid: 9,000 + 7,363.63.. is 540,000 / 33; 1.4 × 0.0085 is 0.0119.
    let acid = diked(solution(HYDROCHLORIC_ACID, 370, 50_000), 9_000, 5);
    assert_eq!(exact(acid), (over(6_426_000, 33_000), over(1_119, 1_000_000)));
    assert!(line(acid).starts_with("2 5 194.728 "));
    assert_eq!(admitted(acid, 194_000..195_000), [194_728]);
    // Refrigerated chlorine: 100 + (310 × 0.033 - 5) / 0.033 is 8,530 / 33; 1.4 × 0.19 is 0.266.
    let chlorine = diked(toxic(CHLORINE, 3, RURAL, 1_000), 100, 5);
    assert_eq!(exact(chlorine), (over(2_268_980, 33_000), over(3_660, 1_000_000)));
    assert!(line(chlorine).starts_with("2 11 68.759 "));
    assert_eq!(admitted(chlorine, 68_000..69_000), [68_757, 68_758, 68_759, 68_760]);
    // 1,000,000 + (4,000,000 × 0.033 - 110,000) / 0.033 is 5,000,000 / 3, times 0.0000084 it is 14.
    const TOLUENE_DIISOCYANATE: u32 = 584_849;
    let dike = diked(at(toxic(TOLUENE_DIISOCYANATE, 4, RURAL, 10_000_000), 250), 1_000_000, 11);
    assert_eq!(exact(dike), (over(14, 1), over(1_000_084, 1_000_000_000)));
    assert!(line(dike).starts_with("2 2 14.001 "));
    assert_eq!(admitted(dike, 13_000..15_000), [14_000, 14_001]);
}

#[test]
fn other_pools_have_whole_areas() {
    let slack = over(2_022, 1_000_000);
    assert_eq!(exact(bromine()), (over(327_040, 1_000), slack));
    assert_eq!(exact(diked(bromine(), 3_200, 0)), (over(327_040, 1_000), slack));
    assert_eq!(exact(diked(bromine(), 100, 1)), (over(327_040, 1_000), slack));
    assert_eq!(exact(diked(bromine(), 100, 400)), (over(10_220, 1_000), slack));
    assert_eq!(exact(in_shed_with_doors(bromine(), 3_199)), (over(3_269_378, 10_000), slack));
    // By TCF 1.2, and by LFB.
    assert_eq!(exact(at(diked(bromine(), 100, 400), 300)), (over(12_264, 1_000), over(22_264, 10_000_000)));
    assert_eq!(exact(at(diked(bromine(), 100, 400), 501)), (over(32_200, 1_000), over(4_220, 1_000_000)));
}

#[test]
fn a_building_lowers_the_rate_and_a_part_of_the_slack() {
    // A tenth of 0.014 × 0.073, and all of 0.001.
    let building = in_building(bromine(), 3_199);
    assert_eq!(exact(building), (over(3_269_378, 100_000), over(11_022, 10_000_000)));
    assert_eq!(admitted(building, 32_000..33_000), [32_694]);
    let acid = in_building(solution(HYDROCHLORIC_ACID, 370, 5_000), 400);
    assert_eq!(exact(acid), (over(476, 1_000), over(10_119, 10_000_000)));
    assert_eq!(admitted(acid, 0..1_000), [476, 477]);
}

#[test]
fn a_rate_at_its_bound_does_not_hold() {
    // 90 % nitric acid on 99.99 square feet: 1.4 × 0.0046 is 0.00644, a hundredth of which and 0.001 make the bound 0.645.
    let acid = solution(NITRIC_ACID, 900, 303);
    assert_eq!(exact(acid), (over(6_439_356, 10_000_000), over(10_644, 10_000_000)));
    assert_eq!(exact_rate(&acid.bytes()).map(|rate| rate.bound()), Ok(over(645, 1_000)));
    assert_eq!(admitted(acid, 0..1_000), [644]);
}

#[test]
fn gases_and_blasts_have_exact_rates() {
    let cards = [
        (chlorine(RURAL, 2_249), 224_900),
        (in_building(chlorine(RURAL, 1), 1), 55),
        (in_shed_with_doors(chlorine(RURAL, 1), 1), 100),
        (in_building(toxic(CHLORINE, 3, RURAL, 1_000), 1), 55_000),
        (diked(toxic(CHLORINE, 3, RURAL, 1_000), 310, 0), 100_000),
        (flammable(PROPANE, 10_000), 0),
    ];
    for (card, thousandths) in cards {
        assert_eq!(exact(card), (over(thousandths, 1_000), Fraction::NONE));
        assert_eq!(admitted(card, 0..300_000), [thousandths]);
    }
}

#[test]
fn a_card_without_an_answer_has_no_exact_rate() {
    let cards = [
        numbered(bromine(), 0),
        Card { kind: 3, ..bromine() },
        toxic(PROPANE, 1, RURAL, 1),
        diked(bromine(), 100, 10_001),
        toxic(CHLORINE, 4, RURAL, 1),
        toxic(AMMONIA, 3, URBAN, 7_500_010),
    ];
    for (card, number) in cards.into_iter().zip([5, 6, 7, 14, 10, 11]) {
        assert_eq!(refusal_of(card), Some((number, 0)));
        assert_eq!(exact_rate(&card.bytes()), Err(Refused { number, place: 0 }));
    }
}

/// The two ways of this implementation to find a rate.
#[test]
fn the_rates_that_are_reported_hold() {
    let bytes = accepted_register(&mut Rng::new(8), MAX_CARDS);
    let mut answers = [0; MAX_CARDS * ANSWER_LEN];
    answer(&bytes, &mut answers).expect("an accepted register");
    for (card, answer) in bytes[HEADER_LEN..].chunks_exact(CARD_LEN).zip(answers.chunks_exact(ANSWER_LEN)) {
        let rate = exact_rate(card.try_into().expect("24 bytes")).expect("an accepted card");
        let thousandths = u64::from_be_bytes(answer[6..14].try_into().expect("eight bytes"));
        assert!(rate.route == answer[4] && rate.holds(thousandths), "{card:?}: {answer:?}");
    }
}

/// The guidance rounds what it prints; these are the exact values of the same cards.
#[test]
fn the_examples_of_the_guidance() {
    const ACRYLONITRILE: u32 = 107_131;
    const ETHYLENE_OXIDE: u32 = 75_218;
    const ETHYLENE: u32 = 74_851;
    // Examples 1 and 13, 2: diborane.
    assert_eq!(line(toxic(DIBORANE, 1, URBAN, 2_500)), "1 3 250.000 8.10");
    assert!(line(in_building(toxic(DIBORANE, 1, URBAN, 2_500), 1)).starts_with("1 3 137.500 "));
    // Example 3: refrigerated chlorine in a dike that holds it.
    assert!(line(diked(toxic(CHLORINE, 3, RURAL, 50_000), 275, 10_000)).starts_with("2 11 73.150 "));
    // Examples 4 and 15, 5: acrylonitrile.
    assert_eq!(line(at(toxic(ACRYLONITRILE, 4, URBAN, 20_000), 250)), "2 8 307.440 2.90");
    assert!(line(at(toxic(ACRYLONITRILE, 4, URBAN, 20_000), 770)).starts_with("2 8 1878.800 "));
    // Example 9: bromine at 35 °C.
    assert!(line(at(diked(bromine(), 100, 400), 350)).starts_with("2 8 15.330 "));
    // Example 10: hydrochloric acid of 37 percent in a dike that holds it.
    assert!(line(diked(solution(HYDROCHLORIC_ACID, 370, 50_000), 9_000, 100)).starts_with("2 5 107.100 "));
    // Example 14: ethylene oxide.
    assert_eq!(line(toxic(ETHYLENE_OXIDE, 1, RURAL, 10_000)), "1 5 1000.000 3.60");
    // Examples 16 and 18: propane and ethylene.
    assert_eq!(line(flammable(PROPANE, 50_000)), "3 0 0.000 0.30");
    assert_eq!(line(flammable(ETHYLENE, 10_000)), "3 0 0.000 0.18");
}
