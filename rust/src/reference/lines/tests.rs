//! Request A1 of document 02, rule by rule, what A3 adds to it, and A5's containment on a line.

use super::{read_lines, write_lines, MAX_LINE, MAX_STRICT_LINE};
use crate::reference::{answer, Refused, ANSWER_LEN, CARD_LEN, HEADER_LEN, MAX_CARDS, MAX_LEN};
use crate::samples::seasons::{Season, WHOLE_YEAR};
use crate::samples::{accepted_cards, as_version_2, as_version_3, plain_cards, register};
use crate::samples::{seasonal_register, stored_register, Card, Rng};

/// Document 01's three cards in strict form.
const EXAMPLE: &str = "1,2,2,0,7782-50-5,2500,0,0,0,11,\n\
                       1,4,2,1,7726-95-6,20000,100,400,250,12,\n\
                       2,0,0,0,74-98-6,10000,0,0,0,13,\n";

/// A line's fields in their order, for the tests that change one of them.
const FIELDS: [&str; 11] = ["1", "4", "2", "1", "7726-95-6", "20000", "100", "400", "250", "12", ""];
const STATE: usize = 1;
const CAS: usize = 4;
const WALL: usize = 7;
const TEMPERATURE: usize = 8;
const REMARK: usize = 10;

/// Bytes that are not zero, to see which stay.
const FILLED: u8 = 0xa5;

fn example() -> [Card; 3] {
    let chlorine = Card { kind: 1, state: 2, ground: 2, cas: 7_782_505, pounds: 2_500, number: 11, ..Card::default() };
    let propane = Card { kind: 2, cas: 74_986, pounds: 10_000, number: 13, ..Card::default() };
    [chlorine, bromine(), propane]
}

/// The card of [`FIELDS`].
fn bromine() -> Card {
    Card {
        kind: 1,
        state: 4,
        ground: 2,
        containment: 1,
        cas: 7_726_956,
        pounds: 20_000,
        area: 100,
        wall: 400,
        tenths: 250,
        number: 12,
    }
}

fn refused(number: u8, place: u64) -> Result<Vec<u8>, Refused> {
    Err(Refused { number, place })
}

/// The bytes that a conversion writes into a buffer of a length, once it is seen that it changed no other.
fn converted(
    convert: fn(&[u8], &mut [u8]) -> Result<usize, Refused>,
    from: &[u8],
    room: usize,
) -> Result<Vec<u8>, Refused> {
    let mut lent = vec![FILLED; room];
    let result = convert(from, &mut lent);
    let behind = lent.split_off(result.unwrap_or(0));
    assert!(behind.iter().all(|&byte| byte == FILLED));
    result.map(|_| lent)
}

fn read_into(text: impl AsRef<[u8]>, room: usize) -> Result<Vec<u8>, Refused> {
    converted(read_lines, text.as_ref(), room)
}

fn read(text: impl AsRef<[u8]>) -> Result<Vec<u8>, Refused> {
    read_into(text, MAX_LEN)
}

fn write_into(register: &[u8], room: usize) -> Result<Vec<u8>, Refused> {
    converted(write_lines, register, room)
}

fn write(register: &[u8]) -> Result<Vec<u8>, Refused> {
    write_into(register, MAX_CARDS * MAX_STRICT_LINE)
}

/// The line of [`FIELDS`] with one of them put differently.
fn line_with(place: usize, field: &str) -> String {
    let mut fields = FIELDS;
    fields[place] = field;
    fields.join(",")
}

/// What a field is read as, where it is well formed: the card of its line.
fn card_with(place: usize, field: &str) -> Option<Vec<u8>> {
    match read(line_with(place, field)) {
        Ok(register) => Some(register[HEADER_LEN..].to_vec()),
        Err(error) => {
            assert_eq!(error, Refused { number: 12, place: 1 });
            None
        }
    }
}

fn is_well_formed(place: usize, field: &str) -> bool {
    card_with(place, field).is_some()
}

/// A strict line with a remark that makes it so long.
fn line_of(length: usize) -> String {
    let strict = FIELDS.join(",");
    let remark = "x".repeat(length - strict.len());
    strict + &remark
}

#[test]
fn the_example_is_read_and_written() {
    assert_eq!(read(EXAMPLE), Ok(register(&example())));
    assert_eq!(write(&register(&example())), Ok(EXAMPLE.into()));
}

#[test]
fn spaces_zeros_and_remarks_are_dropped() {
    let decorated = "  1 ,002, 2,0, 07782-50-5 ,2500,00,0,  0,011, tank 4 \n\
                     1,4,2,1,7726-95-6,20000,0100,400,250,12,\"the shed's\"\r\n\
                     2,0,0,0,0074-98-6,10000 ,0 ,0,000,13   ,   ";
    assert_eq!(read(decorated), Ok(register(&example())));
}

#[test]
fn a_line_has_eleven_fields() {
    assert_eq!(read(FIELDS.join(",")), Ok(register(&[bromine()])));
    assert_eq!(read(FIELDS[..9].join(",")), refused(12, 1));
    // Ten numbers and not the comma before the remark.
    assert_eq!(read(FIELDS[..REMARK].join(",")), refused(12, 1));
    assert_eq!(read(FIELDS.join(",") + ","), refused(12, 1));
    assert_eq!(read(line_with(REMARK, "north, behind the shed")), refused(12, 1));
    assert_eq!(read(",".repeat(REMARK)), refused(12, 1));
}

#[test]
fn a_number_is_neither_empty_nor_blank() {
    for place in 0..REMARK {
        assert!(!is_well_formed(place, ""));
        assert!(!is_well_formed(place, " "));
    }
}

#[test]
fn a_remark_is_any_bytes_but_comma_and_line_feed() {
    let strict = FIELDS.join(",");
    for byte in (0..=u8::MAX).filter(|byte| !b",\n".contains(byte)) {
        let text = [strict.as_bytes(), &[byte, b'\n']].concat();
        assert_eq!(read(text), Ok(register(&[bromine()])));
    }
}

#[test]
fn only_spaces_stand_around_a_field_and_none_inside() {
    for (place, field) in FIELDS[..REMARK].iter().enumerate() {
        assert!(is_well_formed(place, &format!("   {field}  ")));
        for byte in ["\t", "\r", "\0", "\u{b}", "\u{a0}", "+", "\"", "."] {
            assert!(!is_well_formed(place, &format!("{byte}{field}")));
            assert!(!is_well_formed(place, &format!("{field}{byte}")));
        }
        assert!(!is_well_formed(place, &format!("{field} 0")));
    }
    for cas in ["7726 -95-6", "7726- 95-6", "7726-9 5-6", "7726-95 -6", "7726-95- 6", "77 26-95-6"] {
        assert!(!is_well_formed(CAS, cas));
    }
}

#[test]
fn a_number_too_wide_for_its_bytes_is_not_well_formed() {
    const BYTE: [usize; 4] = [0, 1, 2, 3];
    const FOUR_BYTES: [usize; 3] = [5, 6, 9];
    for place in BYTE {
        assert!(is_well_formed(place, "255") && !is_well_formed(place, "256"));
    }
    for place in FOUR_BYTES {
        assert!(is_well_formed(place, "4294967295") && !is_well_formed(place, "4294967296"));
    }
    assert!(is_well_formed(WALL, "65535") && !is_well_formed(WALL, "65536"));
    assert!(is_well_formed(TEMPERATURE, "32767") && !is_well_formed(TEMPERATURE, "32768"));
    assert!(is_well_formed(TEMPERATURE, "-32768") && !is_well_formed(TEMPERATURE, "-32769"));
    assert!(is_well_formed(CAS, "4294967-29-5") && !is_well_formed(CAS, "4294967-29-6"));
    // Numbers that would come back into range if a digit were lost or a word ran over.
    for place in 0..REMARK {
        for wide in ["4294967297", "18446744073709551617", "340282366920938463463374607431768211457"] {
            assert!(!is_well_formed(place, wide));
        }
    }
    assert!(!is_well_formed(CAS, "18446744073709551617-95-6"));
}

#[test]
fn zeros_before_a_number_never_make_it_too_wide() {
    let zeros = "0".repeat(120);
    for (place, field) in FIELDS[..REMARK].iter().enumerate() {
        let field = zeros.clone() + field;
        assert_eq!(card_with(place, &field).as_deref(), Some(&bromine().bytes()[..]));
    }
    let cold = Card { tenths: -250, ..bromine() };
    assert_eq!(card_with(TEMPERATURE, &format!("-{zeros}250")).as_deref(), Some(&cold.bytes()[..]));
}

#[test]
fn a_minus_stands_before_the_digits_of_a_temperature_alone() {
    let five_below = Card { tenths: -5, ..bromine() };
    for field in ["-5", "-005", " -5 "] {
        assert_eq!(card_with(TEMPERATURE, field).as_deref(), Some(&five_below.bytes()[..]));
    }
    for field in ["-0", "-00", "-", "- 5", "--5", "5-", "+5", "-+5", "2-5"] {
        assert!(!is_well_formed(TEMPERATURE, field));
    }
    for place in (0..REMARK).filter(|&place| place != TEMPERATURE) {
        assert!(!is_well_formed(place, "-5"));
        assert!(!is_well_formed(place, &format!("-{}", FIELDS[place])));
        assert!(!is_well_formed(place, "-0"));
    }
}

/// The line of [`FIELDS`] in another state and with another ninth field, read into its card.
fn card_in(state: &str, tenths: &str) -> Option<Vec<u8>> {
    let mut fields = FIELDS;
    fields[STATE] = state;
    fields[TEMPERATURE] = tenths;
    read(fields.join(",")).ok().map(|register| register[HEADER_LEN..].to_vec())
}

#[test]
fn a_concentration_has_no_sign_and_two_bytes() {
    let solution = |tenths: i32| Some(Card { state: 5, tenths, ..bromine() }.bytes().to_vec());
    for state in ["5", " 005 "] {
        for (field, tenths) in
            [("0", 0), ("1", 1), (" 0370 ", 370), ("32767", 32_767), ("32768", 32_768), ("65535", 65_535)]
        {
            assert_eq!(card_in(state, field), solution(tenths), "{field}");
        }
        for field in ["65536", "-1", "-0", "-32768", "+1", "", "37.0", "370 %", "4294967296"] {
            assert_eq!(card_in(state, field), None, "{field}");
        }
    }
    // The state alone decides, by its value.
    for (state, code) in [("0", 0), ("4", 4), ("6", 6), ("50", 50), ("255", 255)] {
        let cold = Card { state: code, tenths: -1, ..bromine() };
        assert_eq!(card_in(state, "-1"), Some(cold.bytes().to_vec()));
        assert_eq!(card_in(state, "32768"), None);
    }
    for kind in ["0", "1", "2", "255"] {
        let line = |tenths: &str| format!("{kind},5,0,0,0-00-0,0,0,0,{tenths},1,");
        assert!(read(line("65535")).is_ok());
        assert_eq!(read(line("-1")), refused(12, 1));
    }
}

#[test]
fn a_cas_number_is_digits_then_two_then_one() {
    for (field, cas) in [("0-00-0", 0), ("7782-50-5", 7_782_505), ("007782-50-5", 7_782_505), ("4-00-0", 4_000)] {
        assert_eq!(card_with(CAS, field).as_deref(), Some(&Card { cas, ..bromine() }.bytes()[..]));
    }
    for field in [
        "7726956",
        "7726-956",
        "772695-6",
        "77269-5-6",
        "772-69-56",
        "7726-95-",
        "7726--6",
        "7726-95-61",
        "7726-951-6",
        "7726-9-6",
        "-95-6",
        "95-6",
        "-7726-95-6",
        "7726-95-6-",
        "77-26-95-6",
        "7726--95-6",
        "7726-95--6",
        "7726_95_6",
        "7726-a5-6",
        "7726-9a-6",
        "7726-95-a",
        "77a6-95-6",
        "--",
        "-",
        "0-0-0",
    ] {
        assert!(!is_well_formed(CAS, field), "{field}");
    }
}

#[test]
fn a_line_has_at_most_200_bytes_whether_or_not_a_line_feed_follows() {
    let card = || Ok(register(&[bromine()]));
    assert_eq!(read(line_of(MAX_LINE)), card());
    assert_eq!(read(line_of(MAX_LINE) + "\n"), card());
    assert_eq!(read(line_of(MAX_LINE - 1) + "\r\n"), card());
    assert_eq!(read(line_of(MAX_LINE) + "\r\n"), refused(12, 1));
    assert_eq!(read(line_of(MAX_LINE + 1)), refused(12, 1));
    assert_eq!(read(line_of(MAX_LINE + 1) + "\n"), refused(12, 1));
    // Spaces and zeros count as well.
    let strict = FIELDS.join(",");
    for filler in [" ", "0"] {
        let full = filler.repeat(MAX_LINE - strict.len()) + &strict;
        assert_eq!(read(&full), card());
        assert_eq!(read(filler.to_string() + &full), refused(12, 1));
    }
}

#[test]
fn no_bytes_are_no_lines_and_an_empty_line_is_bad() {
    let empty = [0, 0, 0, 7, 1, 0, 0].to_vec();
    assert_eq!(read(""), Ok(empty.clone()));
    assert_eq!(read_into("", HEADER_LEN), Ok(empty));
    assert_eq!(read_into("", HEADER_LEN - 1), refused(13, 0));
    assert_eq!(read("\n"), refused(12, 1));
    assert_eq!(read(EXAMPLE.to_string() + "\n"), refused(12, 4));
    assert_eq!(read("\n".to_string() + EXAMPLE), refused(12, 1));
    assert_eq!(read(EXAMPLE.replacen('\n', "\n\n", 1)), refused(12, 2));
    assert_eq!(read("   "), refused(12, 1));
}

#[test]
fn the_last_line_feed_may_be_left_out() {
    assert_eq!(read(EXAMPLE.trim_end()), Ok(register(&example())));
}

#[test]
fn the_first_bad_line_is_named() {
    let bad_twice = EXAMPLE.to_string() + "bad\n" + EXAMPLE + "worse\n";
    assert_eq!(read(bad_twice), refused(12, 4));
}

#[test]
fn a_register_needs_its_length() {
    let length = HEADER_LEN + 3 * CARD_LEN;
    assert_eq!(read_into(EXAMPLE, length - 1), refused(13, 0));
    assert_eq!(read_into(EXAMPLE, length), Ok(register(&example())));
    assert_eq!(read_into(EXAMPLE, 0), refused(13, 0));
}

#[test]
fn there_are_at_most_2_000_lines() {
    let line = FIELDS.join(",") + "\n";
    assert_eq!(read(line.repeat(MAX_CARDS)), Ok(register(&[bromine(); MAX_CARDS])));
    assert_eq!(read_into(line.repeat(MAX_CARDS + 1), MAX_LEN + CARD_LEN), refused(13, 0));
}

#[test]
fn a_bad_line_is_found_before_too_many_lines_and_too_little_room() {
    let line = FIELDS.join(",") + "\n";
    assert_eq!(read(line.repeat(MAX_CARDS) + "bad"), refused(12, 2_001));
    assert_eq!(read(line.repeat(2 * MAX_CARDS) + "\n"), refused(12, 4_001));
    assert_eq!(read_into(line.clone() + "bad", 0), refused(12, 2));
    assert_eq!(read_into(line + "bad", HEADER_LEN + CARD_LEN), refused(12, 2));
}

/// Reading checks form: none of these cards would be answered.
#[test]
fn what_numbers_mean_is_not_asked() {
    let falling = "255,255,255,255,0-00-0,0,4294967295,65535,-32768,4294967295,\n0,0,0,0,0-00-0,0,0,0,0,0,";
    let first = Card {
        kind: 255,
        state: 255,
        ground: 255,
        containment: 255,
        area: u32::MAX,
        wall: u16::MAX,
        tenths: i32::from(i16::MIN),
        number: u32::MAX,
        ..Card::default()
    };
    assert_eq!(read(falling), Ok(register(&[first, Card::default()])));
}

#[test]
fn only_an_accepted_register_is_written() {
    let [chlorine, bromine, _] = example();
    let high_wall = register(&[chlorine, Card { wall: 10_001, ..bromine }]);
    assert_eq!(write(&high_wall), refused(14, 1));
    // Its own refusal comes before 13, and 4 not at all.
    assert_eq!(write_into(&high_wall, 0), refused(14, 1));
    assert_eq!(write_into(&[0, 0, 0, 8, 1, 0, 0], 0), refused(1, 0));
    assert_eq!(write_into(&[0, 0, 0, 7, 9, 0, 0], 0), refused(2, 0));
    assert_eq!(write_into(&[0, 0, 0, 7, 1, 0, 1], 0), refused(3, 0));
    assert_eq!(answer(&register(&example()), &mut []), Err(Refused { number: 4, place: 0 }));
    assert_eq!(write_into(&register(&example()), 0), refused(13, 0));
}

#[test]
fn version_2_is_not_written() {
    let stored = as_version_2(&register(&example()));
    assert!(answer(&stored, &mut [0; 3 * ANSWER_LEN]).is_ok());
    assert_eq!(write(&stored), refused(2, 0));
    // Right after 1, so whatever its count, its cards and its distances are.
    let high_wall = Card { wall: 10_001, ..bromine() };
    assert_eq!(write(&stored_register(&[high_wall.bytes()], [0, 0])), refused(2, 0));
    assert_eq!(write(&stored_register(&plain_cards(&stored), [1, 2])), refused(2, 0));
    assert_eq!(write(&[0, 0, 0, 7, 2, 0xff, 0xff]), refused(2, 0));
    assert_eq!(write(&[0, 0, 0, 8, 2, 0, 0]), refused(1, 0));
}

#[test]
fn version_3_is_not_written_either() {
    let seasonal = as_version_3(&mut Rng::new(10), &register(&example()));
    assert!(answer(&seasonal, &mut [0; 3 * ANSWER_LEN]).is_ok());
    assert_eq!(write(&seasonal), refused(2, 0));
    // Not even for the whole year, and whatever its seasons are.
    for season in [WHOLE_YEAR, Season { first: 0, ..WHOLE_YEAR }] {
        assert_eq!(write(&seasonal_register(&[bromine().in_season(season)], [180, 0])), refused(2, 0));
    }
    assert_eq!(write(&[0, 0, 0, 7, 3, 0xff, 0xff]), refused(2, 0));
    assert_eq!(write(&[0, 0, 0, 8, 3, 0, 0]), refused(1, 0));
}

#[test]
fn solutions_are_written_by_their_concentration() {
    let acid = Card { state: 5, cas: 7_647_010, tenths: 370, ..bromine() };
    assert_eq!(write(&register(&[acid])), Ok(b"1,5,2,1,7647-01-0,20000,100,400,370,12,\n".to_vec()));
    let too_strong = register(&[Card { tenths: 65_535, ..acid }]);
    assert_eq!(write_into(&too_strong, 0), refused(16, 0));
}

#[test]
fn a_shed_with_doors_is_a_3_in_the_fourth_field() {
    let shed = Card { containment: 3, wall: 0, ..bromine() };
    let line = "1,4,2,3,7726-95-6,20000,100,0,250,12,\n";
    assert_eq!(read(line), Ok(register(&[shed])));
    assert_eq!(write(&register(&[shed])), Ok(line.into()));
    assert_eq!(read(" 1,4,2, 003 ,7726-95-6,20000,100,0,250,12,by the doors"), Ok(register(&[shed])));
    // A 4 is well formed too, and 6 where it has to mean something.
    let unlisted = register(&[Card { containment: 4, ..shed }]);
    assert_eq!(read("1,4,2,4,7726-95-6,20000,100,0,250,12,"), Ok(unlisted.clone()));
    assert_eq!(write(&unlisted), refused(6, 0));
}

#[test]
fn lines_need_their_length() {
    let register = register(&example());
    assert_eq!(write_into(&register, EXAMPLE.len() - 1), refused(13, 0));
    assert_eq!(write_into(&register, EXAMPLE.len()), Ok(EXAMPLE.into()));
}

#[test]
fn no_cards_are_no_bytes() {
    assert_eq!(write_into(&register(&[]), 0), Ok(Vec::new()));
    assert_eq!(write_into(&register(&[]), 5), Ok(Vec::new()));
}

#[test]
fn the_longest_strict_line() {
    const PHOSPHORUS_OXYCHLORIDE: u32 = 10_025_873;
    let longest = Card {
        cas: PHOSPHORUS_OXYCHLORIDE,
        pounds: 10_000_000,
        area: 1_000_000,
        wall: 10_000,
        tenths: -500,
        number: u32::MAX,
        ..bromine()
    };
    let line = b"1,4,2,1,10025-87-3,10000000,1000000,10000,-500,4294967295,\n";
    assert_eq!(line.len(), MAX_STRICT_LINE);
    assert_eq!(write(&register(&[longest])), Ok(line.to_vec()));
}

/// Reading what was written gives the same register, and writing that the same text.
#[test]
fn what_was_written_is_read_again() {
    let mut rng = Rng::new(1);
    for count in 0..200 {
        let cards = register(&accepted_cards(&mut rng, count));
        assert!(answer(&cards, &mut vec![0; count * ANSWER_LEN]).is_ok());
        let text = write(&cards).expect("an accepted register");
        assert!(text.len() <= count * MAX_STRICT_LINE);
        assert_eq!(read(&text), Ok(cards));
    }
}
