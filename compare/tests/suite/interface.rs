//! The numbers that `include/` names, in C and in Rust, beside those that were read from document 01
//! and document 02, 2026-01.

use compare::bordavina::refusal as named;
use compare::refusal;

const HEADER: &str = include_str!("../../../include/bordavina.h");

/// The name in the interface, the number there and the number that the second implementation gives.
const NUMBERS: [(&str, usize, usize); 11] = [
    ("NOT_REFUSED", named::NOT_REFUSED, 0),
    ("FILE_LENGTH", named::FILE_LENGTH, refusal::LENGTH),
    ("NO_TRAILER", named::NO_TRAILER, refusal::TRAILER),
    ("PART_OFFSETS", named::PART_OFFSETS, refusal::OFFSETS),
    ("LINE_FORM", named::LINE_FORM, refusal::FORM),
    ("NUMBER_VALUE", named::NUMBER_VALUE, refusal::VALUE),
    ("REPEATED_ID", named::REPEATED_ID, refusal::REPEATED_ID),
    (
        "TOO_MANY_LINES",
        named::TOO_MANY_LINES,
        refusal::TOO_MANY_LINES,
    ),
    ("LIST_TOO_SHORT", named::LIST_TOO_SHORT, refusal::SHORT_LIST),
    ("NO_PANE", named::NO_PANE, refusal::NO_PANE),
    ("NO_GLASS", named::NO_GLASS, refusal::NO_GLASS),
];

/// The number that the header gives a name.
fn in_header(name: &str) -> Option<usize> {
    let (_, rest) = HEADER.split_once(&format!("BORDAVINA_{name} = "))?;
    let digits = rest.split(|c: char| !c.is_ascii_digit()).next()?;
    digits.parse().ok()
}

#[test]
fn numbers_of_refusals() {
    for (name, in_rust, expected) in NUMBERS {
        assert_eq!(in_rust, expected, "{name}");
        assert_eq!(in_header(name), Some(expected), "{name}");
    }
}

/// The interface keeps 7 under its name, so that no other cause is ever given it.
#[test]
fn number_7_is_named_and_never_given() {
    assert_eq!(named::TOO_LONG, 7);
    assert_eq!(in_header("TOO_LONG"), Some(7));
    let given = NUMBERS.map(|(_, _, number)| number);
    assert_eq!(given, [0, 1, 2, 3, 4, 5, 6, 8, 9, 10, 11]);
    assert_eq!(refusal::OF_A_FILE, [1, 2, 3, 4, 5, 6, 8]);
}
