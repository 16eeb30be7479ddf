//! The crate says what include/station.h and include/board.h say: version, sizes, the kinds of ends, each refusal's number and word.

use station::{EndKind, LONGEST_LIST, LONGEST_SHEET, MOST_SEATS, MOST_STROKE_ENDS, MOST_TOLERANCE, Refusal, board};

const HEADER: &str = include_str!("../../../include/station.h");
const BOARD_HEADER: &str = include_str!("../../../include/board.h");

/// The value of an enumerator or a macro of a header: of the board's where it begins so.
fn value(name: &str) -> &'static str {
    let header = if name.starts_with("BOARD_") { BOARD_HEADER } else { HEADER };
    let mut found = header.split(name).skip(1).filter_map(|rest| {
        let rest = rest.strip_prefix(" = ").or_else(|| rest.strip_prefix(' '))?;
        rest.split([',', ' ', '\n']).next().filter(|text| text.starts_with(|first: char| first.is_ascii_digit() || first == '"'))
    });
    found.next().unwrap_or_else(|| panic!("the header has no {name}"))
}

#[test]
fn version() {
    let parts = ["MAJOR", "MINOR", "PATCH"].map(|part| value(&format!("STATION_VERSION_{part}")));
    assert_eq!(parts.join("."), env!("CARGO_PKG_VERSION"));
    assert_eq!(value("STATION_VERSION"), format!("\"{}\"", env!("CARGO_PKG_VERSION")));
}

#[test]
fn sizes() {
    assert_eq!(value("STATION_LONGEST_SHEET"), LONGEST_SHEET.to_string());
    assert_eq!(value("STATION_LONGEST_LIST"), LONGEST_LIST.to_string());
    assert_eq!(value("STATION_MOST_SEATS"), MOST_SEATS.to_string());
    assert_eq!(value("STATION_MOST_STROKE_ENDS"), MOST_STROKE_ENDS.to_string());
    assert_eq!(value("STATION_MOST_TOLERANCE"), MOST_TOLERANCE.to_string());
    assert_eq!(value("BOARD_MOST_POINTS"), board::MOST_POINTS.to_string());
    assert_eq!(value("BOARD_LONGEST_SHEET"), board::LONGEST_SHEET.to_string());
    assert_eq!(value("BOARD_LONGEST_LIST"), board::LONGEST_LIST.to_string());
}

#[test]
fn kinds() {
    for (name, kind) in [("FREE", EndKind::Free), ("HELD", EndKind::Held), ("CLOSED", EndKind::Closed)] {
        assert_eq!(value(&format!("STATION_{name}")), (kind as u64).to_string());
    }
}

#[test]
fn refusals() {
    let mut number = 1;
    while let Some(refusal) = Refusal::from_number(number).filter(|refusal| *refusal != Refusal::Unknown(number)) {
        let name = format!("STATION_{}", refusal.word().to_uppercase());
        assert_eq!(value(&name), number.to_string());
        assert!(HEADER.contains(&format!("case {name}:\n        return \"{}\";", refusal.word())), "{name}");
        assert_eq!(refusal.to_string(), format!("refused {number} {}", refusal.word()));
        number += 1;
    }
    let named = HEADER.lines().filter(|line| line.contains(" = ") && line.contains("/* N")).count();
    assert_eq!(named as u64, number - 1, "refusals that the header names");
}
