//! include/station.h and include/board.h against the model: every enumerator as the compiler has it, none left out, and the words; and W17
//! by a C file that includes them. (Their functions over structs are compared as the calls are, by compare.rs.)

use crate::compare::Comparison;
use crate::parts::Part;
use harness::header;
use harness::model::{Kind, Reader, MOST_SEATS, MOST_STROKE_ENDS, MOST_TOLERANCE, WORDS};

/// What the headers' enumerators have to be.
fn wanted() -> Vec<(String, u64)> {
    let number = |i: usize| if i == 0 { "DONE".to_string() } else { WORDS[i].to_uppercase() };
    let numbers = (0..WORDS.len()).map(|i| (format!("STATION_{}", number(i)), i as u64));
    let kinds = Kind::ALL.map(|kind| (format!("STATION_{kind:?}").to_uppercase(), kind as u64));
    let longest = |reader: Reader| Kind::ALL.map(|kind| kind.sheet_length(reader.most)).into_iter().max().unwrap_or(0);
    let sizes = [
        ("STATION_LONGEST_SHEET", longest(Reader::STATION)),
        ("STATION_LONGEST_LIST", 3 * Reader::STATION.most),
        ("STATION_MOST_SEATS", MOST_SEATS),
        ("STATION_MOST_STROKE_ENDS", MOST_STROKE_ENDS),
        ("STATION_MOST_TOLERANCE", MOST_TOLERANCE as usize),
        ("BOARD_MOST_POINTS", Reader::BOARD.most),
        ("BOARD_LONGEST_SHEET", longest(Reader::BOARD)),
        ("BOARD_LONGEST_LIST", 3 * Reader::BOARD.most),
    ];
    numbers.chain(kinds).chain(sizes.map(|(name, size)| (name.to_string(), size as u64))).collect()
}

pub fn run(comparison: &mut Comparison) {
    comparison.part = Part::Header;
    let (wanted, compiled) = (wanted(), header::compiled());
    for (name, value) in &wanted {
        let found: Vec<u64> = compiled.iter().filter(|entry| entry.0 == *name).map(|entry| entry.1).collect();
        comparison.require(found == [*value], || format!("{name} is {found:?} in the header, {value} by the model"));
    }
    for name in header::written() {
        let known = wanted.iter().any(|entry| entry.0 == name) && compiled.iter().any(|entry| entry.0 == name);
        comparison.require(known, || format!("{name} of a header is not compared (harness/c/header.c, src/bin/evidence/header.rs)"));
    }
    let words = words(comparison);
    let figures = figures(comparison);
    println!("header: {} numbers compared, {words} words, {figures} figures of W17 by the functions over structs", wanted.len());
}

/// W17 by a C program: how many figures.
fn figures(comparison: &mut Comparison) -> usize {
    let figures = header::figures();
    comparison.require(!figures.is_empty(), || "the C file has no figure of W17".to_string());
    for (i, met) in figures.iter().enumerate() {
        comparison.require(*met, || format!("figure {i} of W17 in harness/c/header.c is not met"));
    }
    figures.len()
}

/// The words of all numbers, of 0 and of numbers that nothing has; how many.
fn words(comparison: &mut Comparison) -> usize {
    let none = [(0, "done"), (WORDS.len() as u64, "unknown"), (u64::MAX, "unknown")];
    let words: Vec<(u64, &str)> = (1..).zip(WORDS.into_iter().skip(1)).chain(none).collect();
    for (number, word) in &words {
        let found = header::word(*number);
        comparison.require(found.as_deref() == Some(*word), || format!("the header's word for {number} is {found:?}, not {word}"));
    }
    words.len()
}
