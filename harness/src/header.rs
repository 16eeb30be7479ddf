//! What include/station.h and include/board.h say, by a C file that includes them (c/header.c) and by their text: for the part `header` of
//! the evidence.

use std::ffi::{c_char, CStr};

/// The headers' text, each with what its enumerators' names begin with.
const TEXTS: [(&str, &str); 2] = [("STATION_", include_str!("../../include/station.h")), ("BOARD_", include_str!("../../include/board.h"))];

/// c/header.c's entry.
#[repr(C)]
struct Entry {
    name: *const c_char,
    value: u64,
}

extern "C" {
    fn header_entry(i: usize) -> *const Entry;
    fn header_word(number: u64) -> *const c_char;
    fn header_figure(i: usize) -> i32;
}

/// A C string as ours; none for a null pointer.
///
/// # Safety
/// The pointer is null or names a C string that stays.
unsafe fn owned(text: *const c_char) -> Option<String> {
    (!text.is_null()).then(|| CStr::from_ptr(text).to_string_lossy().into_owned())
}

/// The enumerators as the compiler has them, by their names.
pub fn compiled() -> Vec<(String, u64)> {
    (0..)
        // SAFETY: entries are static.
        .map_while(|i| unsafe { header_entry(i).as_ref().map(|entry| (owned(entry.name).unwrap_or_default(), entry.value)) })
        .collect()
}

/// The names of all enumerators that the texts set.
pub fn written() -> Vec<String> {
    let names = TEXTS.iter().flat_map(|(first, text)| text.split(first).skip(1).map(move |rest| (first, rest))).map(|(first, rest)| {
        let name: String = rest.chars().take_while(|letter| letter.is_ascii_alphanumeric() || *letter == '_').collect();
        let set = rest[name.len()..].trim_start().strip_prefix('=').is_some_and(|value| !value.starts_with('='));
        (format!("{first}{name}"), set)
    });
    names.filter(|(_, set)| *set).map(|(name, _)| name).collect()
}

/// The header's word for a number.
pub fn word(number: u64) -> Option<String> {
    // SAFETY: null or a string of the program.
    unsafe { owned(header_word(number)) }
}

/// Of each figure of W17 that c/header.c asks for by the functions over structs, whether it is met.
pub fn figures() -> Vec<bool> {
    // SAFETY: the function has memory of its own.
    (0..).map(|i| unsafe { header_figure(i) }).take_while(|met| *met >= 0).map(|met| met == 1).collect()
}
