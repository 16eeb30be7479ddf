//! The refusals by number and by word (group N).

pub const TORN: u64 = 1;
pub const EDITION: u64 = 2;
pub const ENDS: u64 = 3;
pub const POINTS: u64 = 4;
pub const SIZE: u64 = 5;
pub const LEG: u64 = 6;
pub const REACH: u64 = 7;
pub const SLOPE: u64 = 8;
pub const SHELF: u64 = 9;
pub const PAST: u64 = 10;
pub const ADRIFT: u64 = 11;
pub const BEND: u64 = 12;
pub const LANDED: u64 = 13;
pub const PAGE: u64 = 14;
pub const START: u64 = 15;
pub const SHUT: u64 = 16;
pub const APART: u64 = 17;
pub const CROWDED: u64 = 18;
pub const SEATS: u64 = 19;
pub const TURN: u64 = 20;
pub const GRAIN: u64 = 21;
pub const INK: u64 = 22;
pub const BOARD: u64 = 23;

/// The words of N1 to N23, by number; 0 has none.
pub const WORDS: [&str; 24] = [
    "", "torn", "edition", "ends", "points", "size", "leg", "reach", "slope", "shelf", "past", "adrift", "bend", "landed", "page", "start",
    "shut", "apart", "crowded", "seats", "turn", "grain", "ink", "board",
];
