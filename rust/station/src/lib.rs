//! The route station's curve: a safe wrapper over the proved library `libstation.a` (`include/station.h`), without `std` and without
//! other crates. N6, A4 and the like are clauses of the repository's `docs/REQUIREMENTS.md`.
//!
//! A *sheet* is a course as bytes. [`read`] tells what it holds, [`lay_out`] makes the bend numbers that the places need, and then
//! [`place_at_tick`] tells where the course is at each tick. A [`Runner`] does the same for a drone that moves on, or back, tick by tick,
//! and keeps count of its laps, a [`Fleet`] for several of them in turn. [`strokes`] cuts the course into straight lines to be drawn.
//! [`write()`] makes a sheet from lists of numbers, [`join`] one of two. [`board`] has what the autopilot board says of a sheet. Ten ticks
//! are a second, and lengths are whole millimetres.
//!
//! Every function takes any bytes, lists and numbers (D1). What does not fit is answered with a [`Refusal`], and then nothing that was
//! lent has changed (A9); a fleet whose seat is refused passes its turn on (Q3).
//!
//! ```
//! let sheet = station::COURSE_A;
//! let course = station::read(&sheet)?;
//! let mut list = vec![0; course.list_length()];
//! station::lay_out(&sheet, &mut list)?;
//! let mut north = Vec::new();
//! for tick in 0..=course.ticks {
//!     north.push(station::place_at_tick(&sheet, &list, tick)?.north);
//! }
//! assert_eq!(north, [0, 6, 8, 6, 0]);
//! # Ok::<(), station::Refusal>(())
//! ```
//!
//! # The library
//!
//! `build.rs` links `libstation.a` from the folder that the variable `STATION_LIBRARY_DIR` names, or from `target/staticlib` of the
//! repository that this crate is part of, where `tools/archive` makes it. The archive is for x86-64. Without the default feature `link`
//! nothing is linked: the program then brings the functions of [`raw`] itself, the station's eleven and the board's six.

#![no_std]
#![deny(missing_docs)]
#![deny(unsafe_code)]

pub mod board;
mod fleet;
#[allow(unsafe_code)]
pub mod raw;
mod refusal;
mod runner;
mod strokes;

pub use fleet::{Fleet, MOST_SEATS};
pub use refusal::Refusal;
pub use runner::{Runner, back, place_of_runner, runner_at_tick, step};
pub use strokes::{MOST_STROKE_ENDS, MOST_TOLERANCE, strokes};

/// How long an accepted sheet can be, in bytes (S9): the size of an array into which every sheet can be written.
pub const LONGEST_SHEET: usize = 7198;

/// How long a list of bend numbers a sheet can ask for (N9): the size of an array that serves every course.
pub const LONGEST_LIST: usize = 1536;

/// Worked course A as a sheet, to try things on (T5): free ends, two legs of 2 ticks, the waypoints (0, 10, 20), (8, 10, 22), (0, 10, 24).
#[rustfmt::skip]
pub const COURSE_A: [u8; 48] = [
    0, 0, 0, 48,  1,  0,  0, 3, // bytes, version, kind of ends, waypoints
    0, 2,  0, 2, // legs
    0, 0, 0, 0,  0, 0, 0, 10,  0, 0, 0, 20, // north, east, up
    0, 0, 0, 8,  0, 0, 0, 10,  0, 0, 0, 22,
    0, 0, 0, 0,  0, 0, 0, 10,  0, 0, 0, 24,
];

/// The kinds of ends (S4).
#[derive(Clone, Copy, PartialEq, Eq, Hash, Debug)]
pub enum EndKind {
    /// Open; the curve runs out straight.
    Free = 0,
    /// Open; the sheet gives the slopes at both ends.
    Held = 1,
    /// The last leg leads back to the first waypoint.
    Closed = 2,
}

/// What a sheet holds (A2).
#[derive(Clone, Copy, PartialEq, Eq, Hash, Debug)]
pub struct Course {
    /// The kind of its ends.
    pub kind: EndKind,
    /// How many waypoints it has: N, 2 to 512.
    pub waypoints: usize,
    /// How many ticks all its legs take: P.
    pub ticks: u64,
}

impl Course {
    /// From kind, N and P of a sheet that was read: its kind is 0, 1 or 2 (N3).
    #[inline]
    fn of([kind, waypoints, ticks]: [u64; 3]) -> Course {
        let kind = match kind {
            0 => EndKind::Free,
            1 => EndKind::Held,
            _ => EndKind::Closed,
        };
        Course { kind, waypoints: waypoints as usize, ticks }
    }

    /// How many bend numbers its list has: three for each waypoint.
    pub const fn list_length(&self) -> usize {
        3 * self.waypoints
    }

    /// How many ends its strokes have at most: one for each tick from 0 to P (H5).
    pub const fn most_stroke_ends(&self) -> usize {
        self.ticks as usize + 1
    }
}

/// A place, in millimetres from the home post (P2).
#[derive(Clone, Copy, PartialEq, Eq, Hash, Debug, Default)]
pub struct Place {
    /// To the north.
    pub north: i64,
    /// To the east.
    pub east: i64,
    /// Upwards.
    pub up: i64,
}

impl From<[i64; 3]> for Place {
    fn from([north, east, up]: [i64; 3]) -> Place {
        Place { north, east, up }
    }
}

impl From<Place> for [i64; 3] {
    fn from(place: Place) -> [i64; 3] {
        [place.north, place.east, place.up]
    }
}

/// Reads a sheet. Tests 1-8 (A2).
///
/// ```
/// use station::{Course, EndKind, Refusal};
///
/// // two waypoints, (0, 0, 0) and (16, 0, 0), a leg of 4 ticks; held, with slopes of 0
/// let mut sheet = [0; 58];
/// sheet[3] = 58;
/// sheet[4] = 1;
/// sheet[5] = 1;
/// sheet[7] = 2;
/// sheet[9] = 4;
/// sheet[25] = 16;
/// assert_eq!(station::read(&sheet), Ok(Course { kind: EndKind::Held, waypoints: 2, ticks: 4 }));
/// sheet[9] = 0;
/// assert_eq!(station::read(&sheet), Err(Refusal::Leg));
/// ```
#[inline]
pub fn read(sheet: &[u8]) -> Result<Course, Refusal> {
    raw::STATION.read(sheet).map(Course::of)
}

/// Lays out the sheet's bend numbers in a list: north's, then east's, then up's; what the list has beyond them stays (L5).
/// Tests 1-9 (A3).
///
/// ```
/// use station::COURSE_A;
///
/// // one number more than it needs
/// let mut list = [7; 10];
/// station::lay_out(&COURSE_A, &mut list)?;
/// assert_eq!(list, [0, -65_536, 0, 0, 0, 0, 0, 0, 0, 7]);
/// assert_eq!(station::lay_out(&COURSE_A, &mut list[..8]), Err(station::Refusal::Shelf));
/// # Ok::<(), station::Refusal>(())
/// ```
///
/// Bend numbers, and places too, are rounded to the nearest, a half away from zero (L4), so that a course that is mirrored on an axis, its
/// slopes as well where it is held, has mirrored bend numbers and places there (L7, P6).
///
/// ```
/// use station::EndKind;
///
/// // a leg of 4 ticks from north 0 to 16, held at slopes of 8; then its mirror image
/// for sign in [1, -1] {
///     let (mut sheet, mut list) = ([0; 58], [0; 6]);
///     station::write(EndKind::Held, &[4], &[0, 0, 0, sign * 16, 0, 0], &[sign * 8, 0, 0, sign * 8, 0, 0], &mut sheet)?;
///     station::lay_out(&sheet, &mut list)?;
///     assert_eq!(list, [sign * -65_536, sign * 65_536, 0, 0, 0, 0]);
///     // 5.5 and 10.5, or -5.5 and -10.5
///     assert_eq!(station::place_at_tick(&sheet, &list, 1)?.north, sign * 6);
///     assert_eq!(station::place_at_tick(&sheet, &list, 3)?.north, sign * 11);
/// }
/// # Ok::<(), station::Refusal>(())
/// ```
#[inline]
pub fn lay_out(sheet: &[u8], list: &mut [i64]) -> Result<(), Refusal> {
    raw::STATION.lay_out(sheet, list)
}

/// The place at a tick, by a list that was laid out for this sheet; a closed course has a place at any tick (P4). Tests 1-10 and 12 (A4).
/// It takes about the same time at every tick of a course, and that time goes with N, since each call tests the whole sheet (P7).
///
/// ```
/// use station::{COURSE_A, Place, Refusal};
///
/// // a list that serves every course
/// let mut list = [0; station::LONGEST_LIST];
/// station::lay_out(&COURSE_A, &mut list)?;
/// assert_eq!(station::place_at_tick(&COURSE_A, &list, 1)?, Place { north: 6, east: 10, up: 21 });
/// assert_eq!(station::place_at_tick(&COURSE_A, &list, 5), Err(Refusal::Past));
/// # Ok::<(), station::Refusal>(())
/// ```
#[inline]
pub fn place_at_tick(sheet: &[u8], list: &[i64], tick: u64) -> Result<Place, Refusal> {
    raw::STATION.place_at_tick(sheet, list, tick).map(Place::from)
}

/// Writes a sheet at the front of the slice `sheet`, whose bytes behind it stay, from lists in the sheet's order (G1): the legs; north,
/// east and up of each waypoint in turn; the slopes, six on a held course and none on others. Answers the sheet's length. Numbers of any
/// size are tested as they are (G4). Tests 4-8, then 14 (A11); an [`EndKind`] is never refused.
///
/// ```
/// use station::{COURSE_A, EndKind, Refusal};
///
/// let waypoints = [0, 10, 20, 8, 10, 22, 0, 10, 24];
/// // two bytes more than it needs
/// let mut sheet = [7; 50];
/// let length = station::write(EndKind::Free, &[2, 2], &waypoints, &[], &mut sheet)?;
/// assert_eq!(sheet[..length], COURSE_A);
/// assert_eq!(sheet[length..], [7, 7]);
///
/// let mut short = [7; 47];
/// assert_eq!(station::write(EndKind::Free, &[2, 2], &waypoints, &[], &mut short), Err(Refusal::Page));
/// assert_eq!(short, [7; 47]);
/// # Ok::<(), station::Refusal>(())
/// ```
#[inline]
pub fn write(kind: EndKind, legs: &[u64], waypoints: &[i64], slopes: &[i64], sheet: &mut [u8]) -> Result<usize, Refusal> {
    let mut out = [0];
    done(raw::write(kind as u64, legs, waypoints, slopes, sheet, &mut out))?;
    Ok(out[0] as usize)
}

/// Joins two free-ended courses, the second of which starts at the waypoint where the first ends: at the front of the slice `sheet`, whose
/// bytes behind it stay, the joined sheet (J1). It has the legs of both in turn and their waypoints likewise, the shared one once (J2).
/// Answers the joined sheet's length. The waypoints of the first keep their ticks, those of the second come later by the first's P (J4);
/// between waypoints the joined course has a spline of its own, which need follow neither of the two (J5). Tests 1-8 of the first sheet,
/// 1-8 of the second, 16, 17, 18 and, last of all, 14, in this order (A13); which of the two sheets was refused is not told.
///
/// ```
/// use station::{COURSE_A, EndKind, Refusal};
///
/// // on from course A's last waypoint, and the whole course
/// let (mut onward, mut whole) = ([0; 34], [0; 62]);
/// station::write(EndKind::Free, &[3], &[0, 10, 24, 9, 10, 24], &[], &mut onward)?;
/// station::write(EndKind::Free, &[2, 2, 3], &[0, 10, 20, 8, 10, 22, 0, 10, 24, 9, 10, 24], &[], &mut whole)?;
///
/// // two bytes more than it needs
/// let mut sheet = [7; 64];
/// let length = station::join(&COURSE_A, &onward, &mut sheet)?;
/// assert_eq!(sheet[..length], whole);
/// assert_eq!(sheet[length..], [7, 7]);
///
/// let mut short = [7; 61];
/// assert_eq!(station::join(&COURSE_A, &onward, &mut short), Err(Refusal::Page));
/// assert_eq!(station::join(&onward, &COURSE_A, &mut short), Err(Refusal::Apart));
/// assert_eq!(short, [7; 61]);
/// # Ok::<(), station::Refusal>(())
/// ```
#[inline]
pub fn join(first: &[u8], second: &[u8], sheet: &mut [u8]) -> Result<usize, Refusal> {
    let mut out = [0];
    done(raw::join(first, second, sheet, &mut out))?;
    Ok(out[0] as usize)
}

/// The answer's number as a result.
#[inline]
fn done(answer: u64) -> Result<(), Refusal> {
    Refusal::from_number(answer).map_or(Ok(()), Err)
}
