//! The autopilot board's calls (group B), by which a sheet can be tried before it is sent there: the station's own of the same names, with
//! the board's memory for 48 waypoints in place of 512.
//!
//! Each has one test more, [`Refusal::Board`], where a sheet has more than 48 waypoints and not over 512, right after [`Refusal::Points`]
//! and before [`Refusal::Size`] (A16). For a sheet with up to 48, whatever its other bytes, answers, lists and runners
//! are the same on board and station (B3).
//!
//! ```
//! use station::{EndKind, Refusal, board};
//!
//! // legs of a tick between waypoints at the home post: the most that the board reads, and one more
//! let mut sheet = [0; station::LONGEST_SHEET];
//! let length = station::write(EndKind::Free, &[1; 47], &[0; 144], &[], &mut sheet)?;
//! assert_eq!(board::read(&sheet[..length])?, station::read(&sheet[..length])?);
//!
//! let length = station::write(EndKind::Free, &[1; 48], &[0; 147], &[], &mut sheet)?;
//! assert_eq!(station::read(&sheet[..length])?.waypoints, 49);
//! assert_eq!(board::read(&sheet[..length]), Err(Refusal::Board));
//! # Ok::<(), station::Refusal>(())
//! ```

use crate::{Course, Place, Refusal, Runner, raw};

/// How many waypoints a sheet can have that the board reads (N23).
pub const MOST_POINTS: usize = 48;

/// How long a sheet can be that the board reads, in bytes (B5).
pub const LONGEST_SHEET: usize = 702;

/// How long a list of bend numbers a sheet can ask for that the board reads (B5).
pub const LONGEST_LIST: usize = 144;

/// Reads a sheet. Tests 1-4, 23, 5-8, in this order (A2, A16).
///
/// ```
/// use station::{Refusal, board};
///
/// // eight bytes that name 48, 49 and 513 waypoints, and are too few for any of them (W21)
/// let head = |n: u16| [0, 0, 0, 8, 1, 0, n.to_be_bytes()[0], n.to_be_bytes()[1]];
/// assert_eq!(board::read(&head(48)), Err(Refusal::Size));
/// assert_eq!(board::read(&head(49)), Err(Refusal::Board));
/// assert_eq!(station::read(&head(49)), Err(Refusal::Size));
/// assert_eq!(board::read(&head(513)), Err(Refusal::Points));
/// ```
#[inline]
pub fn read(sheet: &[u8]) -> Result<Course, Refusal> {
    raw::BOARD.read(sheet).map(Course::of)
}

/// Lays out the sheet's bend numbers in a list, as [`station::lay_out`](crate::lay_out) does. Tests those of [`read`], then 9 (A3, A16).
///
/// ```
/// use station::{COURSE_A, board};
///
/// // a list that serves every sheet that the board reads
/// let mut list = [7; board::LONGEST_LIST];
/// board::lay_out(&COURSE_A, &mut list)?;
/// assert_eq!(list[..10], [0, -65_536, 0, 0, 0, 0, 0, 0, 0, 7]);
/// # Ok::<(), station::Refusal>(())
/// ```
#[inline]
pub fn lay_out(sheet: &[u8], list: &mut [i64]) -> Result<(), Refusal> {
    raw::BOARD.lay_out(sheet, list)
}

/// The place at a tick, by a list that was laid out for this sheet, here or at the station (B3). Tests those of [`read`], then 9, 10, 12
/// (A4, A16).
///
/// ```
/// use station::{COURSE_A, Place, board};
///
/// let mut list = [0; 9];
/// station::lay_out(&COURSE_A, &mut list)?;
/// assert_eq!(board::place_at_tick(&COURSE_A, &list, 1)?, Place { north: 6, east: 10, up: 21 });
/// # Ok::<(), station::Refusal>(())
/// ```
#[inline]
pub fn place_at_tick(sheet: &[u8], list: &[i64], tick: u64) -> Result<Place, Refusal> {
    raw::BOARD.place_at_tick(sheet, list, tick).map(Place::from)
}

/// The place of a runner, by a list that was laid out for this sheet. Tests those of [`read`], then 9, 11, 12 (A5, A16).
#[inline]
pub fn place_of_runner(sheet: &[u8], list: &[i64], runner: Runner) -> Result<Place, Refusal> {
    raw::BOARD.place_of_runner(sheet, list, runner).map(Place::from)
}

/// The runner that stands at a tick. Tests those of [`read`], then 10 (A6, A16).
#[inline]
pub fn runner_at_tick(sheet: &[u8], tick: u64) -> Result<Runner, Refusal> {
    raw::BOARD.runner_at_tick(sheet, tick).map(Runner::from)
}

/// Moves a runner on by a tick. Tests those of [`read`], then 11, 13 (A7, A16).
///
/// ```
/// use station::{COURSE_A, Place, Refusal, board};
///
/// let mut list = [0; 9];
/// board::lay_out(&COURSE_A, &mut list)?;
/// let mut runner = board::runner_at_tick(&COURSE_A, 0)?;
/// for _ in 0..4 {
///     board::step(&COURSE_A, &mut runner)?;
/// }
/// assert_eq!(board::place_of_runner(&COURSE_A, &list, runner)?, Place { north: 0, east: 10, up: 24 });
/// assert_eq!(board::step(&COURSE_A, &mut runner), Err(Refusal::Landed));
/// # Ok::<(), station::Refusal>(())
/// ```
#[inline]
pub fn step(sheet: &[u8], runner: &mut Runner) -> Result<(), Refusal> {
    raw::BOARD.step(sheet, runner)
}
