//! The Rust wrapper's calls with plain numbers in place of its types: all that this program knows of them.

use harness::model::Lists;
pub use harness::station::Refusal;
use harness::station::{self, board, Course, EndKind, Fleet, Runner};

/// The six calls that station and board both have.
pub struct Six {
    pub read: fn(&[u8]) -> Result<[u64; 3], Refusal>,
    pub lay_out: fn(&[u8], &mut [i64]) -> Result<(), Refusal>,
    pub place_at_tick: fn(&[u8], &[i64], u64) -> Result<[i64; 3], Refusal>,
    pub place_of_runner: fn(&[u8], &[i64], [u64; 3]) -> Result<[i64; 3], Refusal>,
    pub runner_at_tick: fn(&[u8], u64) -> Result<[u64; 3], Refusal>,
    pub step: fn(&[u8], &mut [u64; 3]) -> Result<(), Refusal>,
}

pub const STATION: Six = Six { read, lay_out, place_at_tick, place_of_runner, runner_at_tick, step };

pub const BOARD: Six = Six {
    read: |sheet| board::read(sheet).map(fields),
    lay_out: board::lay_out,
    place_at_tick: |sheet, list, tick| board::place_at_tick(sheet, list, tick).map(Into::into),
    place_of_runner: |sheet, list, runner| board::place_of_runner(sheet, list, typed(runner)).map(Into::into),
    runner_at_tick: |sheet, tick| board::runner_at_tick(sheet, tick).map(|runner| plain(&runner)),
    step: |sheet, runner| moved(sheet, runner, board::step),
};

/// Kind, N, P of a course.
fn fields(course: Course) -> [u64; 3] {
    [course.kind as u64, course.waypoints as u64, course.ticks]
}

/// Kind, N, P.
pub fn read(sheet: &[u8]) -> Result<[u64; 3], Refusal> {
    station::read(sheet).map(fields)
}

pub fn lay_out(sheet: &[u8], list: &mut [i64]) -> Result<(), Refusal> {
    station::lay_out(sheet, list)
}

/// North, east, up.
pub fn place_at_tick(sheet: &[u8], list: &[i64], tick: u64) -> Result<[i64; 3], Refusal> {
    station::place_at_tick(sheet, list, tick).map(Into::into)
}

/// The wrapper's runner by its fields, not by the wrapper's own conversions: these are what is tried.
fn typed([leg, offset, laps]: [u64; 3]) -> Runner {
    Runner { leg, offset, laps }
}

/// Leg, offset, laps, likewise.
fn plain(runner: &Runner) -> [u64; 3] {
    [runner.leg, runner.offset, runner.laps]
}

/// North, east, up.
pub fn place_of_runner(sheet: &[u8], list: &[i64], runner: [u64; 3]) -> Result<[i64; 3], Refusal> {
    station::place_of_runner(sheet, list, typed(runner)).map(Into::into)
}

/// Leg, offset, laps.
pub fn runner_at_tick(sheet: &[u8], tick: u64) -> Result<[u64; 3], Refusal> {
    station::runner_at_tick(sheet, tick).map(|runner| plain(&runner))
}

/// Leg, offset and laps, moved in place by one of the wrapper's functions.
fn moved(sheet: &[u8], runner: &mut [u64; 3], by: impl Fn(&[u8], &mut Runner) -> Result<(), Refusal>) -> Result<(), Refusal> {
    let mut moved = typed(*runner);
    let answer = by(sheet, &mut moved);
    *runner = plain(&moved);
    answer
}

/// Moved on.
pub fn step(sheet: &[u8], runner: &mut [u64; 3]) -> Result<(), Refusal> {
    moved(sheet, runner, station::step)
}

/// Moved back.
pub fn back(sheet: &[u8], runner: &mut [u64; 3]) -> Result<(), Refusal> {
    moved(sheet, runner, station::back)
}

/// North, east, up; the fleet, leg, offset and laps of each seat in turn, and the turn are moved on in place.
pub fn round(sheet: &[u8], list: &[i64], fleet: &mut [u64], turn: &mut u64) -> Result<[i64; 3], Refusal> {
    let mut seats: Vec<Runner> = fleet.chunks(3).map(|seat| typed([seat[0], seat[1], seat[2]])).collect();
    let mut lent = Fleet::at(&mut seats, *turn);
    let answer = lent.round(sheet, list).map(Into::into);
    *turn = lent.turn();
    for (record, seat) in fleet.chunks_mut(3).zip(lent.seats()) {
        record.copy_from_slice(&plain(seat));
    }
    answer
}

/// The sheet's length; for a kind below 3.
pub fn write(lists: &Lists, page: &mut [u8]) -> Result<usize, Refusal> {
    let kind = [EndKind::Free, EndKind::Held, EndKind::Closed][lists.kind as usize];
    station::write(kind, &lists.legs, &lists.waypoints, &lists.slopes, page)
}

/// The joined sheet's length.
pub fn join(first: &[u8], second: &[u8], page: &mut [u8]) -> Result<usize, Refusal> {
    station::join(first, second, page)
}

/// How many ends there are.
pub fn strokes(sheet: &[u8], list: &[i64], tolerance: i64, ends: &mut [u64]) -> Result<usize, Refusal> {
    station::strokes(sheet, list, tolerance, ends)
}
