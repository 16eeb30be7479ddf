//! The C boundary (`include/station.h`, `include/board.h`): the station's eleven functions and the board's six as the archive has them, and
//! the same over slices, for the rest of the crate. All `unsafe` code of the crate is here.

use crate::{Refusal, Runner, done};

// SAFETY: names and types are those of include/station.h and include/board.h.
unsafe extern "C" {
    /// Kind of ends, N and P into `out`.
    pub fn station_read(sheet: *const u8, sheet_length: usize, out: *mut u64, out_length: usize) -> u64;
    /// Bend numbers into `list`.
    pub fn station_lay_out(sheet: *const u8, sheet_length: usize, list: *mut i64, list_length: usize) -> u64;
    /// North, east and up at a tick into `out`.
    pub fn station_place_at_tick(
        sheet: *const u8,
        sheet_length: usize,
        list: *const i64,
        list_length: usize,
        tick: u64,
        out: *mut i64,
        out_length: usize,
    ) -> u64;
    /// North, east and up of a runner into `out`.
    pub fn station_place_of_runner(
        sheet: *const u8,
        sheet_length: usize,
        list: *const i64,
        list_length: usize,
        leg: u64,
        offset: u64,
        laps: u64,
        out: *mut i64,
        out_length: usize,
    ) -> u64;
    /// Leg, offset and laps at a tick into `out`.
    pub fn station_runner_at_tick(sheet: *const u8, sheet_length: usize, tick: u64, out: *mut u64, out_length: usize) -> u64;
    /// Moves `runner`, a leg, an offset and laps, on by a tick.
    pub fn station_step(sheet: *const u8, sheet_length: usize, runner: *mut u64, runner_length: usize) -> u64;
    /// Moves `runner`, a leg, an offset and laps, back by a tick.
    pub fn station_back(sheet: *const u8, sheet_length: usize, runner: *mut u64, runner_length: usize) -> u64;
    /// A sheet from its lists into `sheet`, its length into `out`.
    pub fn station_write(
        kind: u64,
        legs: *const u64,
        legs_length: usize,
        waypoints: *const i64,
        waypoints_length: usize,
        slopes: *const i64,
        slopes_length: usize,
        sheet: *mut u8,
        sheet_length: usize,
        out: *mut u64,
        out_length: usize,
    ) -> u64;
    /// Two sheets joined into `sheet`, its length into `out`.
    pub fn station_join(
        first: *const u8,
        first_length: usize,
        second: *const u8,
        second_length: usize,
        sheet: *mut u8,
        sheet_length: usize,
        out: *mut u64,
        out_length: usize,
    ) -> u64;
    /// Moves on by a tick the seat of `fleet`, a leg, an offset and laps for each, whose turn it is; its place into `place`, the next turn
    /// into `next`.
    pub fn station_round(
        sheet: *const u8,
        sheet_length: usize,
        list: *const i64,
        list_length: usize,
        fleet: *mut u64,
        fleet_length: usize,
        turn: u64,
        place: *mut i64,
        place_length: usize,
        next: *mut u64,
        next_length: usize,
    ) -> u64;
    /// The ticks at which strokes begin and end into `ends`, how many into `out`.
    pub fn station_strokes(
        sheet: *const u8,
        sheet_length: usize,
        list: *const i64,
        list_length: usize,
        tolerance: i64,
        ends: *mut u64,
        ends_length: usize,
        out: *mut u64,
        out_length: usize,
    ) -> u64;
    /// The board's [`station_read`].
    pub fn board_read(sheet: *const u8, sheet_length: usize, out: *mut u64, out_length: usize) -> u64;
    /// The board's [`station_lay_out`].
    pub fn board_lay_out(sheet: *const u8, sheet_length: usize, list: *mut i64, list_length: usize) -> u64;
    /// The board's [`station_place_at_tick`].
    pub fn board_place_at_tick(
        sheet: *const u8,
        sheet_length: usize,
        list: *const i64,
        list_length: usize,
        tick: u64,
        out: *mut i64,
        out_length: usize,
    ) -> u64;
    /// The board's [`station_place_of_runner`].
    pub fn board_place_of_runner(
        sheet: *const u8,
        sheet_length: usize,
        list: *const i64,
        list_length: usize,
        leg: u64,
        offset: u64,
        laps: u64,
        out: *mut i64,
        out_length: usize,
    ) -> u64;
    /// The board's [`station_runner_at_tick`].
    pub fn board_runner_at_tick(sheet: *const u8, sheet_length: usize, tick: u64, out: *mut u64, out_length: usize) -> u64;
    /// The board's [`station_step`].
    pub fn board_step(sheet: *const u8, sheet_length: usize, runner: *mut u64, runner_length: usize) -> u64;
}

// What the library asks of its caller, slices and their borrows give: a pointer that is not null (that of an empty slice dangles, which is
// fine), aligned, good for the length beside it, and for what is written a borrow that nothing else shares. Any values will do (D1).

/// The six functions that station and board both have. Only this file fills it in, with the functions above.
pub(crate) struct Six {
    read: unsafe extern "C" fn(*const u8, usize, *mut u64, usize) -> u64,
    lay_out: unsafe extern "C" fn(*const u8, usize, *mut i64, usize) -> u64,
    place_at_tick: unsafe extern "C" fn(*const u8, usize, *const i64, usize, u64, *mut i64, usize) -> u64,
    place_of_runner: unsafe extern "C" fn(*const u8, usize, *const i64, usize, u64, u64, u64, *mut i64, usize) -> u64,
    runner_at_tick: unsafe extern "C" fn(*const u8, usize, u64, *mut u64, usize) -> u64,
    step: unsafe extern "C" fn(*const u8, usize, *mut u64, usize) -> u64,
}

/// The station's.
pub(crate) const STATION: Six = Six {
    read: station_read,
    lay_out: station_lay_out,
    place_at_tick: station_place_at_tick,
    place_of_runner: station_place_of_runner,
    runner_at_tick: station_runner_at_tick,
    step: station_step,
};

/// The board's.
pub(crate) const BOARD: Six = Six {
    read: board_read,
    lay_out: board_lay_out,
    place_at_tick: board_place_at_tick,
    place_of_runner: board_place_of_runner,
    runner_at_tick: board_runner_at_tick,
    step: board_step,
};

impl Six {
    /// Kind of ends, N and P.
    #[inline]
    pub(crate) fn read(&self, sheet: &[u8]) -> Result<[u64; 3], Refusal> {
        let mut out = [0; 3];
        // SAFETY: pointers and lengths of two borrowed slices, `out` borrowed mutably.
        done(unsafe { (self.read)(sheet.as_ptr(), sheet.len(), out.as_mut_ptr(), out.len()) })?;
        Ok(out)
    }

    #[inline]
    pub(crate) fn lay_out(&self, sheet: &[u8], list: &mut [i64]) -> Result<(), Refusal> {
        // SAFETY: pointers and lengths of two borrowed slices, `list` borrowed mutably.
        done(unsafe { (self.lay_out)(sheet.as_ptr(), sheet.len(), list.as_mut_ptr(), list.len()) })
    }

    /// North, east and up.
    #[inline]
    pub(crate) fn place_at_tick(&self, sheet: &[u8], list: &[i64], tick: u64) -> Result<[i64; 3], Refusal> {
        let (s, n, l, m) = (sheet.as_ptr(), sheet.len(), list.as_ptr(), list.len());
        let mut out = [0; 3];
        // SAFETY: pointers and lengths of three borrowed slices, `out` borrowed mutably.
        done(unsafe { (self.place_at_tick)(s, n, l, m, tick, out.as_mut_ptr(), out.len()) })?;
        Ok(out)
    }

    /// North, east and up.
    #[inline]
    pub(crate) fn place_of_runner(&self, sheet: &[u8], list: &[i64], runner: Runner) -> Result<[i64; 3], Refusal> {
        let (s, n, l, m) = (sheet.as_ptr(), sheet.len(), list.as_ptr(), list.len());
        let Runner { leg, offset, laps } = runner;
        let mut out = [0; 3];
        // SAFETY: pointers and lengths of three borrowed slices, `out` borrowed mutably.
        done(unsafe { (self.place_of_runner)(s, n, l, m, leg, offset, laps, out.as_mut_ptr(), out.len()) })?;
        Ok(out)
    }

    /// Leg, offset and laps.
    #[inline]
    pub(crate) fn runner_at_tick(&self, sheet: &[u8], tick: u64) -> Result<[u64; 3], Refusal> {
        let mut out = [0; 3];
        // SAFETY: pointers and lengths of two borrowed slices, `out` borrowed mutably.
        done(unsafe { (self.runner_at_tick)(sheet.as_ptr(), sheet.len(), tick, out.as_mut_ptr(), out.len()) })?;
        Ok(out)
    }

    #[inline]
    pub(crate) fn step(&self, sheet: &[u8], runner: &mut Runner) -> Result<(), Refusal> {
        moved(self.step, sheet, runner)
    }
}

#[inline]
pub(crate) fn back(sheet: &[u8], runner: &mut Runner) -> Result<(), Refusal> {
    moved(station_back, sheet, runner)
}

/// A runner moved by a step of one of the two, or by the back.
#[inline]
fn moved(by: unsafe extern "C" fn(*const u8, usize, *mut u64, usize) -> u64, sheet: &[u8], runner: &mut Runner) -> Result<(), Refusal> {
    let mut record: [u64; 3] = (*runner).into();
    // SAFETY: one of three functions of this file; pointers and lengths of two borrowed slices, `record` borrowed mutably.
    done(unsafe { by(sheet.as_ptr(), sheet.len(), record.as_mut_ptr(), record.len()) })?;
    *runner = record.into();
    Ok(())
}

#[inline]
pub(crate) fn write(kind: u64, legs: &[u64], waypoints: &[i64], slopes: &[i64], sheet: &mut [u8], out: &mut [u64; 1]) -> u64 {
    let (l, w, s) = (legs.as_ptr(), waypoints.as_ptr(), slopes.as_ptr());
    let (page, length) = (sheet.as_mut_ptr(), sheet.len());
    // SAFETY: pointers and lengths of five borrowed slices, `sheet` and `out` borrowed mutably.
    unsafe { station_write(kind, l, legs.len(), w, waypoints.len(), s, slopes.len(), page, length, out.as_mut_ptr(), out.len()) }
}

#[inline]
pub(crate) fn join(first: &[u8], second: &[u8], sheet: &mut [u8], out: &mut [u64; 1]) -> u64 {
    let (a, b, page, length) = (first.as_ptr(), second.as_ptr(), sheet.as_mut_ptr(), sheet.len());
    // SAFETY: pointers and lengths of four borrowed slices, `sheet` and `out` borrowed mutably; the two that are read may be one.
    unsafe { station_join(a, first.len(), b, second.len(), page, length, out.as_mut_ptr(), out.len()) }
}

// A fleet's runners are its numbers as they lie: does not compile where a runner is more than its three.
const _: () = assert!(size_of::<Runner>() == 3 * size_of::<u64>());

#[inline]
pub(crate) fn round(sheet: &[u8], list: &[i64], fleet: &mut [Runner], turn: u64, place: &mut [i64; 3], next: &mut [u64; 1]) -> u64 {
    let (s, n, l, m) = (sheet.as_ptr(), sheet.len(), list.as_ptr(), list.len());
    // leg, offset and laps of each runner in turn (`repr(C)`)
    let (seats, numbers) = (fleet.as_mut_ptr().cast(), 3 * fleet.len());
    // SAFETY: pointers and lengths of five borrowed slices, `fleet`, `place` and `next` borrowed mutably.
    unsafe { station_round(s, n, l, m, seats, numbers, turn, place.as_mut_ptr(), place.len(), next.as_mut_ptr(), next.len()) }
}

#[inline]
pub(crate) fn strokes(sheet: &[u8], list: &[i64], tolerance: i64, ends: &mut [u64], out: &mut [u64; 1]) -> u64 {
    let (s, n, l, m) = (sheet.as_ptr(), sheet.len(), list.as_ptr(), list.len());
    // SAFETY: pointers and lengths of four borrowed slices, `ends` and `out` borrowed mutably.
    unsafe { station_strokes(s, n, l, m, tolerance, ends.as_mut_ptr(), ends.len(), out.as_mut_ptr(), out.len()) }
}
