//! The C functions of the library and of the C files, in a table for each.

/// `place_at_tick`: the sheet, the list, the tick, the out.
type PlaceAtTick = unsafe extern "C" fn(*const u8, usize, *const i64, usize, u64, *mut i64, usize) -> u64;

/// `place_of_runner`: the sheet, the list, the leg, the offset, the laps, the out.
type PlaceOfRunner = unsafe extern "C" fn(*const u8, usize, *const i64, usize, u64, u64, u64, *mut i64, usize) -> u64;

/// `write`: the kind, three lists, the page, the out.
type Write = unsafe extern "C" fn(u64, *const u64, usize, *const i64, usize, *const i64, usize, *mut u8, usize, *mut u64, usize) -> u64;

/// `round`: the sheet, the list, the fleet, the turn, the place, the next turn.
type Round = unsafe extern "C" fn(*const u8, usize, *const i64, usize, *mut u64, usize, u64, *mut i64, usize, *mut u64, usize) -> u64;

/// `strokes`: the sheet, the list, the tolerance, the ends, the out.
type Strokes = unsafe extern "C" fn(*const u8, usize, *const i64, usize, i64, *mut u64, usize, *mut u64, usize) -> u64;

/// The six calls that station and board both have (B1).
pub struct Six {
    pub read: unsafe extern "C" fn(*const u8, usize, *mut u64, usize) -> u64,
    pub lay_out: unsafe extern "C" fn(*const u8, usize, *mut i64, usize) -> u64,
    pub place_at_tick: PlaceAtTick,
    pub place_of_runner: PlaceOfRunner,
    pub runner_at_tick: unsafe extern "C" fn(*const u8, usize, u64, *mut u64, usize) -> u64,
    pub step: unsafe extern "C" fn(*const u8, usize, *mut u64, usize) -> u64,
}

/// One implementation of the station's eleven calls and of the board's six.
pub struct Calls {
    pub name: &'static str,
    pub station: Six,
    pub board: Six,
    pub back: unsafe extern "C" fn(*const u8, usize, *mut u64, usize) -> u64,
    pub write: Write,
    pub join: unsafe extern "C" fn(*const u8, usize, *const u8, usize, *mut u8, usize, *mut u64, usize) -> u64,
    pub round: Round,
    pub strokes: Strokes,
}

impl Calls {
    /// The call `write` over slices.
    pub fn write_slices(&self, kind: u64, legs: &[u64], waypoints: &[i64], slopes: &[i64], page: &mut [u8], out: &mut [u64]) -> u64 {
        let ((legs, l), (waypoints, w), (slopes, s)) = (parts(legs), parts(waypoints), parts(slopes));
        let ((page, n), (out, m)) = ((page.as_mut_ptr(), page.len()), (out.as_mut_ptr(), out.len()));
        // SAFETY: pointers and lengths of live slices that do not overlap.
        unsafe { (self.write)(kind, legs, l, waypoints, w, slopes, s, page, n, out, m) }
    }

    /// The call `join` over slices.
    pub fn join_slices(&self, first: &[u8], second: &[u8], page: &mut [u8], out: &mut [u64]) -> u64 {
        let ((first, a), (second, b)) = (parts(first), parts(second));
        let ((page, n), (out, m)) = ((page.as_mut_ptr(), page.len()), (out.as_mut_ptr(), out.len()));
        // SAFETY: pointers and lengths of live slices; those that are written overlap no other.
        unsafe { (self.join)(first, a, second, b, page, n, out, m) }
    }

    /// The call `round` over slices.
    pub fn round_slices(&self, sheet: &[u8], list: &[i64], fleet: &mut [u64], turn: u64, place: &mut [i64], next: &mut [u64]) -> u64 {
        let ((sheet, n), (list, k), (fleet, f)) = (parts(sheet), parts(list), (fleet.as_mut_ptr(), fleet.len()));
        let ((place, m), (next, t)) = ((place.as_mut_ptr(), place.len()), (next.as_mut_ptr(), next.len()));
        // SAFETY: pointers and lengths of live slices; those that are written overlap no other.
        unsafe { (self.round)(sheet, n, list, k, fleet, f, turn, place, m, next, t) }
    }

    /// The call `strokes` over slices.
    pub fn strokes_slices(&self, sheet: &[u8], list: &[i64], tolerance: i64, ends: &mut [u64], out: &mut [u64]) -> u64 {
        let ((sheet, n), (list, k)) = (parts(sheet), parts(list));
        let ((ends, e), (out, m)) = ((ends.as_mut_ptr(), ends.len()), (out.as_mut_ptr(), out.len()));
        // SAFETY: pointers and lengths of live slices; those that are written overlap no other.
        unsafe { (self.strokes)(sheet, n, list, k, tolerance, ends, e, out, m) }
    }
}

/// A slice as C takes it.
pub fn parts<T>(slice: &[T]) -> (*const T, usize) {
    (slice.as_ptr(), slice.len())
}

/// Tables of six from the names of the functions.
macro_rules! tables_of_six {
    ($($table:ident = $read:ident $lay_out:ident $place_at_tick:ident $place_of_runner:ident $runner_at_tick:ident $step:ident;)*) => {
        extern "C" { $(
            fn $read(sheet: *const u8, n: usize, out: *mut u64, m: usize) -> u64;
            fn $lay_out(sheet: *const u8, n: usize, list: *mut i64, m: usize) -> u64;
            fn $place_at_tick(sheet: *const u8, n: usize, list: *const i64, k: usize, tick: u64, out: *mut i64, m: usize) -> u64;
            fn $place_of_runner(
                sheet: *const u8, n: usize, list: *const i64, k: usize, leg: u64, offset: u64, laps: u64, out: *mut i64, m: usize,
            ) -> u64;
            fn $runner_at_tick(sheet: *const u8, n: usize, tick: u64, out: *mut u64, m: usize) -> u64;
            fn $step(sheet: *const u8, n: usize, runner: *mut u64, m: usize) -> u64;
        )* }
        $(const $table: Six = Six {
            read: $read,
            lay_out: $lay_out,
            place_at_tick: $place_at_tick,
            place_of_runner: $place_of_runner,
            runner_at_tick: $runner_at_tick,
            step: $step,
        };)*
    };
}

tables_of_six! {
    STATION = station_read station_lay_out station_place_at_tick station_place_of_runner station_runner_at_tick station_step;
    BOARD = board_read board_lay_out board_place_at_tick board_place_of_runner board_runner_at_tick board_step;
    BASE_STATION = base_read base_lay_out base_place_at_tick base_place_of_runner base_runner_at_tick base_step;
    BASE_BOARD = base_board_read base_board_lay_out base_board_place_at_tick base_board_place_of_runner base_board_runner_at_tick
        base_board_step;
    CAREFUL_STATION = careful_read careful_lay_out careful_place_at_tick careful_place_of_runner careful_runner_at_tick careful_step;
    CAREFUL_BOARD = careful_board_read careful_board_lay_out careful_board_place_at_tick careful_board_place_of_runner
        careful_board_runner_at_tick careful_board_step;
    HALF_FIRST_STATION = half_first_read half_first_lay_out half_first_place_at_tick half_first_place_of_runner half_first_runner_at_tick
        half_first_step;
    HALF_FIRST_BOARD = half_first_board_read half_first_board_lay_out half_first_board_place_at_tick half_first_board_place_of_runner
        half_first_board_runner_at_tick half_first_board_step;
    STRUCTS_STATION = structs_read structs_lay_out structs_place_at_tick structs_place_of_runner structs_runner_at_tick structs_step;
    STRUCTS_BOARD = structs_board_read structs_board_lay_out structs_board_place_at_tick structs_board_place_of_runner
        structs_board_runner_at_tick structs_board_step;
}

/// Whole tables from a name, two tables of six, and the names of the functions that the station alone has.
macro_rules! tables {
    ($($(#[$about:meta])* $table:ident = $name:literal $station:ident $board:ident $back:ident $write:ident $join:ident $round:ident
       $strokes:ident;)*) => {
        extern "C" { $(
            fn $back(sheet: *const u8, n: usize, runner: *mut u64, m: usize) -> u64;
            fn $write(
                kind: u64, legs: *const u64, l: usize, waypoints: *const i64, w: usize, slopes: *const i64, s: usize,
                sheet: *mut u8, n: usize, out: *mut u64, m: usize,
            ) -> u64;
            fn $join(
                first: *const u8, a: usize, second: *const u8, b: usize, sheet: *mut u8, n: usize, out: *mut u64, m: usize,
            ) -> u64;
            fn $round(
                sheet: *const u8, n: usize, list: *const i64, k: usize, fleet: *mut u64, f: usize, turn: u64,
                place: *mut i64, m: usize, next: *mut u64, t: usize,
            ) -> u64;
            fn $strokes(
                sheet: *const u8, n: usize, list: *const i64, k: usize, tolerance: i64, ends: *mut u64, e: usize, out: *mut u64, m: usize,
            ) -> u64;
        )* }
        $($(#[$about])* pub const $table: Calls = Calls {
            name: $name,
            station: $station,
            board: $board,
            back: $back,
            write: $write,
            join: $join,
            round: $round,
            strokes: $strokes,
        };)*
    };
}

tables! {
    /// The library.
    LIBRARY = "library" STATION BOARD station_back station_write station_join station_round station_strokes;
    /// c/base.c.
    BASE = "base.c" BASE_STATION BASE_BOARD base_back base_write base_join base_round base_strokes;
    /// c/careful.c.
    CAREFUL = "careful.c" CAREFUL_STATION CAREFUL_BOARD careful_back careful_write careful_join careful_round careful_strokes;
    /// c/careful.c with HALF_FIRST.
    HALF_FIRST = "careful.c, half first" HALF_FIRST_STATION HALF_FIRST_BOARD half_first_back half_first_write half_first_join
        half_first_round half_first_strokes;
    /// The library by the headers' functions over structs (c/header.c).
    STRUCTS = "the headers' structs" STRUCTS_STATION STRUCTS_BOARD structs_back structs_write structs_join structs_round structs_strokes;
}
