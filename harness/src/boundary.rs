//! The C boundary: what include/station.h and include/board.h promise, said by the model, and the calls of the library and of the C files
//! by name.

mod tables;

use crate::model::{self, Course, Lists, Reader, Runner};
use crate::room::{NO_RUNNER, ROOM};
use tables::parts;
pub use tables::{Calls, Six, BASE, CAREFUL, HALF_FIRST, LIBRARY, STRUCTS};

/// Any of the station's eleven calls with its numbers, a writing's lists, a joining's second sheet; or one of the first six, asked of the
/// board (B1).
#[derive(Clone, Debug)]
pub enum Call {
    Read,
    LayOut,
    PlaceAtTick { tick: u64 },
    PlaceOfRunner { runner: Runner },
    RunnerAtTick { tick: u64 },
    Step,
    Back,
    Write(Lists),
    Join(Vec<u8>),
    Round { turn: u64 },
    Strokes { tolerance: i64 },
    Board(Box<Call>),
}

/// What else is lent to a call, as it was before it or as it is after it.
#[derive(Clone, Default, PartialEq, Eq, Debug)]
pub struct Lent {
    pub list: Vec<i64>,
    /// The out of numbers without sign, or the runner, or the fleet.
    pub words: Vec<u64>,
    pub place: Vec<i64>,
    /// The out of a round's next turn.
    pub next: Vec<u64>,
    /// The list for the ends of strokes.
    pub ends: Vec<u64>,
    /// What a sheet is written into.
    pub page: Vec<u8>,
}

/// The memory that a call is made on: the sheet, a joining's second one, a writing's lists, and what is lent.
#[derive(Default)]
pub struct Memory<'a> {
    pub sheet: &'a [u8],
    pub second: &'a [u8],
    pub legs: &'a [u64],
    pub waypoints: &'a [i64],
    pub slopes: &'a [i64],
    pub list: &'a mut [i64],
    pub words: &'a mut [u64],
    pub place: &'a mut [i64],
    pub next: &'a mut [u64],
    pub ends: &'a mut [u64],
    pub page: &'a mut [u8],
}

/// How many calls the station has, and how many of them, the first ones, the board has too.
pub const STATION_CALLS: usize = 11;
pub const BOARD_CALLS: usize = 6;

/// The names of the calls, by [`Call::index`].
pub const NAMES: [&str; STATION_CALLS + BOARD_CALLS] = [
    "read",
    "lay_out",
    "place_at_tick",
    "place_of_runner",
    "runner_at_tick",
    "step",
    "back",
    "write",
    "join",
    "round",
    "strokes",
    "board_read",
    "board_lay_out",
    "board_place_at_tick",
    "board_place_of_runner",
    "board_runner_at_tick",
    "board_step",
];

/// A2 to A7, A12, A11, A13 to A16: the numbers that each call tests, by [`Call::index`]; and the answers where what is lent is too short.
pub const TESTS: [&[u64]; NAMES.len()] = [
    &[1, 2, 3, 4, 5, 6, 7, 8, ROOM],
    &[1, 2, 3, 4, 5, 6, 7, 8, 9],
    &[1, 2, 3, 4, 5, 6, 7, 8, 9, 10, 12, ROOM],
    &[1, 2, 3, 4, 5, 6, 7, 8, 9, 11, 12, ROOM],
    &[1, 2, 3, 4, 5, 6, 7, 8, 10, ROOM],
    &[1, 2, 3, 4, 5, 6, 7, 8, 11, 13, NO_RUNNER],
    &[1, 2, 3, 4, 5, 6, 7, 8, 11, 15, NO_RUNNER],
    &[3, 4, 5, 6, 7, 8, 14, ROOM],
    &[1, 2, 3, 4, 5, 6, 7, 8, 14, 16, 17, 18, ROOM],
    &[1, 2, 3, 4, 5, 6, 7, 8, 9, 11, 12, 13, 19, 20, ROOM],
    &[1, 2, 3, 4, 5, 6, 7, 8, 9, 12, 21, 22, ROOM],
    &[1, 2, 3, 4, 5, 6, 7, 8, 23, ROOM],
    &[1, 2, 3, 4, 5, 6, 7, 8, 9, 23],
    &[1, 2, 3, 4, 5, 6, 7, 8, 9, 10, 12, 23, ROOM],
    &[1, 2, 3, 4, 5, 6, 7, 8, 9, 11, 12, 23, ROOM],
    &[1, 2, 3, 4, 5, 6, 7, 8, 10, 23, ROOM],
    &[1, 2, 3, 4, 5, 6, 7, 8, 11, 13, 23, NO_RUNNER],
];

impl Call {
    pub fn index(&self) -> usize {
        match self {
            Call::Read => 0,
            Call::LayOut => 1,
            Call::PlaceAtTick { .. } => 2,
            Call::PlaceOfRunner { .. } => 3,
            Call::RunnerAtTick { .. } => 4,
            Call::Step => 5,
            Call::Back => 6,
            Call::Write(_) => 7,
            Call::Join(_) => 8,
            Call::Round { .. } => 9,
            Call::Strokes { .. } => 10,
            Call::Board(call) => STATION_CALLS + call.index(),
        }
    }

    /// The same asked of the board; none where it has no such call.
    pub fn on_board(&self) -> Option<Call> {
        (self.index() < BOARD_CALLS).then(|| Call::Board(Box::new(self.clone())))
    }

    /// Whether the slice lent for the results (or the runner) is too short.
    pub fn lacks_room(&self, lent: &Lent) -> bool {
        match self {
            Call::Read => lent.words.len() < 3,
            Call::LayOut => false,
            Call::PlaceAtTick { .. } | Call::PlaceOfRunner { .. } => lent.place.len() < 3,
            Call::RunnerAtTick { .. } | Call::Step | Call::Back => lent.words.len() < 3,
            Call::Write(_) | Call::Join(_) | Call::Strokes { .. } => lent.words.is_empty(),
            Call::Round { .. } => lent.place.len() < 3 || lent.next.is_empty(),
            Call::Board(call) => call.lacks_room(lent),
        }
    }

    /// What the model says: the answer, and in `lent` what it leaves there. Refused calls change nothing but a round's next turn (Q3).
    pub fn by_model(&self, sheet: &[u8], lent: &mut Lent) -> u64 {
        let Lent { list, words, place, next, ends, page } = lent;
        let answer = match *self {
            Call::Board(ref call) => call.by_reader(Reader::BOARD, sheet, lent),
            Call::Back => moved(Reader::STATION, sheet, words, Course::backed),
            Call::Write(ref lists) => model::write(lists, page).and_then(|length| put(words, &[length as u64])),
            Call::Join(ref second) => model::join(sheet, second, page).and_then(|length| put(words, &[length as u64])),
            Call::Round { turn } => model::round(sheet, list, words, turn).and_then(|served| {
                let passed_on = put(next, &[served.next]);
                served.place.and_then(|found| put(place, &found)).and(passed_on)
            }),
            Call::Strokes { tolerance } => model::strokes(sheet, list, tolerance, ends).and_then(|count| put(words, &[count as u64])),
            _ => self.by_reader(Reader::STATION, sheet, lent),
        };
        answer.err().unwrap_or(0)
    }

    /// One of the first six by a reader of the model.
    fn by_reader(&self, reader: Reader, sheet: &[u8], lent: &mut Lent) -> Result<(), u64> {
        let Lent { list, words, place, .. } = lent;
        match *self {
            Call::Read => reader.read(sheet).and_then(|course| put(words, &[course.kind as u64, course.n as u64, course.ticks() as u64])),
            Call::LayOut => reader.lay_out(sheet, list),
            Call::PlaceAtTick { tick } => reader.place_at_tick(sheet, list, tick).and_then(|found| put(place, &found)),
            Call::PlaceOfRunner { runner } => reader.place_of_runner(sheet, list, runner).and_then(|found| put(place, &found)),
            Call::RunnerAtTick { tick } => reader.runner_at_tick(sheet, tick).and_then(|runner| put(words, &runner)),
            Call::Step => moved(reader, sheet, words, Course::stepped),
            _ => panic!("only the station has {}", NAMES[self.index()]),
        }
    }

    /// The same by one of the implementations.
    pub fn by(&self, calls: &Calls, memory: Memory) -> u64 {
        let Memory { sheet, second, legs, waypoints, slopes, list, words, place, next, ends, page } = memory;
        let (s, n) = parts(sheet);
        match *self {
            // SAFETY: pointers and lengths of live slices; the one that is written overlaps no other.
            Call::Back => unsafe { (calls.back)(s, n, words.as_mut_ptr(), words.len()) },
            Call::Write(Lists { kind, .. }) => calls.write_slices(kind, legs, waypoints, slopes, page, words),
            Call::Join(_) => calls.join_slices(sheet, second, page, words),
            Call::Round { turn } => calls.round_slices(sheet, list, words, turn, place, next),
            Call::Strokes { tolerance } => calls.strokes_slices(sheet, list, tolerance, ends, words),
            Call::Board(ref call) => call.by_six(&calls.board, sheet, list, words, place),
            _ => self.by_six(&calls.station, sheet, list, words, place),
        }
    }

    /// One of the first six by a table of them.
    fn by_six(&self, six: &Six, sheet: &[u8], list: &mut [i64], words: &mut [u64], place: &mut [i64]) -> u64 {
        let ((s, n), (l, k)) = (parts(sheet), parts(list));
        let ((out, m), (found, p)) = ((words.as_mut_ptr(), words.len()), (place.as_mut_ptr(), place.len()));
        // SAFETY: pointers and lengths of live slices; those that are written overlap no other.
        unsafe {
            match *self {
                Call::Read => (six.read)(s, n, out, m),
                Call::LayOut => (six.lay_out)(s, n, list.as_mut_ptr(), k),
                Call::PlaceAtTick { tick } => (six.place_at_tick)(s, n, l, k, tick, found, p),
                Call::PlaceOfRunner { runner: [leg, offset, laps] } => (six.place_of_runner)(s, n, l, k, leg, offset, laps, found, p),
                Call::RunnerAtTick { tick } => (six.runner_at_tick)(s, n, tick, out, m),
                Call::Step => (six.step)(s, n, out, m),
                _ => panic!("only the station has {}", NAMES[self.index()]),
            }
        }
    }
}

/// The model's step or back on a lent runner. Fewer than three numbers are none: only the sheet is tested.
fn moved(reader: Reader, sheet: &[u8], words: &mut [u64], by: fn(&Course, Runner) -> Result<Runner, u64>) -> Result<(), u64> {
    let course = reader.read(sheet)?;
    let [leg, offset, laps, ..] = *words else { return Err(NO_RUNNER) };
    put(words, &by(&course, [leg, offset, laps])?)
}

/// Results are written where the lent slice has room; what it holds beyond them stays.
fn put<T: Copy>(out: &mut [T], results: &[T]) -> Result<(), u64> {
    if out.len() < results.len() {
        return Err(ROOM);
    }
    out[..results.len()].copy_from_slice(results);
    Ok(())
}
