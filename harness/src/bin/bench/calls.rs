//! The calls that the benchmark times, each as work on the sheets of a form.

use crate::forms::Form;
use harness::boundary::{Calls, Six};
use harness::model::{self, Lists, Reader, Runner};
use std::hint::black_box;

/// Something to time; it does its work once for the k-th sheet.
pub type Work<'a> = Box<dyn FnMut(usize) + 'a>;

/// A tick of a course; laps on, it is reduced before its leg is looked for (P4). The last two are of closed courses: five laps on, and one
/// tick before that.
#[derive(Clone, Copy)]
pub enum At {
    First,
    Middle,
    Last,
    LapsOn,
    LapFlown,
    LapEnding,
}

impl At {
    pub fn name(self) -> &'static str {
        match self {
            At::First => "the first tick",
            At::Middle => "a middle tick",
            At::Last => "the last tick",
            At::LapsOn => "a tick five laps on",
            At::LapFlown => "a lap's first tick",
            At::LapEnding => "a lap's last tick",
        }
    }

    /// The tick on the k-th sheet.
    pub fn tick(self, form: &Form, k: usize) -> u64 {
        match self {
            At::First => 0,
            At::Middle => form.ticks[k] / 2,
            At::Last => form.last[k],
            At::LapsOn => 5 * form.ticks[k] + form.ticks[k] / 2,
            At::LapFlown => 5 * form.ticks[k],
            At::LapEnding => 5 * form.ticks[k] - 1,
        }
    }
}

#[derive(Clone, Copy)]
pub enum Call {
    Read,
    LayOut,
    PlaceAt(At),
    PlaceOfRunner,
    RunnerAt(At),
    /// Of the runner at a tick, as is the back.
    Step(At),
    Back(At),
    Write,
    Join,
    /// Of so many seats.
    Round(usize),
    /// At so many millimetres; into a list with P + 1 places, or with just as many as there are ends, which have to be counted first.
    Strokes {
        tolerance: i64,
        counted: bool,
    },
}

impl Call {
    /// Whether the board has it too (B1).
    pub fn is_of_board(self) -> bool {
        matches!(self, Call::Read | Call::LayOut | Call::PlaceAt(_) | Call::PlaceOfRunner | Call::RunnerAt(_) | Call::Step(_))
    }

    pub fn work<'a>(self, calls: &'a Calls, form: &'a Form) -> Work<'a> {
        let six = form.six(calls);
        let sheet = |k: usize| (form.sheets[k].as_ptr(), form.sheets[k].len());
        let (mut numbers, mut room) = ([0_u64; 3], vec![0_i64; 3 * form.n]);
        // SAFETY (all calls): pointers and lengths of live slices that do not overlap.
        match self {
            Call::Read => Box::new(move |k| {
                let (s, n) = sheet(k);
                black_box(unsafe { (six.read)(s, n, numbers.as_mut_ptr(), 3) });
            }),
            Call::LayOut => Box::new(move |k| {
                let (s, n) = sheet(k);
                black_box(unsafe { (six.lay_out)(s, n, room.as_mut_ptr(), room.len()) });
            }),
            Call::RunnerAt(at) => {
                let ticks = ticks(form, at);
                Box::new(move |k| {
                    let (s, n) = sheet(k);
                    black_box(unsafe { (six.runner_at_tick)(s, n, ticks[k], numbers.as_mut_ptr(), 3) });
                })
            }
            Call::Step(at) | Call::Back(at) => {
                let call = if matches!(self, Call::Step(_)) { six.step } else { calls.back };
                let runners = runners(form, at);
                Box::new(move |k| {
                    let (s, n) = sheet(k);
                    let mut runner = runners[k];
                    black_box(unsafe { call(s, n, runner.as_mut_ptr(), 3) });
                })
            }
            Call::PlaceAt(_) | Call::PlaceOfRunner => self.placing(six, form),
            Call::Write | Call::Join => self.making(calls, form),
            Call::Round(seats) => rounds(calls, form, seats),
            Call::Strokes { tolerance, counted } => strokes(calls, form, tolerance, counted),
        }
    }

    /// The calls that answer a place.
    fn placing<'a>(self, six: &'a Six, form: &'a Form) -> Work<'a> {
        let sheet = |k: usize| (form.sheets[k].as_ptr(), form.sheets[k].len());
        let list = |k: usize| (form.lists[k].as_ptr(), form.lists[k].len());
        let mut place = [0_i64; 3];
        // SAFETY (both calls): pointers and lengths of live slices that do not overlap.
        if let Call::PlaceAt(at) = self {
            let ticks = ticks(form, at);
            return Box::new(move |k| {
                let ((s, n), (l, m)) = (sheet(k), list(k));
                black_box(unsafe { (six.place_at_tick)(s, n, l, m, ticks[k], place.as_mut_ptr(), 3) });
            });
        }
        Box::new(move |k| {
            let ((s, n), (l, m)) = (sheet(k), list(k));
            let [leg, offset, laps] = form.runners[k];
            black_box(unsafe { (six.place_of_runner)(s, n, l, m, leg, offset, laps, place.as_mut_ptr(), 3) });
        })
    }

    /// The calls that make a sheet.
    fn making<'a>(self, calls: &'a Calls, form: &'a Form) -> Work<'a> {
        let (mut page, mut length) = (vec![0_u8; form.sheets[0].len()], [0]);
        if let Call::Join = self {
            return Box::new(move |k| {
                let [first, second] = &form.halves[k];
                black_box(calls.join_slices(first, second, &mut page, &mut length));
            });
        }
        Box::new(move |k| {
            let Lists { kind, legs, waypoints, slopes } = &form.sources[k];
            black_box(calls.write_slices(*kind, legs, waypoints, slopes, &mut page, &mut length));
        })
    }
}

/// Rounds of a fleet with the turn handed on as it comes back. Each call finds the seat's runner halfway round, where it is not refused: a
/// refusal would be quick.
fn rounds<'a>(calls: &'a Calls, form: &'a Form, seats: usize) -> Work<'a> {
    let (mut fleet, mut place, mut next) = (vec![0; 3 * seats], [0; 3], [0]);
    for (k, sheet) in form.sheets.iter().enumerate() {
        let mut seat = form.runners[k];
        let served = model::round(sheet, &form.lists[k], &mut seat, 0).expect("a fleet of one seat");
        served.place.expect("a seat that moves on");
    }
    Box::new(move |k| {
        let turn = next[0];
        fleet[3 * turn as usize..][..3].copy_from_slice(&form.runners[k]);
        black_box(calls.round_slices(&form.sheets[k], &form.lists[k], &mut fleet, turn, &mut place, &mut next));
    })
}

/// Strokes, none of which are refused; where they are to be counted first, P + 1 places would be too many.
fn strokes<'a>(calls: &'a Calls, form: &'a Form, tolerance: i64, counted: bool) -> Work<'a> {
    let mut lists: Vec<Vec<u64>> = form.ticks.iter().map(|ticks| vec![0; *ticks as usize + 1]).collect();
    for (k, ends) in lists.iter_mut().enumerate() {
        let count = model::strokes(&form.sheets[k], &form.lists[k], tolerance, ends).expect("strokes that are not refused");
        if counted {
            assert!(count < ends.len(), "strokes that need not be counted");
            ends.truncate(count);
        }
    }
    let mut count = [0];
    Box::new(move |k| {
        black_box(calls.strokes_slices(&form.sheets[k], &form.lists[k], tolerance, &mut lists[k], &mut count));
    })
}

/// The tick on each sheet of a form, which has to have it: a refusal would be quick.
fn ticks(form: &Form, at: At) -> Vec<u64> {
    runners(form, at);
    (0..form.sheets.len()).map(|k| at.tick(form, k)).collect()
}

/// The runner at the tick on each sheet.
fn runners(form: &Form, at: At) -> Vec<Runner> {
    let runner = |(k, sheet): (usize, &Vec<u8>)| Reader::STATION.runner_at_tick(sheet, at.tick(form, k)).expect("a tick of the course");
    form.sheets.iter().enumerate().map(runner).collect()
}
