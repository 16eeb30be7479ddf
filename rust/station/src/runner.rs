//! A drone on a course: where it stands, how often it has been round, and its ticks on and back (group M).

use crate::{Place, Refusal, raw};

/// Where a drone stands on a course, and how often it has been round (M1). The default is the first waypoint with no lap flown.
///
/// On a closed course with four legs of 2 ticks a lap takes 8 (W20):
///
/// ```
/// use station::{EndKind, Refusal, Runner};
///
/// let mut sheet = [0; 64];
/// station::write(EndKind::Closed, &[2; 4], &[0, 0, 0, 6, 0, 0, 0, 0, 0, -6, 0, 0], &[], &mut sheet)?;
/// let mut runner = station::runner_at_tick(&sheet, 7)?;
/// assert_eq!(runner, Runner { leg: 3, offset: 1, laps: 0 });
///
/// // a step to the first waypoint adds a lap, and a back from there takes it off again
/// station::step(&sheet, &mut runner)?;
/// assert_eq!(runner, Runner { leg: 0, offset: 0, laps: 1 });
/// assert_eq!(station::runner_at_tick(&sheet, 8)?, runner);
/// station::back(&sheet, &mut runner)?;
/// assert_eq!(runner, Runner { leg: 3, offset: 1, laps: 0 });
///
/// // with no lap flown there is nothing before the first waypoint
/// assert_eq!(station::back(&sheet, &mut Runner::default()), Err(Refusal::Start));
///
/// // the largest count stays as it is
/// let mut runner = Runner { leg: 3, offset: 1, laps: u64::MAX };
/// station::step(&sheet, &mut runner)?;
/// assert_eq!(runner, Runner { leg: 0, offset: 0, laps: u64::MAX });
///
/// // an open course has no laps
/// let mut runner = Runner { leg: 0, offset: 0, laps: 1 };
/// assert_eq!(station::step(&station::COURSE_A, &mut runner), Err(Refusal::Adrift));
/// # Ok::<(), station::Refusal>(())
/// ```
// laid out as in C, so that a fleet's runners are lent as they lie (raw.rs)
#[derive(Clone, Copy, PartialEq, Eq, Hash, Debug, Default)]
#[repr(C)]
pub struct Runner {
    /// The leg, counted from 0.
    pub leg: u64,
    /// The ticks since the leg's start.
    pub offset: u64,
    /// The laps flown: on a closed course any number, on an open one 0, else the runner is adrift (N11).
    pub laps: u64,
}

impl From<[u64; 3]> for Runner {
    fn from([leg, offset, laps]: [u64; 3]) -> Runner {
        Runner { leg, offset, laps }
    }
}

impl From<Runner> for [u64; 3] {
    fn from(runner: Runner) -> [u64; 3] {
        [runner.leg, runner.offset, runner.laps]
    }
}

/// The place of a runner, by a list that was laid out for this sheet; its laps do not change it. Tests 1-9, 11, 12 (A5).
///
/// ```
/// use station::{COURSE_A, Place, Refusal, Runner};
///
/// let mut list = [0; 9];
/// station::lay_out(&COURSE_A, &mut list)?;
/// let runner = Runner { leg: 1, offset: 1, laps: 0 };
/// assert_eq!(station::place_of_runner(&COURSE_A, &list, runner)?, Place { north: 6, east: 10, up: 23 });
///
/// // no third leg, and no laps on an open course
/// assert_eq!(station::place_of_runner(&COURSE_A, &list, Runner { leg: 2, ..runner }), Err(Refusal::Adrift));
/// assert_eq!(station::place_of_runner(&COURSE_A, &list, Runner { laps: 1, ..runner }), Err(Refusal::Adrift));
/// # Ok::<(), station::Refusal>(())
/// ```
#[inline]
pub fn place_of_runner(sheet: &[u8], list: &[i64], runner: Runner) -> Result<Place, Refusal> {
    raw::STATION.place_of_runner(sheet, list, runner).map(Place::from)
}

/// The runner that stands at a tick, on a closed course with as many laps as the tick has been round, on an open one with none (M10). Tests
/// 1-8 and 10 (A6). It takes about the same time at every tick of a course, and that time goes with N, since each call tests the whole
/// sheet (P7).
///
/// ```
/// use station::{COURSE_A, Runner};
///
/// // at tick 2 the second leg starts; the last tick is the full second leg (P3)
/// assert_eq!(station::runner_at_tick(&COURSE_A, 2)?, Runner { leg: 1, offset: 0, laps: 0 });
/// assert_eq!(station::runner_at_tick(&COURSE_A, 4)?, Runner { leg: 1, offset: 2, laps: 0 });
/// # Ok::<(), station::Refusal>(())
/// ```
///
/// On a course with legs of 1, 2, .. 18 ticks, and on the same closed by a leg of 19 (W17):
///
/// ```
/// use station::{EndKind, Refusal, Runner};
///
/// let legs: Vec<u64> = (1..=19).collect();
/// let (mut open, mut closed) = ([0; 272], [0; 274]);
/// station::write(EndKind::Free, &legs[..18], &[0; 57], &[], &mut open)?;
/// station::write(EndKind::Closed, &legs, &[0; 57], &[], &mut closed)?;
///
/// // 136 is the sum of the first sixteen legs, 153 that of seventeen, 171 that of all eighteen
/// for (tick, leg, offset) in [(135, 15, 15), (136, 16, 0), (152, 16, 16), (153, 17, 0), (171, 17, 18)] {
///     assert_eq!(station::runner_at_tick(&open, tick)?, Runner { leg, offset, laps: 0 });
/// }
/// assert_eq!(station::runner_at_tick(&open, 172), Err(Refusal::Past));
///
/// // a lap has 190 ticks
/// assert_eq!(station::runner_at_tick(&closed, 190)?, Runner { leg: 0, offset: 0, laps: 1 });
/// assert_eq!(station::runner_at_tick(&closed, 326)?, Runner { leg: 16, offset: 0, laps: 1 });
/// # Ok::<(), station::Refusal>(())
/// ```
#[inline]
pub fn runner_at_tick(sheet: &[u8], tick: u64) -> Result<Runner, Refusal> {
    raw::STATION.runner_at_tick(sheet, tick).map(Runner::from)
}

/// Moves a runner on by a tick (M2). A step to the first waypoint of a closed course adds a lap; `u64::MAX` laps stay as many (M10).
/// Tests 1-8, 11, 13 (A7).
///
/// ```
/// use station::{COURSE_A, Refusal, Runner};
///
/// // it takes four ticks
/// let mut runner = Runner::default();
/// for _ in 0..4 {
///     station::step(&COURSE_A, &mut runner)?;
/// }
/// assert_eq!(station::step(&COURSE_A, &mut runner), Err(Refusal::Landed));
/// assert_eq!(runner, Runner { leg: 1, offset: 2, laps: 0 });
/// # Ok::<(), station::Refusal>(())
/// ```
#[inline]
pub fn step(sheet: &[u8], runner: &mut Runner) -> Result<(), Refusal> {
    raw::STATION.step(sheet, runner)
}

/// Moves a runner back by a tick (M6), from the first waypoint of a closed course by taking a lap off; so that it undoes a step, and a step
/// undoes it, but for a step to the first waypoint that found `u64::MAX` laps and kept them (M8). Tests 1-8, 11, 15 (A12).
///
/// ```
/// use station::{COURSE_A, Refusal, Runner};
///
/// // from the second leg's start to the first leg's last tick, and on to the first tick
/// let mut runner = Runner { leg: 1, offset: 0, laps: 0 };
/// station::back(&COURSE_A, &mut runner)?;
/// assert_eq!(runner, Runner { leg: 0, offset: 1, laps: 0 });
/// station::back(&COURSE_A, &mut runner)?;
/// assert_eq!(station::back(&COURSE_A, &mut runner), Err(Refusal::Start));
/// assert_eq!(runner, Runner::default());
/// # Ok::<(), station::Refusal>(())
/// ```
#[inline]
pub fn back(sheet: &[u8], runner: &mut Runner) -> Result<(), Refusal> {
    raw::back(sheet, runner)
}
