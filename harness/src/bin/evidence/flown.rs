//! Ticks flown, counted here (M11): laps times P, and the tick at which the runner stands. A step adds one, a back takes one off, and a
//! step that would bring a lap more than 64 bits hold takes a lap's ticks off again, since the lap is not counted (M10).

use crate::wrapper::{self, Refusal};
use harness::model::{Course, Runner, LANDED, START};

/// The ticks that a runner of a course has flown.
#[derive(Clone, Copy, PartialEq, Eq, Debug)]
pub struct Flown {
    closed: bool,
    /// P.
    ticks: u128,
    count: u128,
}

impl Flown {
    /// So many laps, and on to a tick below P; an open course's runner has no laps and may stand at P.
    pub fn new(course: &Course, tick: u64, laps: u64) -> Flown {
        let ticks = course.ticks() as u128;
        Flown { closed: course.closed(), ticks, count: u128::from(laps) * ticks + u128::from(tick) }
    }

    /// One tick on, or the number by which that is refused. The lap behind the last one of 64 bits is not counted.
    pub fn on(&mut self) -> u64 {
        if !self.closed && self.count == self.ticks {
            return LANDED;
        }
        self.count += 1;
        if self.closed && self.count == self.ticks << 64 {
            self.count -= self.ticks;
        }
        0
    }

    /// One tick back, or the number by which that is refused.
    pub fn back(&mut self) -> u64 {
        if self.count == 0 {
            return START;
        }
        self.count -= 1;
        0
    }

    /// Laps flown.
    pub fn laps(&self) -> u64 {
        if self.closed {
            (self.count / self.ticks) as u64
        } else {
            0
        }
    }

    /// Whether a closed course's runner stands at the first waypoint.
    pub fn at_first(&self) -> bool {
        self.closed && self.count % self.ticks == 0
    }

    /// The runner that has flown so many ticks: its leg and offset as the library names them on the first lap, its laps as counted here.
    pub fn runner(&self, sheet: &[u8]) -> Result<Runner, Refusal> {
        let tick = if self.closed { self.count % self.ticks } else { self.count };
        let [leg, offset, _] = wrapper::runner_at_tick(sheet, tick as u64)?;
        Ok([leg, offset, self.laps()])
    }
}
