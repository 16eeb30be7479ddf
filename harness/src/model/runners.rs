//! The model's ticks, runners and laps (group M).

use super::{Course, Reader, ADRIFT, LANDED, PAST, START};

/// M1: leg, offset, laps flown.
pub type Runner = [u64; 3];

impl Course {
    /// P3, P4: the leg and offset that a tick names; none for a tick that the course has not. The leg is the last one that starts at the
    /// tick or before it, looked for from the course's end, where P stands: each leg starts its own length before the next.
    pub fn leg_and_offset(&self, tick: u64) -> Option<(usize, i128)> {
        let ticks = self.ticks();
        let tick = i128::from(tick);
        let tick = if self.closed() { tick % ticks } else { tick };
        if tick > ticks {
            return None;
        }
        let mut start = ticks;
        self.legs.iter().enumerate().rev().find_map(|(leg, h)| {
            start -= h;
            (start <= tick).then(|| (leg, tick - start))
        })
    }

    /// The runner from a tick: there, with the laps that it takes to have come so far (M10).
    pub fn runner(&self, tick: u64) -> Option<Runner> {
        let (leg, offset) = self.leg_and_offset(tick)?;
        let laps = if self.closed() { i128::from(tick) / self.ticks() } else { 0 };
        Some([leg as u64, offset as u64, laps as u64])
    }

    /// Whether N11 does not apply.
    pub fn fits(&self, [leg, offset, laps]: Runner) -> bool {
        if leg >= self.legs.len() as u64 || (laps != 0 && !self.closed()) {
            return false;
        }
        let h = self.legs[leg as usize] as u64;
        offset < h || (!self.closed() && leg as usize == self.legs.len() - 1 && offset == h)
    }

    /// A7, of a sheet that was read: N11, N13, then the runner one tick on.
    pub fn stepped(&self, runner: Runner) -> Result<Runner, u64> {
        if !self.fits(runner) {
            return Err(ADRIFT);
        }
        let [leg, offset, laps] = runner;
        let h = self.legs[leg as usize] as u64;
        let last = leg as usize == self.legs.len() - 1;
        // N13: an offset that fits and is the whole leg is the last tick
        if offset == h {
            return Err(LANDED);
        }
        // M3: inside the leg or onto an open course's end; else the next leg starts, behind a closed course's last one a lap (M10)
        if offset + 1 < h || (last && !self.closed()) {
            Ok([leg, offset + 1, laps])
        } else if last {
            Ok([0, 0, laps.saturating_add(1)])
        } else {
            Ok([leg + 1, 0, laps])
        }
    }

    /// M11: laps times P, and the tick at which the runner stands.
    pub fn flown(&self, [leg, offset, laps]: Runner) -> i128 {
        i128::from(laps) * self.ticks() + self.legs[..leg as usize].iter().sum::<i128>() + i128::from(offset)
    }

    /// A12, likewise: N11, N15, then the runner one tick back: the one that has flown a tick less (M11).
    pub fn backed(&self, runner: Runner) -> Result<Runner, u64> {
        if !self.fits(runner) {
            return Err(ADRIFT);
        }
        let flown = self.flown(runner);
        if flown == 0 {
            return Err(START);
        }
        let (tick, laps) = if self.closed() { ((flown - 1) % self.ticks(), (flown - 1) / self.ticks()) } else { (flown - 1, 0) };
        let (leg, offset) = self.leg_and_offset(tick as u64).expect("a tick of the course");
        Ok([leg as u64, offset as u64, laps as u64])
    }
}

impl Reader {
    /// A6.
    pub fn runner_at_tick(self, sheet: &[u8], tick: u64) -> Result<Runner, u64> {
        self.read(sheet)?.runner(tick).ok_or(PAST)
    }
}
