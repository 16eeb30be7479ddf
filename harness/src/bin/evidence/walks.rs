//! Steps and backs in random order on sheets of the three kinds, held to the ticks flown, which are counted here (M11): a step adds one, a
//! back takes one off (M7). At an open course's end, and at the first waypoint with no lap flown, the call is refused and the count stays.

use crate::compare::{hex, Comparison};
use crate::flown::Flown;
use crate::parts::Part;
use crate::Options;
use harness::boundary::{Call, Memory, LIBRARY};
use harness::model::{Course, Runner, LANDED, START};
use harness::random::Random;
use harness::sheets;

/// Calls that were made; those of them that were refused at the end, and at the start of an open and of a closed course; how often the
/// first waypoint of a closed course was passed, and how often that kept the most laps.
#[derive(Default)]
struct Made {
    steps: u64,
    backs: u64,
    landed: u64,
    start: u64,
    closed_start: u64,
    round: u64,
    kept: u64,
}

/// A runner on its sheet, and the ticks that it is counted to have flown.
struct Walk<'a> {
    sheet: &'a [u8],
    closed: bool,
    ticks: u64,
    runner: Runner,
    flown: Flown,
}

pub fn run(options: &Options, comparison: &mut Comparison) {
    comparison.part = Part::Walks;
    let sheets = (options.cases / 1_000).max(90);
    let moves = (options.steps / 4 / sheets).max(100);
    let mut made = Made::default();
    for case in 0..sheets {
        comparison.case = case;
        let mut random = Random::of_case(options.seed ^ 4, case);
        let sheet = sheets::accepted(&mut random).bytes();
        let Some(course) = comparison.course(&sheet) else { continue };
        let mut walk = Walk::new(&mut random, comparison, &sheet, &course);
        walk.wander(&mut random, comparison, &mut made, moves);
        walk.there_and_back(&mut random, comparison, &mut made, moves / 10);
    }
    let Made { steps, backs, landed, start, closed_start, round, kept } = made;
    let reached = [landed, start, closed_start, round, kept];
    comparison.require(!reached.contains(&0), || format!("ends, starts, first waypoints and most laps met: {reached:?}"));
    println!(
        "walks: {sheets} sheets, {steps} steps and {backs} backs in random order compared with the ticks flown, {landed} refused at the \
         end, {start} at the start of open courses and {closed_start} of closed ones, {round} over the first waypoint of a closed course, \
         {kept} of which kept 2^64 - 1 laps"
    );
}

impl Walk<'_> {
    /// Begins at the first tick, at the last, or anywhere; on a closed course with no lap, with the most, or with any number of them.
    fn new<'a>(random: &mut Random, comparison: &mut Comparison, sheet: &'a [u8], course: &Course) -> Walk<'a> {
        let (closed, ticks) = (course.closed(), course.ticks() as u64);
        let last = if closed { ticks - 1 } else { ticks };
        let (any, laps) = (random.below(last as usize + 1) as u64, random.word());
        let (tick, laps) = random.pick(&[(0, 0), (last, u64::MAX), (any, laps)]);
        let flown = Flown::new(course, tick, if closed { laps } else { 0 });
        let start = flown.runner(sheet);
        comparison.require(start.is_ok(), || format!("no runner for {flown:?}: {start:?}"));
        Walk { sheet, closed, ticks, runner: start.unwrap_or_default(), flown }
    }

    /// One step or back: the answer is the one that is due, and the runner the one that has flown so far; a refused call keeps it. Says
    /// whether it was to move.
    fn go(&mut self, comparison: &mut Comparison, made: &mut Made, on: bool) -> bool {
        let (sheet, from, before) = (self.sheet, self.flown, self.runner);
        let due = if on { self.flown.on() } else { self.flown.back() };
        let call = if on { Call::Step } else { Call::Back };
        let answer = call.by(&LIBRARY, Memory { sheet, words: &mut self.runner, ..Memory::default() });
        let (flown, runner) = (self.flown, self.runner);
        let wanted = flown.runner(sheet);
        comparison.require(answer == due && wanted == Ok(runner) && (due == 0 || runner == before), || {
            let sheet = hex(sheet);
            format!("{call:?} from {before:?}, {from:?}: {answer} {runner:?}, due {due} and {flown:?} {wanted:?}\n  sheet {sheet}")
        });
        *(if on { &mut made.steps } else { &mut made.backs }) += 1;
        made.landed += u64::from(answer == LANDED);
        *(if self.closed { &mut made.closed_start } else { &mut made.start }) += u64::from(answer == START);
        made.round += u64::from(answer == 0 && if on { flown.at_first() } else { from.at_first() });
        made.kept += u64::from(kept(on, from, flown));
        due == 0
    }

    /// Runs of steps or of backs, short ones and ones over the whole course; a run goes on for a while at an end.
    fn wander(&mut self, random: &mut Random, comparison: &mut Comparison, made: &mut Made, moves: u64) {
        let mut left = moves;
        while left > 0 {
            let on = random.once_in(2);
            let run = left.min(1 + random.any_size() % (self.ticks + 1));
            for _ in 0..run {
                left -= 1;
                if !self.go(comparison, made, on) && random.once_in(3) {
                    break;
                }
            }
        }
    }

    /// Steps as far as they move, at most so many, and as many backs: the runner stands where it stood (M9), with a lap less for each that
    /// a step did not count (M8); then the other way round, where it has all its laps again.
    fn there_and_back(&mut self, random: &mut Random, comparison: &mut Comparison, made: &mut Made, most: u64) {
        for on in [true, false] {
            let (before, kept) = (self.runner, made.kept);
            let asked = 1 + random.any_size() % most;
            let moved = (0..asked).take_while(|_| self.go(comparison, made, on)).count();
            let uncounted = made.kept - kept;
            (0..moved).for_each(|_| _ = self.go(comparison, made, !on));
            let (after, [leg, offset, laps]) = (self.runner, before);
            let wanted = [leg, offset, laps.wrapping_sub(uncounted)];
            comparison.require(after == wanted, || format!("{moved} moves from {before:?}, and back: {after:?}, not {wanted:?}"));
        }
    }
}

/// Whether a move was a step to the first waypoint that found the most laps.
fn kept(on: bool, from: Flown, flown: Flown) -> bool {
    on && flown.at_first() && from.laps() == u64::MAX
}
