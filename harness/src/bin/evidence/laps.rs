//! Laps flown (M10): closed courses flown from no laps, and past the most that 64 bits hold, over several rounds and back, each record held
//! to the model, to the ticks flown that are counted here (M11), to the call that undoes it (M8) and, from none, to the runner at the tick;
//! and any laps on courses of the three kinds in the four calls that test 11.

use crate::compare::{hex, Comparison};
use crate::flown::Flown;
use crate::parts::Part;
use crate::{wrapper, Options};
use harness::boundary::{Call, Lent, Memory, LIBRARY};
use harness::model::{Course, Runner, ADRIFT, START};
use harness::random::Random;
use harness::sheets::{self, CLOSED, FREE, HELD};

/// Rounds that are flown from no laps, and past the most.
const ROUNDS: u64 = 4;

/// Steps and backs that were made; backs that were refused for want of a lap; steps that kept the most laps, and so were not undone;
/// runners with laps that were asked for, on open and on closed courses.
#[derive(Default)]
struct Made {
    steps: u64,
    backs: u64,
    start: u64,
    kept: u64,
    open: u64,
    closed: u64,
}

/// A runner on a closed course, and the ticks that it is counted to have flown.
struct Flight<'a> {
    sheet: &'a [u8],
    course: &'a Course,
    runner: Runner,
    flown: Flown,
}

pub fn run(options: &Options, comparison: &mut Comparison) {
    comparison.part = Part::Laps;
    let sheets = (options.cases / 1_000).clamp(60, 1_000);
    let mut made = Made::default();
    for case in 0..sheets {
        comparison.case = case;
        let mut random = Random::of_case(options.seed ^ 7, case);
        let sheet = short(&mut random, case);
        let Some(course) = comparison.course(&sheet) else { continue };
        if course.closed() {
            from_none(comparison, &mut made, &sheet, &course);
            past_the_most(&mut random, comparison, &mut made, &sheet, &course);
        }
        any_laps(&mut random, comparison, &mut made, &sheet, &course);
    }
    let Made { steps, backs, start, kept, open, closed } = made;
    let reached = [steps, backs, start, kept, open, closed];
    comparison.require(!reached.contains(&0), || format!("laps that were not reached: {reached:?}"));
    println!(
        "laps: {sheets} sheets, {steps} steps and {backs} backs from no laps and past 2^64 - 1, {start} backs refused for want of a lap, \
         {kept} steps that kept the most laps; {open} runners with laps on open courses and {closed} on closed ones in the four calls that \
         test them"
    );
}

/// A sheet with short legs, so that a lap is soon flown: every second one closed, every sixteenth with the most waypoints.
fn short(random: &mut Random, case: u64) -> Vec<u8> {
    let kind = [CLOSED, FREE, CLOSED, HELD][case as usize % 4];
    let n = if case % 16 == 0 { 512 } else { random.between(3, 12) as usize };
    let mut draft = sheets::of_size(random, kind, n);
    let most = random.pick(&[1, 2, 5, 20]);
    draft.legs.iter_mut().for_each(|leg| *leg = random.between(1, if n > 12 { 2 } else { most }) as u16);
    draft.bytes()
}

/// The library's step, or its back.
fn moved(sheet: &[u8], on: bool, mut runner: Runner) -> (u64, Runner) {
    let call = if on { Call::Step } else { Call::Back };
    let answer = call.by(&LIBRARY, Memory { sheet, words: &mut runner, ..Memory::default() });
    (answer, runner)
}

/// Some rounds from the first waypoint with no lap flown, each runner the one at its tick (M4); and all the way back, where one more back
/// is refused, as it is before the first step (N15).
fn from_none(comparison: &mut Comparison, made: &mut Made, sheet: &[u8], course: &Course) {
    let mut flight = Flight { sheet, course, runner: [0; 3], flown: Flown::new(course, 0, 0) };
    let steps = ROUNDS * course.ticks() as u64 + 1;
    flight.go(comparison, made, false);
    for tick in 1..=steps {
        flight.go(comparison, made, true);
        flight.named(comparison, tick);
    }
    for tick in (0..steps).rev() {
        flight.go(comparison, made, false);
        flight.named(comparison, tick);
    }
    flight.go(comparison, made, false);
}

/// Some rounds from a lap or two below the most, as many that the last ones keep it; then back, with two rounds more, which all count.
fn past_the_most(random: &mut Random, comparison: &mut Comparison, made: &mut Made, sheet: &[u8], course: &Course) {
    let (ticks, less, kept) = (course.ticks() as u64, random.below(3) as u64, made.kept);
    let flown = Flown::new(course, random.below(ticks as usize) as u64, u64::MAX - less);
    let start = flown.runner(sheet);
    comparison.require(start.is_ok(), || format!("no runner for {flown:?}: {start:?}"));
    let from = start.unwrap_or_default();
    let mut flight = Flight { sheet, course, runner: from, flown };
    (0..ROUNDS * ticks).for_each(|_| flight.go(comparison, made, true));
    let (runner, kept) = (flight.runner, made.kept - kept);
    let wanted = [from[0], from[1], u64::MAX];
    comparison.require(kept == ROUNDS - less && runner == wanted, || format!("{ROUNDS} rounds from {from:?}: {runner:?}, {kept} kept"));
    (0..(ROUNDS + 2) * ticks).for_each(|_| flight.go(comparison, made, false));
    let (runner, wanted) = (flight.runner, [from[0], from[1], u64::MAX - ROUNDS - 2]);
    comparison.require(runner == wanted, || format!("and {} rounds back: {runner:?}, not {wanted:?}", ROUNDS + 2));
}

impl Flight<'_> {
    /// One step or back, held to the model and to the ticks flown; where it moved, the other call is tried on a copy.
    fn go(&mut self, comparison: &mut Comparison, made: &mut Made, on: bool) {
        let (before, from) = (self.runner, self.flown);
        let due = if on { self.flown.on() } else { self.flown.back() };
        let (answer, after) = moved(self.sheet, on, before);
        let model = if on { self.course.stepped(before) } else { self.course.backed(before) };
        let model = model.map_or_else(|number| (number, before), |runner| (0, runner));
        let (flown, wanted) = (self.flown, self.flown.runner(self.sheet));
        comparison.require((answer, after) == model && answer == due && wanted == Ok(after), || {
            let (what, sheet) = (if on { "a step" } else { "a back" }, hex(self.sheet));
            let counted = format!("due {due}, {flown:?} {wanted:?}");
            format!("{what} from {before:?}, {from:?}: {answer} {after:?}, model {model:?}, {counted}\n  sheet {sheet}")
        });
        self.runner = after;
        *(if on { &mut made.steps } else { &mut made.backs }) += 1;
        made.start += u64::from(answer == START);
        if answer == 0 {
            self.undone(comparison, made, on, before);
        }
    }

    /// M8: a back gives the runner as it was before the step, and a step the one before the back; but after a step to the first waypoint
    /// that kept the most laps, a back leaves one less.
    fn undone(&self, comparison: &mut Comparison, made: &mut Made, on: bool, before: Runner) {
        let (now, [leg, offset, laps]) = (self.runner, before);
        let kept = on && now == [0, 0, u64::MAX] && laps == u64::MAX;
        let wanted = (0, [leg, offset, laps - u64::from(kept)]);
        let got = moved(self.sheet, !on, now);
        comparison.require(got == wanted, || format!("{before:?}, moved to {now:?}, is undone to {got:?}, not {wanted:?}"));
        made.kept += u64::from(kept);
    }

    /// The runner is the one at a tick.
    fn named(&self, comparison: &mut Comparison, tick: u64) {
        let (runner, named) = (self.runner, wrapper::runner_at_tick(self.sheet, tick));
        comparison.require(named == Ok(runner), || format!("after {tick} steps {runner:?}, the tick names {named:?}"));
    }
}

/// The place of a runner, a step, a back, and a round of it alone, by all implementations; what the model answers and leaves.
fn asked(comparison: &mut Comparison, sheet: &[u8], list: &[i64], runner: Runner) -> [(u64, Lent); 4] {
    let before = Lent { list: list.to_vec(), words: runner.to_vec(), place: vec![i64::MAX; 3], next: vec![77], ..Lent::default() };
    [Call::PlaceOfRunner { runner }, Call::Step, Call::Back, Call::Round { turn: 0 }].map(|call| {
        comparison.compare_wrapper(&call, sheet, &before);
        comparison.compare_both(&call, sheet, &before)
    })
}

/// Runners at the first tick, at the last and between, with laps of every size: on an open course all of them are adrift, on a closed one
/// none is, and they go where the runner without laps goes.
fn any_laps(random: &mut Random, comparison: &mut Comparison, made: &mut Made, sheet: &[u8], course: &Course) {
    let mut list = vec![0; 3 * course.n];
    let laid_out = wrapper::lay_out(sheet, &mut list);
    comparison.require(laid_out.is_ok(), || format!("{laid_out:?}, not laid out: {}", hex(sheet)));
    let last = course.ticks() as u64 - u64::from(course.closed());
    for tick in [0, last, random.below(last as usize + 1) as u64] {
        let Some([leg, offset, _]) = course.runner(tick) else { continue };
        let plain = asked(comparison, sheet, &list, [leg, offset, 0]);
        comparison.require(plain.iter().all(|(answer, _)| *answer != ADRIFT), || format!("tick {tick} is adrift without laps: {plain:?}"));
        for laps in [1, 2, 1 << 32, 1 << 63, u64::MAX - 1, u64::MAX, random.any_size().max(1)] {
            let runner = [leg, offset, laps];
            let got = asked(comparison, sheet, &list, runner);
            if course.closed() {
                comparison.require(goes_as(&got, &plain), || format!("{runner:?}: {got:?}, without laps {plain:?}"));
                made.closed += 1;
            } else {
                comparison.require(stays(&got, runner), || format!("{runner:?} on an open course: {got:?}"));
                made.open += 1;
            }
        }
    }
}

/// Whether all four calls are refused with 11 and leave the runner, and no place.
fn stays(got: &[(u64, Lent); 4], runner: Runner) -> bool {
    got.iter().all(|(answer, after)| *answer == ADRIFT && after.words == runner && after.place == [i64::MAX; 3])
}

/// Whether the four calls of a closed course's runner are done, with the place, leg and offset of those of the runner without laps; save
/// the back, which that one may be refused.
fn goes_as(got: &[(u64, Lent); 4], plain: &[(u64, Lent); 4]) -> bool {
    got.iter().zip(plain).enumerate().all(|(call, ((answer, after), (plain_answer, plain)))| {
        let same = after.place == plain.place && after.words[..2] == plain.words[..2];
        *answer == 0 && (same || (call == 2 && *plain_answer == START))
    })
}
