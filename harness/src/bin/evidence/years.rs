//! Ten years of ticks: places and runners at far ticks, steps and backs against the runner at the tick, and one runner moved on through
//! all of them, and back through the last five weeks.

use crate::compare::Comparison;
use crate::parts::Part;
use crate::wrapper;
use crate::{Options, DEFAULT_STEPS};
use harness::boundary::{Call, Lent};
use harness::model::{LANDED, START};
use harness::random::Random;
use harness::sheets::{self, Draft, CLOSED, FREE, HELD};

/// Ten years in tenths of a second: 3,652.5 days.
const TEN_YEARS: u64 = 3_155_760_000;

pub fn run(options: &Options, comparison: &mut Comparison) {
    let mut random = Random::new(options.seed ^ 3);
    let mut triangle = Draft::of(CLOSED, &[7, 1, 256], &[0, 0, -30], None);
    triangle.points[1] = [1_000_000, -1_000_000, 120_000];
    let triangle = triangle.bytes();
    let large = sheets::of_size(&mut random, CLOSED, 512).bytes();

    comparison.part = Part::FarTicks;
    for sheet in [&triangle, &large] {
        far_ticks(options, comparison, &mut random, sheet);
    }
    for sheet in [&triangle, &large] {
        // 60 bytes of sheet to read at each step, or 7,000
        let count = (options.steps / if sheet.len() > 1_000 { 200 } else { 4 }).max(1);
        let half = count.min(TEN_YEARS) / 2;
        for from in [0, TEN_YEARS - half, (1 << 32) - half, u64::MAX - count] {
            there_and_back(comparison, sheet, from, count);
        }
    }
    comparison.part = Part::OpenEnds;
    for kind in [FREE, HELD] {
        let sheet = sheets::of_size(&mut random, kind, 40).bytes();
        to_the_end(comparison, &sheet);
        to_the_start(comparison, &sheet);
    }
    let parts = [Part::FarTicks, Part::Steps, Part::Backs, Part::OpenEnds];
    let [far, steps, backs, ends] = parts.map(|part| comparison.tally.compared(part));
    println!(
        "ten years: {far} comparisons at far ticks (to {TEN_YEARS} and to 2^64 - 1), {steps} steps and {backs} backs compared with the \
         runner at the tick, {ends} on open courses to the end and on, and to the start and on"
    );
    comparison.part = Part::OnFoot;
    on_foot(options, comparison, &triangle);
}

/// One runner, moved on tick by tick for ten years (fewer where fewer steps are asked for), then back for a hundredth of them: after each
/// step or back it stands where a count kept here says, and at both ends where the tick names.
fn on_foot(options: &Options, comparison: &mut Comparison, sheet: &[u8]) {
    let Some(course) = comparison.course(sheet) else { return };
    let legs: Vec<u64> = course.legs.iter().map(|leg| *leg as u64).collect();
    let count = (u128::from(TEN_YEARS) * u128::from(options.steps) / u128::from(DEFAULT_STEPS)).max(1) as u64;
    let (mut runner, mut counted) = ([0; 3], [0; 3]);
    for tick in 1..=count {
        counted[1] += 1;
        if counted[1] == legs[counted[0] as usize] {
            let over = counted[0] + 1 == legs.len() as u64;
            counted = if over { [0, 0, counted[2] + 1] } else { [counted[0] + 1, 0, counted[2]] };
        }
        let answer = wrapper::step(sheet, &mut runner);
        comparison
            .require(answer == Ok(()) && runner == counted, || format!("step {tick} on foot: {answer:?} {runner:?}, counted {counted:?}"));
    }
    let named = wrapper::runner_at_tick(sheet, count);
    comparison.require(named == Ok(runner), || format!("after {count} steps {runner:?}, the tick names {named:?}"));
    let backs = count.div_ceil(100);
    for tick in (count - backs..count).rev() {
        if counted[1] == 0 {
            if counted[0] == 0 {
                counted = [legs.len() as u64, 0, counted[2] - 1];
            }
            counted[0] -= 1;
            counted[1] = legs[counted[0] as usize];
        }
        counted[1] -= 1;
        let answer = wrapper::back(sheet, &mut runner);
        comparison.require(answer == Ok(()) && runner == counted, || format!("back to {tick}: {answer:?} {runner:?}, counted {counted:?}"));
    }
    let named = wrapper::runner_at_tick(sheet, count - backs);
    comparison.require(named == Ok(runner), || format!("after {backs} backs {runner:?}, the tick names {named:?}"));
    println!("on foot: one runner moved on {count} times and back {backs} times, each time compared with where it is counted to be");
}

/// Places and runners at ticks of ten years and beyond: as the model says, and as at the tick modulo P.
fn far_ticks(options: &Options, comparison: &mut Comparison, random: &mut Random, sheet: &[u8]) {
    let Some(course) = comparison.course(sheet) else { return };
    let ticks = course.ticks() as u64;
    let before = Lent { list: vec![0; 3 * course.n], words: vec![1; 3], place: vec![1; 3], ..Lent::default() };
    let (_, laid_out) = comparison.compare_both(&Call::LayOut, sheet, &before);
    for case in 0..(options.cases / 100).max(10) {
        comparison.case = case;
        let tick = match random.below(4) {
            0 => TEN_YEARS - random.below(1000) as u64,
            1 => random.any_size(),
            _ => random.below(TEN_YEARS as usize) as u64,
        };
        let place = comparison.compare_both(&Call::PlaceAtTick { tick }, sheet, &laid_out);
        let runner = comparison.compare_both(&Call::RunnerAtTick { tick }, sheet, &laid_out);
        let near = comparison.compare_both(&Call::PlaceAtTick { tick: tick % ticks }, sheet, &laid_out);
        let runner = [0, 1, 2].map(|number| runner.1.words[number]);
        let by_runner = comparison.compare_both(&Call::PlaceOfRunner { runner }, sheet, &laid_out);
        comparison.require(place.0 == 0 && place == near && place == by_runner, || {
            format!("tick {tick}: {place:?}, modulo P {near:?}, by runner {by_runner:?}")
        });
    }
}

/// Steps on a closed course from a tick on, then as many backs; each runner is the one of the next tick, or of the tick before, and the
/// last is the first again (M9).
fn there_and_back(comparison: &mut Comparison, sheet: &[u8], from: u64, count: u64) {
    comparison.part = Part::Steps;
    let start = wrapper::runner_at_tick(sheet, from);
    comparison.require(start.is_ok(), || format!("a closed course has no runner at tick {from}: {start:?}"));
    let mut runner = start.unwrap_or_default();
    for tick in from..from + count {
        let before = runner;
        let answer = wrapper::step(sheet, &mut runner);
        let wanted = wrapper::runner_at_tick(sheet, tick + 1);
        comparison.require(answer == Ok(()) && wanted == Ok(runner), || {
            format!("a step from {before:?} at tick {tick}: {answer:?} {runner:?}, the runner at the next tick is {wanted:?}")
        });
    }
    comparison.part = Part::Backs;
    for tick in (from..from + count).rev() {
        let before = runner;
        let answer = wrapper::back(sheet, &mut runner);
        let wanted = wrapper::runner_at_tick(sheet, tick);
        comparison.require(answer == Ok(()) && wanted == Ok(runner), || {
            format!("a back from {before:?} to tick {tick}: {answer:?} {runner:?}, the runner at that tick is {wanted:?}")
        });
    }
    comparison.require(start == Ok(runner), || format!("{count} steps from {start:?}, then {count} backs: {runner:?}"));
}

/// Steps on an open course to its last tick and on: each later step says landed and keeps the runner (M5).
fn to_the_end(comparison: &mut Comparison, sheet: &[u8]) {
    let Some(course) = comparison.course(sheet) else { return };
    let ticks = course.ticks() as u64;
    let mut runner = [0; 3];
    for count in 1..=ticks + 100 {
        let answer = wrapper::step(sheet, &mut runner).map_err(|refusal| refusal.number());
        let wanted = wrapper::runner_at_tick(sheet, count.min(ticks));
        let landed = if count > ticks { Err(LANDED) } else { Ok(()) };
        comparison.require(answer == landed && wanted == Ok(runner), || {
            format!("step {count} of {ticks}: {answer:?} {runner:?}, the runner at the tick is {wanted:?}")
        });
    }
}

/// Backs on an open course from its last tick to its first and on: each later back says start and keeps the runner (N15).
fn to_the_start(comparison: &mut Comparison, sheet: &[u8]) {
    let Some(course) = comparison.course(sheet) else { return };
    let ticks = course.ticks() as u64;
    let end = wrapper::runner_at_tick(sheet, ticks);
    comparison.require(end.is_ok(), || format!("no runner at the last tick, {ticks}: {end:?}"));
    let mut runner = end.unwrap_or_default();
    for count in 1..=ticks + 100 {
        let answer = wrapper::back(sheet, &mut runner).map_err(|refusal| refusal.number());
        let wanted = wrapper::runner_at_tick(sheet, ticks.saturating_sub(count));
        let at_start = if count > ticks { Err(START) } else { Ok(()) };
        comparison.require(answer == at_start && wanted == Ok(runner), || {
            format!("back {count} of {ticks}: {answer:?} {runner:?}, the runner at the tick is {wanted:?}")
        });
    }
}
