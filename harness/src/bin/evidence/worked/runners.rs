//! The figures of group W for runners, their laps and fleets: W8, W13, W17, W18, W20.

use super::{course_a, expect, laid_out, square};
use crate::compare::Comparison;
use harness::boundary::{Call, Lent};
use harness::model::Runner;
use harness::sheets::{Draft, CLOSED, FREE};

/// 2^64 - 1, and the laps that W7's square takes to it.
const MOST: u64 = 18_446_744_073_709_551_615;
const LATEST: u64 = 2_305_843_009_213_693_951;

pub fn run(comparison: &mut Comparison) {
    going_back(comparison);
    around_sixteen_legs(comparison);
    rounds_of_two(comparison);
    rounds_refused(comparison);
    laps_flown(comparison);
    laps_on_an_open_course(comparison);
}

/// An answer and the runner that it leaves.
fn told(answer: u64, runner: Runner) -> String {
    format!("{answer} {runner:?}")
}

/// The same of what the model left.
fn left(answer: u64, after: &Lent) -> String {
    told(answer, [after.words[0], after.words[1], after.words[2]])
}

/// A step or a back from a runner, its answer, and the runner then.
fn moved(comparison: &mut Comparison, call: &Call, sheet: &[u8], from: Runner, answer: u64, onto: Runner) {
    let before = Lent { words: from.to_vec(), ..Lent::default() };
    expect(comparison, call, sheet, &before, told(answer, onto), left);
}

/// The runner from a tick; 77 where none comes.
fn from_tick(comparison: &mut Comparison, sheet: &[u8], tick: u64, answer: u64, runner: Runner) {
    let before = Lent { words: vec![77; 3], ..Lent::default() };
    expect(comparison, &Call::RunnerAtTick { tick }, sheet, &before, told(answer, runner), left);
}

/// W13: back on course A, and on W7's square.
fn going_back(comparison: &mut Comparison) {
    let (a, square) = (course_a().bytes(), square().bytes());
    let mut back = |sheet: &[u8], from, answer, onto| moved(comparison, &Call::Back, sheet, from, answer, onto);
    back(&a, [1, 0, 0], 0, [0, 1, 0]);
    back(&a, [1, 2, 0], 0, [1, 1, 0]);
    back(&a, [0, 0, 0], 15, [0, 0, 0]);
    back(&a, [0, 2, 0], 11, [0, 2, 0]);
    back(&square, [0, 0, 1], 0, [3, 1, 0]);
    back(&square, [4, 0, 0], 11, [4, 0, 0]);
    back(&[], [0, 0, 0], 1, [0, 0, 0]);
}

/// W17: runners around the sum of the first sixteen legs, on legs 1 to 18 and on the same closed by a leg of 19.
fn around_sixteen_legs(comparison: &mut Comparison) {
    let course = |kind, last: u16| Draft::of(kind, &(1..=last).collect::<Vec<u16>>(), &[0; 19], None).bytes();
    let (open, closed) = (course(FREE, 18), course(CLOSED, 19));
    from_tick(comparison, &open, 135, 0, [15, 15, 0]);
    from_tick(comparison, &open, 136, 0, [16, 0, 0]);
    from_tick(comparison, &open, 152, 0, [16, 16, 0]);
    from_tick(comparison, &open, 153, 0, [17, 0, 0]);
    from_tick(comparison, &open, 171, 0, [17, 18, 0]);
    from_tick(comparison, &open, 172, 10, [77, 77, 77]);
    from_tick(comparison, &closed, 190, 0, [0, 0, 1]);
    from_tick(comparison, &closed, 326, 0, [16, 0, 1]);
}

/// One round; its answer, place (-1 where none comes), next turn (77 where none comes) and the fleet that it leaves.
fn served(comparison: &mut Comparison, (sheet, list): (&[u8], &[i64]), fleet: &[u64], turn: u64, wanted: &str) -> Vec<u64> {
    let before = Lent { list: list.to_vec(), words: fleet.to_vec(), place: vec![-1; 3], next: vec![77], ..Lent::default() };
    let left = |answer, after: &Lent| format!("{answer} {:?} {:?} {:?}", after.place, after.next, after.words);
    expect(comparison, &Call::Round { turn }, sheet, &before, wanted.to_string(), left).words
}

/// W18: two seats on course A; W18, W20: a seat on W7's square that goes round.
fn rounds_of_two(comparison: &mut Comparison) {
    let (a, list) = laid_out(comparison, &course_a());
    let fleet = served(comparison, (&a, &list), &[0, 0, 0, 1, 1, 0], 0, "0 [6, 10, 21] [1] [0, 1, 0, 1, 1, 0]");
    let fleet = served(comparison, (&a, &list), &fleet, 1, "0 [0, 10, 24] [0] [0, 1, 0, 1, 2, 0]");
    let fleet = served(comparison, (&a, &list), &fleet, 1, "13 [-1, -1, -1] [0] [0, 1, 0, 1, 2, 0]");
    served(comparison, (&a, &list), &fleet, 0, "0 [8, 10, 22] [1] [1, 0, 0, 1, 2, 0]");
    let (square, list) = laid_out(comparison, &square());
    for (from, onto) in [(0, 1), (1, 2), (MOST - 1, MOST), (MOST, MOST)] {
        served(comparison, (&square, &list), &[3, 1, from], 0, &format!("0 [0, 0, 0] [0] [0, 0, {onto}]"));
        served(comparison, (&square, &list), &[3, 0, from], 0, &format!("0 [-4, -4, -4] [0] [3, 1, {from}]"));
    }
}

/// W18: what course A's rounds are refused by, in A14's order; 12 is asked of the leg stepped onto, not of the one just left.
fn rounds_refused(comparison: &mut Comparison) {
    let (a, list) = laid_out(comparison, &course_a());
    let bad = |waypoint: usize| (0..9).map(|i| if i == waypoint { (1 << 37) + 1 } else { list[i] }).collect::<Vec<i64>>();
    let (first, last) = (bad(0), bad(2));
    let on = |list| (&a[..], list);
    // one or two numbers behind the last seat stay, and count for none
    served(comparison, on(&list[..]), &[0, 0, 0, 1, 1, 0, 5], 1, "0 [0, 10, 24] [0] [0, 0, 0, 1, 2, 0, 5]");
    served(comparison, on(&list), &[0, 0, 0, 1, 1, 0, 5, 6], 1, "0 [0, 10, 24] [0] [0, 0, 0, 1, 2, 0, 5, 6]");
    served(comparison, on(&list), &[0, 2, 0, 1, 1, 0], 0, "11 [-1, -1, -1] [1] [0, 2, 0, 1, 1, 0]");
    served(comparison, on(&first), &[0, 1, 0], 0, "0 [8, 10, 22] [0] [1, 0, 0]");
    served(comparison, on(&first), &[0, 0, 0], 0, "12 [-1, -1, -1] [0] [0, 0, 0]");
    served(comparison, on(&last), &[0, 0, 0], 0, "0 [6, 10, 21] [0] [0, 1, 0]");
    served(comparison, on(&last), &[0, 1, 0], 0, "12 [-1, -1, -1] [0] [0, 1, 0]");
    served(comparison, on(&last), &[1, 2, 0], 0, "13 [-1, -1, -1] [0] [1, 2, 0]");
    served(comparison, on(&list), &[0, 0, 0, 1, 1, 0], 2, "20 [-1, -1, -1] [77] [0, 0, 0, 1, 1, 0]");
    served(comparison, on(&list), &[0], 0, "19 [-1, -1, -1] [77] [0]");
    served(comparison, on(&list), &[0, 0], 0, "19 [-1, -1, -1] [77] [0, 0]");
    served(comparison, on(&list[..8]), &[], 0, "9 [-1, -1, -1] [77] []");
    served(comparison, (&a[1..], &list[..8]), &[0, 0, 0], 1, "1 [-1, -1, -1] [77] [0, 0, 0]");
    let fleet = [1, 1, 0].repeat(33);
    served(comparison, on(&list), &fleet, 33, &format!("19 [-1, -1, -1] [77] {fleet:?}"));
    let moved = [&fleet[..94], &[2, 0]].concat();
    served(comparison, on(&list), &fleet[..96], 31, &format!("0 [0, 10, 24] [0] {moved:?}"));
}

/// W20, and W8's tick: laps of ticks, steps and backs on W7's square.
fn laps_flown(comparison: &mut Comparison) {
    let square = square().bytes();
    from_tick(comparison, &square, 7, 0, [3, 1, 0]);
    from_tick(comparison, &square, 8, 0, [0, 0, 1]);
    from_tick(comparison, &square, 15, 0, [3, 1, 1]);
    from_tick(comparison, &square, 16, 0, [0, 0, 2]);
    from_tick(comparison, &square, MOST, 0, [3, 1, LATEST]);
    moved(comparison, &Call::Step, &square, [3, 1, 0], 0, [0, 0, 1]);
    moved(comparison, &Call::Step, &square, [0, 0, 1], 0, [0, 1, 1]);
    moved(comparison, &Call::Step, &square, [3, 1, MOST - 1], 0, [0, 0, MOST]);
    moved(comparison, &Call::Step, &square, [3, 1, MOST], 0, [0, 0, MOST]);
    moved(comparison, &Call::Step, &square, [0, 0, MOST], 0, [0, 1, MOST]);
    moved(comparison, &Call::Step, &square, [2, 1, 5], 0, [3, 0, 5]);
    moved(comparison, &Call::Back, &square, [0, 0, MOST], 0, [3, 1, MOST - 1]);
    moved(comparison, &Call::Back, &square, [0, 0, 0], 15, [0, 0, 0]);
    moved(comparison, &Call::Back, &square, [3, 0, 5], 0, [2, 1, 5]);
    moved(comparison, &Call::Back, &square, [0, 1, 0], 0, [0, 0, 0]);
}

/// W20: a lap on course A is adrift in the four calls that test 11; its runners from ticks have none.
fn laps_on_an_open_course(comparison: &mut Comparison) {
    let (a, list) = laid_out(comparison, &course_a());
    let runner = [0, 0, 1];
    moved(comparison, &Call::Step, &a, runner, 11, runner);
    moved(comparison, &Call::Back, &a, runner, 11, runner);
    // 11 before 13: at its end, with a lap
    moved(comparison, &Call::Step, &a, [1, 2, 1], 11, [1, 2, 1]);
    let before = Lent { list: list.clone(), place: vec![-1; 3], ..Lent::default() };
    expect(comparison, &Call::PlaceOfRunner { runner }, &a, &before, "11 [-1, -1, -1]".to_string(), super::place);
    served(comparison, (&a, &list), &runner, 0, "11 [-1, -1, -1] [0] [0, 0, 1]");
    from_tick(comparison, &a, 4, 0, [1, 2, 0]);
}
