//! Strokes of an accepted sheet, in the comparison of all calls: tolerances at their limits, beyond them, and where a leg is just straight
//! enough; bend numbers of any kind; lists for the ends that are about as long as the answer, or as the longest one.

use crate::compare::Comparison;
use crate::sheets::{bend_list, lent, room, try_call};
use harness::boundary::{Call, Lent};
use harness::model::{self, Course, MOST_TOLERANCE};
use harness::random::Random;

/// One call, on long courses seldom: the model takes its time for each tick. (The part `strokes` has long ones.)
pub fn run(random: &mut Random, comparison: &mut Comparison, sheet: &[u8], course: &Course, own: &[i64]) {
    let most = course.ticks() as usize + 1;
    if !random.once_in(1 + most / 24) {
        return;
    }
    let list = bend_list(random, own, 3 * course.n);
    let tolerance = tolerance(random, course, &list);
    let length = match random.below(8) {
        0 => random.pick(&[0, 1, most - 1]),
        1 => random.below(most),
        2 | 3 => most + random.pick(&[0, 0, 1, 5]),
        _ => {
            let answer = model::strokes(sheet, &list, tolerance, &mut vec![0; most]).unwrap_or(2);
            random.pick(&[answer - 1, answer, answer, answer + 1])
        }
    };
    let words = room(random, 1);
    let before = Lent { list, ends: (0..length).map(|_| random.word()).collect(), ..lent(random, 0, words, 0) };
    try_call(random, comparison, Call::Strokes { tolerance }, sheet, &before);
}

/// A tolerance: small, any, at a limit or beyond it, or as far as the middle of a leg is off, and one beside that.
fn tolerance(random: &mut Random, course: &Course, list: &[i64]) -> i64 {
    let any = random.word() as i64;
    match random.below(8) {
        0 => random.pick(&[-1, MOST_TOLERANCE + 1, -1, MOST_TOLERANCE + 1, i64::MIN, i64::MAX, any]),
        1 => random.pick(&[0, 1, 20, 100, MOST_TOLERANCE - 1, MOST_TOLERANCE]),
        2 => random.between(0, MOST_TOLERANCE),
        3 | 4 => random.between(0, 20),
        _ => {
            let leg = random.below(course.legs.len());
            let off = if list.len() < 3 * course.n { None } else { middle_off(course, list, leg) };
            (off.unwrap_or(0) + random.pick(&[-1, 0, 0, 1])).clamp(0, MOST_TOLERANCE)
        }
    }
}

/// How far the place at half a leg's ticks is off the line between the leg's ends, on the axis where it is most; none where a bend number
/// is bad.
fn middle_off(course: &Course, list: &[i64], leg: usize) -> Option<i64> {
    let (h, half) = (course.legs[leg] as i64, course.legs[leg] as i64 / 2);
    let [first, middle, last] = [0, half, h].map(|u| course.place(list, leg, u.into()).ok());
    let (first, middle, last) = (first?, middle?, last?);
    (0..3).map(|axis| (middle[axis] - first[axis] - half * (last[axis] - first[axis]) / h).abs()).max()
}
