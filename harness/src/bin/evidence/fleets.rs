//! Rounds of any fleets on an accepted sheet: seats that move on, have landed or are adrift, none or too many of them, turns beyond the
//! last, bad bend numbers around the seat's leg, lent slices that are too short.

use crate::compare::Comparison;
use crate::sheets::{bend_list, lent, room, runner, try_call};
use harness::boundary::{Call, Lent};
use harness::model::{Course, MOST_SEATS};
use harness::random::Random;

/// One round.
pub fn run(random: &mut Random, comparison: &mut Comparison, sheet: &[u8], course: &Course, own: &[i64]) {
    let k = seats(random);
    let turn = turn(random, k as u64);
    let mut words: Vec<u64> = (0..k).flat_map(|_| runner(random, course)).collect();
    // the seat's leg; for a turn that is no seat's, any leg will do
    let leg = *usize::try_from(turn).ok().and_then(|seat| words.chunks(3).nth(seat)).map_or(&0, |seat| &seat[0]);
    // one or two numbers left over, which belong to no seat (Q1)
    if random.once_in(4) {
        words.extend([random.word(), random.word()].iter().take(1 + random.below(2)));
    }
    let list = bends(random, course, own, leg);
    let (place, next) = (room(random, 3), room(random, 1));
    let before = Lent { list, words, next: vec![random.word(); next], ..lent(random, 0, 0, place) };
    try_call(random, comparison, Call::Round { turn }, sheet, &before);
}

/// The number of seats: mostly few, also the most, now and then none or too many.
fn seats(random: &mut Random) -> usize {
    match random.below(16) {
        0 => random.pick(&[0, MOST_SEATS + 1, MOST_SEATS + 1, MOST_SEATS + 2, 40]),
        1 => MOST_SEATS,
        2 | 3 => random.between(1, MOST_SEATS as i64) as usize,
        _ => random.between(1, 4) as usize,
    }
}

/// A turn: mostly a seat's, also the last one's; now and then k or more.
fn turn(random: &mut Random, k: u64) -> u64 {
    match random.below(16) {
        0 => k + random.below(2) as u64,
        1 => random.pick(&[1 << 31, 1 << 32, 1 << 63, u64::MAX]).wrapping_add(random.below(3) as u64),
        2 | 3 => k.saturating_sub(1),
        _ => random.below(k.max(1) as usize) as u64,
    }
}

/// Bend numbers as for a place; or the own ones but for one bad number at an end of the seat's leg or of the next one.
fn bends(random: &mut Random, course: &Course, own: &[i64], leg: u64) -> Vec<i64> {
    if random.below(3) > 0 || leg >= course.legs.len() as u64 {
        return bend_list(random, own, 3 * course.n);
    }
    let mut list = own.to_vec();
    let waypoint = (leg as usize + random.below(3)) % course.n;
    list[random.below(3) * course.n + waypoint] = random.pick(&[(1 << 37) + 1, -(1 << 37) - 1, i64::MIN, i64::MAX]);
    list
}
