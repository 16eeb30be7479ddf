//! Lists to write sheets from: those of a draft, and changed ones that hold what no sheet can.

use crate::model::{Kind, Lists};
use crate::random::Random;
use crate::sheets::{limits_to_try, place_in, Draft};

/// A draft's fields as lists.
pub fn of_draft(draft: &Draft) -> Lists {
    Lists {
        kind: draft.kind.into(),
        legs: draft.legs.iter().map(|leg| u64::from(*leg)).collect(),
        waypoints: draft.points.iter().flatten().map(|number| i64::from(*number)).collect(),
        slopes: draft.slopes.iter().map(|slope| i64::from(*slope)).collect(),
    }
}

/// One to three changes: a number at its limit, beyond it or beyond its field, another kind, other counts.
pub fn changed(random: &mut Random, lists: &Lists) -> Lists {
    let mut lists = lists.clone();
    for _ in 0..random.pick(&[1, 1, 1, 2, 3]) {
        match random.below(16) {
            0..=3 => change(random, &mut lists.legs, |random, _| leg(random)),
            4..=7 => change(random, &mut lists.waypoints, waypoint),
            8..=10 => {
                if lists.slopes.is_empty() {
                    lists.kind = Kind::Held as u64;
                    fit(random, &mut lists);
                }
                change(random, &mut lists.slopes, |random, _| around(random, [-5_000, 5_000]));
            }
            11 => {
                lists.kind = random.pick(&[0, 1, 2, 3, 4, 255, 256, 257, 258, 1 << 16, 1 << 32, 1 << 63, u64::MAX]);
                if random.once_in(2) {
                    fit(random, &mut lists);
                }
            }
            12 => resize(random, &mut lists.legs, 1),
            13 => resize(random, &mut lists.waypoints, 0),
            14 => resize(random, &mut lists.slopes, 0),
            _ => {
                // 65,538 waypoints are one and a half megabytes: seldom
                let n = if random.once_in(200) { 65_538 } else { random.pick(&[1, 2, 3, 511, 512, 513]) };
                lists.waypoints.resize(3 * n, 0);
                fit(random, &mut lists);
            }
        }
    }
    lists
}

/// Changes an element, the first, the last, or any, to one that is made for its place in the list.
fn change<T>(random: &mut Random, list: &mut [T], make: impl FnOnce(&mut Random, usize) -> T) {
    if !list.is_empty() {
        let i = place_in(random, list.len());
        list[i] = make(random, i);
    }
}

/// A leg around a limit, or a good one with a bit that two bytes, four, or a sign would lose.
fn leg(random: &mut Random) -> u64 {
    let lost = random.pick(&[1 << 16, 1 << 32, 1 << 63]) + random.between(1, 256) as u64;
    random.pick(&[0, 1, 256, 257, 65_535, lost, lost, u64::MAX])
}

/// A waypoint number for a place in its list, by the limits of its axis.
fn waypoint(random: &mut Random, i: usize) -> i64 {
    let limits = limits_to_try(random, i % 3);
    around(random, limits.map(i64::from))
}

/// A number around two limits, or one within them but for a bit that four bytes would lose, or one of the largest.
fn around(random: &mut Random, [least, most]: [i64; 2]) -> i64 {
    let off = random.between(-1, 1);
    let (low, high) = (least + off, most + off);
    let lost = random.between(least, most) ^ random.pick(&[1 << 32, 1 << 33, i64::MIN]);
    let any = random.word() as i64;
    random.pick(&[low, high, low, high, lost, lost, any, i64::MIN, i64::MAX, i32::MIN.into(), i32::MAX.into()])
}

/// An element or two more or fewer, none, or six.
fn resize<T: Copy>(random: &mut Random, list: &mut Vec<T>, filler: T) {
    let length = list.len();
    list.resize(random.pick(&[length + 1, length + 2, length.saturating_sub(1), length.saturating_sub(2), 0, 6]), filler);
}

/// Fits legs and slopes to the kind (one above 2: to free ends) and to the waypoint numbers.
fn fit(random: &mut Random, lists: &mut Lists) {
    let kind = Kind::ALL.into_iter().find(|kind| *kind as u64 == lists.kind).unwrap_or(Kind::Free);
    let n = (lists.waypoints.len() / 3).max(1);
    lists.legs.resize_with(kind.leg_count(n), || random.between(1, 256) as u64);
    lists.slopes.resize(kind.slope_count(), 0);
}
