//! Pairs of sheets to join: ones that can be joined, and ones that are refused, for one reason or for several.

use crate::random::Random;
use crate::sheets::{self, Draft, CLOSED, FREE, HELD};

/// A free course cut in two at one of its waypoints, which both then have; of a closed one the closing leg is left out.
pub fn cut(draft: &Draft, at: usize) -> [Draft; 2] {
    let (n, legs, points) = (draft.points.len(), &draft.legs, &draft.points);
    let part = |legs: &[u16], points: &[[i32; 3]]| Draft {
        version: 1,
        kind: FREE,
        n: points.len() as u16,
        legs: legs.to_vec(),
        points: points.to_vec(),
        slopes: vec![],
    };
    [part(&legs[..at], &points[..=at]), part(&legs[at..n - 1], &points[at..])]
}

/// Two free courses with so many waypoints, the second of which starts where the first ends.
fn meeting(random: &mut Random, [first, second]: [usize; 2]) -> [Draft; 2] {
    let (first, mut second) = (sheets::of_size(random, FREE, first), sheets::of_size(random, FREE, second));
    second.points[0] = first.points[first.points.len() - 1];
    [first, second]
}

/// Two that can be joined: the parts of one course, or two that meet.
pub fn joinable(random: &mut Random) -> [Draft; 2] {
    let n = sheets::waypoints(random, FREE).max(3);
    let at = random.between(1, n as i64 - 2) as usize;
    if random.once_in(2) {
        let whole = sheets::of_size(random, FREE, n);
        cut(&whole, at)
    } else {
        meeting(random, [at + 1, n - at])
    }
}

/// Two that meet and have, joined, 512 waypoints or about as many.
fn crowded(random: &mut Random) -> [Draft; 2] {
    let n: i64 = random.pick(&[511, 512, 512, 513, 513, 514]);
    let first = random.between((n - 511).max(2), (n - 1).min(512));
    meeting(random, [first as usize, (n + 1 - first) as usize])
}

/// A course that ends where it starts, twice.
fn round(random: &mut Random) -> [Draft; 2] {
    let n = sheets::waypoints(random, FREE);
    let mut draft = sheets::of_size(random, FREE, n);
    draft.points[n - 1] = draft.points[0];
    [draft.clone(), draft]
}

/// Moves one number of the shared waypoint, in one of the two, by one or by a higher byte's one, within its limits.
fn move_apart(random: &mut Random, [first, second]: &mut [Draft; 2]) {
    let (axis, off) = (random.below(3), random.pick(&[1, 1, 256, 65_536]));
    let point = if random.once_in(2) { first.points.last_mut() } else { second.points.first_mut() };
    if let Some(point) = point {
        point[axis] += if point[axis] + off <= sheets::limits(axis)[1] { off } else { -off };
    }
}

/// Holds or closes the ends of one of the two, or of both.
fn shut(random: &mut Random, pair: &mut [Draft; 2]) {
    let chosen = random.pick(&[[true, false], [false, true], [true, true]]);
    for (draft, _) in pair.iter_mut().zip(chosen).filter(|(_, chosen)| *chosen) {
        draft.kind = if draft.n > 2 { random.pick(&[HELD, CLOSED]) } else { HELD };
        draft.fit(random);
    }
}

/// Any two sheets: ones that can be joined, or crowded ones, or one twice; then moved apart, shut, refused, or several of these.
pub fn any(random: &mut Random) -> [Vec<u8>; 2] {
    let mut pair = match random.below(40) {
        0 => crowded(random),
        1 | 2 => round(random),
        _ => joinable(random),
    };
    if random.once_in(4) {
        move_apart(random, &mut pair);
    }
    if random.once_in(4) {
        shut(random, &mut pair);
    }
    pair.map(|draft| match random.below(8) {
        0 => sheets::at_edges(random),
        1 => sheets::damaged(random),
        _ => draft.bytes(),
    })
}
