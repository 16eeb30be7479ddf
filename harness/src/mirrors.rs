//! Courses to mirror, and their images.

use crate::random::Random;
use crate::sheets::{self, Draft, CLOSED, FREE, HELD};

/// The image: on the chosen axes every number of a waypoint, and every slope, has the other sign (L7).
pub fn mirrored(draft: &Draft, axes: [bool; 3]) -> Draft {
    let mut image = draft.clone();
    for axis in (0..3).filter(|axis| axes[*axis]) {
        image.points.iter_mut().for_each(|point| point[axis] = -point[axis]);
        image.slopes.iter_mut().skip(axis).step_by(3).for_each(|slope| *slope = -*slope);
    }
    image
}

/// An accepted course and one to three axes on which its image is accepted too: no up to be mirrored is farther above the home post than
/// the floor is below it (N7).
pub fn mirrorable(random: &mut Random) -> (Draft, [bool; 3]) {
    let mut draft = if random.once_in(2) { halves(random) } else { sheets::accepted(random) };
    let chosen = random.between(1, 7);
    let axes = [1, 2, 4].map(|axis| chosen & axis != 0);
    if axes[2] {
        let [floor, _] = sheets::limits(2);
        draft.points.iter_mut().for_each(|point| point[2] = point[2].min(-floor));
    }
    (draft, axes)
}

/// An accepted course on which many quotients are halves: short legs, all alike or mixed, and small numbers.
fn halves(random: &mut Random) -> Draft {
    let kind = random.pick(&[FREE, HELD, CLOSED]);
    let n = sheets::waypoints(random, kind);
    let mut draft = sheets::of_size(random, kind, n);
    let legs: &[u16] = random.pick(&[&[1], &[2], &[4], &[1, 2, 4]]);
    draft.legs.iter_mut().for_each(|leg| *leg = random.pick(legs));
    draft.points.iter_mut().flatten().chain(&mut draft.slopes).for_each(|number| *number = random.between(-9, 9) as i32);
    draft
}
