//! Straight strokes along a course, for a tablet to draw (group H).

use crate::{Refusal, done, raw};

/// How many ends the strokes of a course can have (H5): the size of an array that serves every course.
pub const MOST_STROKE_ENDS: usize = 131_073;

/// The greatest tolerance of strokes, in millimetres (N21).
pub const MOST_TOLERANCE: i64 = 1_000;

/// Cuts the course into straight strokes, by a list that was laid out for this sheet. A stroke joins the places at two ticks of one leg,
/// straight and even in ticks, and is within the tolerance, in millimetres, of the place at each of its ticks on each axis (H1, H2). A leg
/// for which one stroke will not do is cut at half its ticks, rounded down, and each half likewise (H3).
///
/// At the front of `ends`, whose numbers behind them stay, come the ticks at which strokes begin and end, rising from 0 to P, every
/// waypoint's among them (H4, H5). Answers how many these are, one more than there are strokes. There are at most
/// [`Course::most_stroke_ends`](crate::Course::most_stroke_ends) of them: where `ends` has so many places, they are not counted first, which
/// saves time. Tests 1-9, 21, 12 at every leg of the course and, last of all, 22, in this order (A15).
///
/// Course A turns by 8 millimetres; at tick 1 it is 2 millimetres off the line between its first two waypoints (W19):
///
/// ```
/// use station::{COURSE_A, Refusal};
///
/// let mut list = [0; 9];
/// station::lay_out(&COURSE_A, &mut list)?;
/// // one place more than there are ticks from 0 to P
/// let mut ends = [77; 6];
/// assert_eq!(station::strokes(&COURSE_A, &list, 1, &mut ends)?, 5);
/// assert_eq!(ends, [0, 1, 2, 3, 4, 77]);
///
/// let mut ends = [77; 6];
/// let count = station::strokes(&COURSE_A, &list, 2, &mut ends)?;
/// assert_eq!(ends[..count], [0, 2, 4]);
/// assert_eq!(ends[count..], [77; 3]);
///
/// // nothing is written where it is refused
/// let mut short = [77; 2];
/// assert_eq!(station::strokes(&COURSE_A, &list, 2, &mut short), Err(Refusal::Ink));
/// assert_eq!(station::strokes(&COURSE_A, &list, station::MOST_TOLERANCE + 1, &mut short), Err(Refusal::Grain));
/// assert_eq!(short, [77; 2]);
/// # Ok::<(), station::Refusal>(())
/// ```
///
/// A slice that serves a course at every tolerance has as many places as its strokes can have ends:
///
/// ```
/// use station::EndKind;
///
/// // over 32 ticks out and back by 800 millimetres
/// let (mut sheet, mut list) = ([0; 48], [0; 9]);
/// station::write(EndKind::Free, &[16, 16], &[0, 0, 0, 800, 0, 0, 0, 0, 0], &[], &mut sheet)?;
/// station::lay_out(&sheet, &mut list)?;
/// let mut ends = vec![0; station::read(&sheet)?.most_stroke_ends()];
/// let count = station::strokes(&sheet, &list, 20, &mut ends)?;
/// assert_eq!(ends[..count], [0, 8, 12, 16, 20, 24, 32]);
/// let count = station::strokes(&sheet, &list, 1_000, &mut ends)?;
/// assert_eq!(ends[..count], [0, 16, 32]);
/// # Ok::<(), station::Refusal>(())
/// ```
#[inline]
pub fn strokes(sheet: &[u8], list: &[i64], tolerance: i64, ends: &mut [u64]) -> Result<usize, Refusal> {
    let mut out = [0];
    done(raw::strokes(sheet, list, tolerance, ends, &mut out))?;
    Ok(out[0] as usize)
}
