//! The model's strokes (group H): each leg's places, cut in halves until every piece is straight enough.

use super::{shelf, Course, Reader, GRAIN, INK, MOST_POINTS};

/// N21: the greatest tolerance, in millimetres.
pub const MOST_TOLERANCE: i64 = 1_000;

/// H5: the most ends, on a closed course whose legs are all of 256 ticks (N6).
pub const MOST_STROKE_ENDS: usize = MOST_POINTS * 256 + 1;

/// H2: whether a stretch, given by its places from end to end, is kept as one stroke: whether every place is within the tolerance of the
/// straight line between the first and the last. (Those two are on it, so that a stretch of one tick is kept.)
fn is_kept(places: &[[i64; 3]], tolerance: i64) -> bool {
    let m = places.len() as i128 - 1;
    (0..3).all(|axis| {
        let risen = |u: usize| i128::from(places[u][axis]) - i128::from(places[0][axis]);
        let whole = risen(places.len() - 1);
        (0..places.len()).all(|u| (m * risen(u) - u as i128 * whole).abs() <= i128::from(tolerance) * m)
    })
}

/// H3: the ticks at which the strokes of a stretch end, which begins at the tick `start`.
fn cut(places: &[[i64; 3]], start: u64, tolerance: i64) -> Vec<u64> {
    let m = places.len() - 1;
    if is_kept(places, tolerance) {
        return vec![start + m as u64];
    }
    let middle = m / 2;
    let (first, second) = (cut(&places[..=middle], start, tolerance), cut(&places[middle..], start + middle as u64, tolerance));
    [first, second].concat()
}

impl Course {
    /// N12 of every leg, then H4: the ticks of all ends.
    pub fn strokes(&self, list: &[i64], tolerance: i64) -> Result<Vec<u64>, u64> {
        let mut ends = vec![0];
        for (leg, h) in self.legs.iter().enumerate() {
            let places = (0..=*h).map(|u| self.place(list, leg, u)).collect::<Result<Vec<_>, _>>()?;
            let start = self.legs[..leg].iter().sum::<i128>();
            ends.extend(cut(&places, start as u64, tolerance));
        }
        Ok(ends)
    }
}

/// A15: the ends at the front of the list `ends`; how many.
pub fn strokes(sheet: &[u8], list: &[i64], tolerance: i64, ends: &mut [u64]) -> Result<usize, u64> {
    let course = Reader::STATION.read(sheet)?;
    shelf(&course, list)?;
    // N21
    if !(0..=MOST_TOLERANCE).contains(&tolerance) {
        return Err(GRAIN);
    }
    let found = course.strokes(list, tolerance)?;
    // N22
    if ends.len() < found.len() {
        return Err(INK);
    }
    ends[..found.len()].copy_from_slice(&found);
    Ok(found.len())
}
