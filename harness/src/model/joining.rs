//! The model's joining (group J): one course of two.

use super::{Course, Kind, Reader, APART, CROWDED, MOST_POINTS, SHUT};

impl Course {
    /// J2: both courses as one, refused by 16, 17 or 18.
    fn joined(self, second: Course) -> Result<Course, u64> {
        // N16
        if [self.kind, second.kind] != [Kind::Free; 2] {
            return Err(SHUT);
        }
        // N17
        if self.points.last() != second.points.first() {
            return Err(APART);
        }
        let legs: Vec<i128> = self.legs.into_iter().chain(second.legs).collect();
        let points: Vec<[i128; 3]> = self.points.into_iter().chain(second.points.into_iter().skip(1)).collect();
        // N18
        if points.len() > MOST_POINTS {
            return Err(CROWDED);
        }
        Ok(Course { kind: Kind::Free, n: points.len(), legs, points, slopes: [[0; 3]; 2] })
    }
}

/// A13: the joined sheet at the front of the page; its length.
pub fn join(first: &[u8], second: &[u8], page: &mut [u8]) -> Result<usize, u64> {
    let first = Reader::STATION.read(first)?;
    let second = Reader::STATION.read(second)?;
    first.joined(second)?.put_on(page)
}
