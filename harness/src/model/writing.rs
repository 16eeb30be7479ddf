//! The model's writing (group G): a sheet from lists.

use super::{Course, Kind, ENDS, MOST_POINTS, PAGE, POINTS, SIZE};

/// G1: what a sheet is written from. Its numbers may have any size (G4).
#[derive(Clone, PartialEq, Eq, Debug)]
pub struct Lists {
    /// The kind's number.
    pub kind: u64,
    pub legs: Vec<u64>,
    /// North, east, up of each waypoint in turn.
    pub waypoints: Vec<i64>,
    pub slopes: Vec<i64>,
}

impl Lists {
    /// G3: tests 3 to 8 on the numbers as they are.
    fn course(&self) -> Result<Course, u64> {
        // N3
        let kind = Kind::ALL.into_iter().find(|kind| *kind as u64 == self.kind).ok_or(ENDS)?;
        // G2, N4
        let n = self.waypoints.len() / 3;
        if n < kind.least_points() || n > MOST_POINTS {
            return Err(POINTS);
        }
        // N5
        if [self.legs.len(), self.waypoints.len(), self.slopes.len()] != [kind.leg_count(n), 3 * n, kind.slope_count()] {
            return Err(SIZE);
        }
        let slopes = match kind {
            Kind::Held => [three(&self.slopes[0..3]), three(&self.slopes[3..6])],
            Kind::Free | Kind::Closed => [[0; 3]; 2],
        };
        let legs = self.legs.iter().map(|leg| i128::from(*leg)).collect();
        let course = Course { kind, n, legs, points: self.waypoints.chunks(3).map(three).collect(), slopes };
        course.within_limits()?;
        Ok(course)
    }
}

/// Numbers of the three axes, in their order.
fn three(numbers: &[i64]) -> [i128; 3] {
    [numbers[0].into(), numbers[1].into(), numbers[2].into()]
}

impl Course {
    /// Its fields as lists.
    pub fn lists(&self) -> Lists {
        Lists {
            kind: self.kind as u64,
            legs: self.legs.iter().map(|leg| *leg as u64).collect(),
            waypoints: self.points.iter().flatten().map(|value| *value as i64).collect(),
            slopes: self.slopes.iter().flatten().take(self.kind.slope_count()).map(|slope| *slope as i64).collect(),
        }
    }

    /// N14, then its sheet at the front of the page; the sheet's length.
    pub(super) fn put_on(&self, page: &mut [u8]) -> Result<usize, u64> {
        let sheet = self.sheet();
        if page.len() < sheet.len() {
            return Err(PAGE);
        }
        page[..sheet.len()].copy_from_slice(&sheet);
        Ok(sheet.len())
    }

    /// S2 to S8.
    fn sheet(&self) -> Vec<u8> {
        let mut sheet = vec![];
        put(&mut sheet, 4, self.kind.sheet_length(self.n) as i128);
        put(&mut sheet, 1, 1);
        put(&mut sheet, 1, self.kind as i128);
        put(&mut sheet, 2, self.n as i128);
        self.legs.iter().for_each(|leg| put(&mut sheet, 2, *leg));
        self.points.iter().flatten().for_each(|value| put(&mut sheet, 4, *value));
        self.slopes.iter().flatten().take(self.kind.slope_count()).for_each(|slope| put(&mut sheet, 4, *slope));
        sheet
    }
}

/// A field of so many bytes, the highest first (S1), in two's complement.
fn put(sheet: &mut Vec<u8>, bytes: usize, number: i128) {
    sheet.extend(&number.to_be_bytes()[16 - bytes..]);
}

/// A11: the sheet at the front of the page; its length.
pub fn write(lists: &Lists, page: &mut [u8]) -> Result<usize, u64> {
    lists.course()?.put_on(page)
}
