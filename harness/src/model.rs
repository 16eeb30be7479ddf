//! An independent model of docs/REQUIREMENTS.md, which `evidence` holds the library to.
//!
//! Written from the clauses alone, to be right and not to be fast: `i128` everywhere, the sheet decoded into lists, every pass made. It
//! shares nothing with the Rattle code or with the C files here. A refusal is `Err` with its number of group N.

mod joining;
mod refusals;
mod rounds;
mod runners;
mod strokes;
mod writing;

pub use joining::join;
pub use refusals::*;
pub use rounds::{round, Served, MOST_SEATS};
pub use runners::Runner;
pub use strokes::{strokes, MOST_STROKE_ENDS, MOST_TOLERANCE};
pub use writing::{write, Lists};

/// S4.
#[derive(Clone, Copy, PartialEq, Eq, Debug)]
pub enum Kind {
    Free = 0,
    Held = 1,
    Closed = 2,
}

/// N4: the most waypoints.
pub const MOST_POINTS: usize = 512;

/// Who reads a sheet, by the most waypoints that it has memory for.
#[derive(Clone, Copy, Debug)]
pub struct Reader {
    pub most: usize,
}

/// N7: a waypoint's least and greatest number on north, east and up.
pub const REACH_LIMITS: [[i128; 2]; 3] = [[-1_000_000, 1_000_000], [-1_000_000, 1_000_000], [-50_000, 120_000]];

impl Kind {
    pub const ALL: [Kind; 3] = [Kind::Free, Kind::Held, Kind::Closed];

    /// N4: the fewest waypoints.
    pub fn least_points(self) -> usize {
        match self {
            Kind::Free | Kind::Held => 2,
            Kind::Closed => 3,
        }
    }

    /// S6: L.
    pub fn leg_count(self, n: usize) -> usize {
        match self {
            Kind::Free | Kind::Held => n - 1,
            Kind::Closed => n,
        }
    }

    /// S8: the number of slopes.
    pub fn slope_count(self) -> usize {
        match self {
            Kind::Held => 6,
            Kind::Free | Kind::Closed => 0,
        }
    }

    /// S9: the bytes of a sheet with n waypoints.
    pub fn sheet_length(self, n: usize) -> usize {
        8 + 2 * self.leg_count(n) + 12 * n + 4 * self.slope_count()
    }
}

/// What an accepted sheet says.
#[derive(Clone, Debug)]
pub struct Course {
    pub kind: Kind,
    /// N, the number of waypoints.
    pub n: usize,
    /// L legs in ticks; a closed course's last leg runs back to the first waypoint.
    pub legs: Vec<i128>,
    /// N waypoints: north, east, up.
    pub points: Vec<[i128; 3]>,
    /// Kind 1 only (else zeros): the slopes at the start, then at the end, each north, east, up.
    pub slopes: [[i128; 3]; 2],
}

/// S1: the highest byte first.
fn unsigned(bytes: &[u8]) -> i128 {
    bytes.iter().fold(0, |number, byte| number * 256 + i128::from(*byte))
}

/// Four bytes in two's complement (S7, S8).
fn signed(bytes: &[u8]) -> i128 {
    let number = unsigned(bytes);
    if number < 1 << 31 {
        number
    } else {
        number - (1 << 32)
    }
}

impl Reader {
    /// It has memory for every sheet, and so never says 23.
    pub const STATION: Reader = Reader { most: MOST_POINTS };

    /// N23.
    pub const BOARD: Reader = Reader { most: 48 };

    /// A2: reading tests 1 to 8, with 23 behind 4 (A16), and answers the first that applies.
    pub fn read(self, sheet: &[u8]) -> Result<Course, u64> {
        // N1
        if sheet.len() < 8 || unsigned(&sheet[0..4]) != sheet.len() as i128 {
            return Err(TORN);
        }
        // N2
        if sheet[4] != 1 {
            return Err(EDITION);
        }
        // N3
        let kind = match sheet[5] {
            0 => Kind::Free,
            1 => Kind::Held,
            2 => Kind::Closed,
            _ => return Err(ENDS),
        };
        // N4
        let n = unsigned(&sheet[6..8]) as usize;
        if n < kind.least_points() || n > MOST_POINTS {
            return Err(POINTS);
        }
        // N23
        if n > self.most {
            return Err(BOARD);
        }
        // N5
        if sheet.len() != kind.sheet_length(n) {
            return Err(SIZE);
        }
        let course = decoded(kind, n, &sheet[8..]);
        course.within_limits()?;
        Ok(course)
    }

    /// A3; the list is filled as L5 says.
    pub fn lay_out(self, sheet: &[u8], list: &mut [i64]) -> Result<(), u64> {
        let course = self.read(sheet)?;
        shelf(&course, list)?;
        for axis in 0..3 {
            for (i, z) in course.bends(axis).into_iter().enumerate() {
                list[axis * course.n + i] = i64::try_from(z).expect("a bend number has 64 bits");
            }
        }
        Ok(())
    }

    /// A4.
    pub fn place_at_tick(self, sheet: &[u8], list: &[i64], tick: u64) -> Result<[i64; 3], u64> {
        let course = self.read(sheet)?;
        shelf(&course, list)?;
        let (leg, offset) = course.leg_and_offset(tick).ok_or(PAST)?;
        course.place(list, leg, offset)
    }

    /// A5.
    pub fn place_of_runner(self, sheet: &[u8], list: &[i64], runner: Runner) -> Result<[i64; 3], u64> {
        let course = self.read(sheet)?;
        shelf(&course, list)?;
        if !course.fits(runner) {
            return Err(ADRIFT);
        }
        let [leg, offset, _] = runner;
        course.place(list, leg as usize, i128::from(offset))
    }
}

/// S6, S7, S8: what stands behind the first eight bytes.
fn decoded(kind: Kind, n: usize, bytes: &[u8]) -> Course {
    let (legs, rest) = bytes.split_at(2 * kind.leg_count(n));
    let (points, slopes) = rest.split_at(12 * n);
    let slopes = match kind {
        Kind::Held => [three(&slopes[0..12]), three(&slopes[12..24])],
        Kind::Free | Kind::Closed => [[0; 3]; 2],
    };
    Course { kind, n, legs: legs.chunks(2).map(unsigned).collect(), points: points.chunks(12).map(three).collect(), slopes }
}

/// Numbers of the three axes, in their order.
fn three(bytes: &[u8]) -> [i128; 3] {
    [signed(&bytes[0..4]), signed(&bytes[4..8]), signed(&bytes[8..12])]
}

/// One row of R2 to R5: before * σ(i-1) + middle * σ(i) + after * σ(i+1) = right. A held end has a single neighbour; the factor of the
/// other is 0.
#[derive(Clone, Copy, Debug)]
pub struct Row {
    pub before: i128,
    pub middle: i128,
    pub after: i128,
    pub right: i128,
}

/// L4: of the two whole numbers beside n / d the nearer one; of two equally near ones the one farther from zero, which below zero is the
/// lower one.
pub fn rounded(n: i128, d: i128) -> i128 {
    let below = n.div_euclid(d);
    let (off_below, off_above) = (n - d * below, d * (below + 1) - n);
    if off_below < off_above || (off_below == off_above && n < 0) {
        below
    } else {
        below + 1
    }
}

impl Course {
    /// N6, N7, N8: each over the whole course before the next.
    fn within_limits(&self) -> Result<(), u64> {
        if self.legs.iter().any(|leg| *leg < 1 || *leg > 256) {
            return Err(LEG);
        }
        let beyond = |point: &[i128; 3]| (0..3).any(|axis| point[axis] < REACH_LIMITS[axis][0] || point[axis] > REACH_LIMITS[axis][1]);
        if self.points.iter().any(beyond) {
            return Err(REACH);
        }
        if self.slopes.iter().flatten().any(|slope| *slope < -5_000 || *slope > 5_000) {
            return Err(SLOPE);
        }
        Ok(())
    }

    /// P.
    pub fn ticks(&self) -> i128 {
        self.legs.iter().sum()
    }

    pub fn closed(&self) -> bool {
        self.kind == Kind::Closed
    }

    /// The waypoints before and after waypoint i, going round. (An open end's missing neighbour is some other waypoint, with factor 0.)
    pub fn around(&self, i: usize) -> (usize, usize) {
        ((i + self.n - 1) % self.n, (i + 1) % self.n)
    }

    /// The row of waypoint i on an axis; none where it has none.
    pub fn row(&self, axis: usize, i: usize) -> Option<Row> {
        let value = |i: usize| self.points[i][axis];
        let (before, after) = self.around(i);
        let first = i == 0 && !self.closed();
        let last = i == self.n - 1 && !self.closed();
        if first || last {
            match self.kind {
                // R3
                Kind::Free => None,
                // R4
                _ if first => {
                    let h = self.legs[0];
                    let d = value(1) - value(0);
                    let p = self.slopes[0][axis];
                    Some(Row { before: 0, middle: 2 * h * h, after: h * h, right: d - h * p })
                }
                // R5
                _ => {
                    let g = self.legs[i - 1];
                    let e = value(i) - value(i - 1);
                    let p = self.slopes[1][axis];
                    Some(Row { before: g * g, middle: 2 * g * g, after: 0, right: g * p - e })
                }
            }
        } else {
            // R2
            let h = self.legs[i];
            let g = self.legs[before];
            let d = value(after) - value(i);
            let e = value(i) - value(before);
            Some(Row { before: g * g * h, middle: 2 * g * h * (g + h), after: g * h * h, right: g * d - h * e })
        }
    }

    pub fn rows(&self, axis: usize) -> Vec<Option<Row>> {
        (0..self.n).map(|i| self.row(axis, i)).collect()
    }

    /// L2: one pass. Says whether a number changed.
    pub fn pass(&self, rows: &[Option<Row>], z: &mut [i128]) -> bool {
        let mut changed = false;
        for i in 0..self.n {
            if let Some(row) = rows[i] {
                let (before, after) = self.around(i);
                let numerator = 65_536 * row.right - row.before * z[before] - row.after * z[after];
                let new = rounded(numerator, row.middle);
                changed |= new != z[i];
                z[i] = new;
            }
        }
        changed
    }

    /// L3: the bend numbers of one axis.
    pub fn bends(&self, axis: usize) -> Vec<i128> {
        let rows = self.rows(axis);
        let mut z = vec![0; self.n];
        for _ in 0..40 {
            self.pass(&rows, &mut z);
        }
        z
    }

    /// P1, with N12 tested on all three axes before.
    pub fn place(&self, list: &[i64], leg: usize, u: i128) -> Result<[i64; 3], u64> {
        let h = self.legs[leg];
        let end = (leg + 1) % self.n;
        let bend = |axis: usize, i: usize| i128::from(list[axis * self.n + i]);
        for axis in 0..3 {
            if bend(axis, leg).abs() > 1 << 37 || bend(axis, end).abs() > 1 << 37 {
                return Err(BEND);
            }
        }
        let mut place = [0; 3];
        for (axis, answer) in place.iter_mut().enumerate() {
            let (v, w) = (self.points[leg][axis], self.points[end][axis]);
            let (z, y) = (bend(axis, leg), bend(axis, end));
            let numerator = 65_536 * (u * w + (h - u) * v) - u * (h - u) * ((2 * h - u) * z + (h + u) * y);
            *answer = i64::try_from(rounded(numerator, 65_536 * h)).expect("a place has 64 bits");
        }
        Ok(place)
    }
}

/// N9.
fn shelf(course: &Course, list: &[i64]) -> Result<(), u64> {
    if list.len() < 3 * course.n {
        return Err(SHELF);
    }
    Ok(())
}
