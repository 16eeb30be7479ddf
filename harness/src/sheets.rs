//! Sheets to try: accepted ones of all kinds, ones at the edge of each field's range, damaged ones.

use crate::model::REACH_LIMITS;
use crate::random::Random;

pub const FREE: u8 = 0;
pub const HELD: u8 = 1;
pub const CLOSED: u8 = 2;

/// A sheet's fields before they become bytes; they may hold what no accepted sheet does.
#[derive(Clone, Debug)]
pub struct Draft {
    pub version: u8,
    pub kind: u8,
    pub n: u16,
    pub legs: Vec<u16>,
    pub points: Vec<[i32; 3]>,
    pub slopes: Vec<i32>,
}

impl Draft {
    /// A course from its legs and one list of values, used on all three axes; slopes for held ends are the same on all axes.
    pub fn of(kind: u8, legs: &[u16], values: &[i32], slopes: Option<[i32; 2]>) -> Draft {
        Draft {
            version: 1,
            kind,
            n: values.len() as u16,
            legs: legs.to_vec(),
            points: values.iter().map(|value| [*value; 3]).collect(),
            slopes: slopes.map_or(vec![], |[start, end]| vec![start, start, start, end, end, end]),
        }
    }

    /// The bytes, with the length that comes out.
    pub fn bytes(&self) -> Vec<u8> {
        let mut bytes = vec![0, 0, 0, 0, self.version, self.kind];
        bytes.extend(self.n.to_be_bytes());
        bytes.extend(self.legs.iter().flat_map(|leg| leg.to_be_bytes()));
        bytes.extend(self.points.iter().flatten().chain(&self.slopes).flat_map(|number| number.to_be_bytes()));
        mend(&mut bytes);
        bytes
    }

    /// Fits the lists to N and the kind, so that the length is that of the formula (for a kind above 2, that of a free course).
    pub fn fit(&mut self, random: &mut Random) {
        let n = usize::from(self.n);
        let l = if self.kind == CLOSED { n } else { n.saturating_sub(1) };
        self.legs.resize_with(l, || random.between(1, 256) as u16);
        self.points.resize_with(n, || [0; 3]);
        self.slopes.resize(if self.kind == HELD { 6 } else { 0 }, 0);
    }
}

/// Writes the slice's length into bytes 0 to 3, where there are so many.
pub fn mend(bytes: &mut [u8]) {
    let length = (bytes.len() as u32).to_be_bytes();
    if let Some(field) = bytes.get_mut(0..4) {
        field.copy_from_slice(&length);
    }
}

/// 2 (closed: 3) to 512 waypoints, small numbers more often, the largest ones now and then.
pub fn waypoints(random: &mut Random, kind: u8) -> usize {
    let least = if kind == CLOSED { 3 } else { 2 };
    let most = match random.below(200) {
        0..=119 => 7,
        120..=171 => 24,
        172..=195 => 90,
        196..=198 => 511,
        _ => return 512 - random.below(2),
    };
    random.between(least, most + 1) as usize
}

/// An accepted sheet of a random kind.
pub fn accepted(random: &mut Random) -> Draft {
    let kind = random.pick(&[FREE, HELD, CLOSED]);
    let n = waypoints(random, kind);
    of_size(random, kind, n)
}

/// N7: the least and the greatest number of a waypoint on an axis.
pub fn limits(axis: usize) -> [i32; 2] {
    REACH_LIMITS[axis].map(|limit| limit as i32)
}

/// The limits to try on an axis: its own, now and then another's, so that axes which are mixed up are noticed.
pub fn limits_to_try(random: &mut Random, axis: usize) -> [i32; 2] {
    limits(if random.once_in(4) { random.below(3) } else { axis })
}

/// Any number within an axis' limits.
pub fn within(random: &mut Random, axis: usize) -> i32 {
    let [least, most] = limits(axis);
    random.between(least.into(), most.into()) as i32
}

/// An accepted sheet with this kind and number of waypoints: legs alike, mixed, at the limits, short, growing; values spread, at the
/// limits, turning, small, along a line, or alike; a chain now and then.
pub fn of_size(random: &mut Random, kind: u8, n: usize) -> Draft {
    if kind == FREE && n > 4 && random.once_in(8) {
        let tail = random.pick(&[n, n / 2 + 1]);
        return chain(random, n, tail);
    }
    let l = if kind == CLOSED { n } else { n - 1 };
    let style = random.below(6);
    let alike = random.pick(&[1, 2, 3, 10, 128, 255, 256]);
    let legs = (0..l)
        .map(|i| match style {
            0 => alike,
            1 | 2 => random.between(1, 256) as u16,
            3 => random.pick(&[1, 256]),
            4 => random.between(1, 4) as u16,
            _ => 1 << (i % 9),
        })
        .collect();
    let mut points = vec![[0; 3]; n];
    for axis in 0..3 {
        let (style, [least, most]) = (random.below(7), limits(axis));
        for (i, point) in points.iter_mut().enumerate() {
            point[axis] = match style {
                0 | 1 => within(random, axis),
                2 => random.pick(&[least, most]),
                3 => [most, least][i % 2],
                4 => random.between(-20, 20) as i32,
                5 => least + i as i32 * ((most - least) / 512),
                _ => alike.into(),
            }
        }
    }
    let most = random.pick(&[0, 7, 5_000]);
    let slopes = (0..if kind == HELD { 6 } else { 0 })
        .map(|_| if random.once_in(3) { random.pick(&[-5_000, 5_000]) } else { random.between(-most, most) as i32 })
        .collect();
    Draft { version: 1, kind, n: n as u16, legs, points, slopes }
}

/// A free course on which every one of the 40 passes changes a number, and so would the 41st and 42nd: it ends in a chain of 43 waypoints
/// on which a change of one travels back from the last one, by one waypoint a pass. Legs there are 256, so that a row is
/// 4 × Z(i) = d - e - Z(i-1) - Z(i+1), and d - e turns between -1 and 1: a quarter, which is rounded to 0, until the next waypoint's number
/// has become 1 or -1; then a half, which goes away from zero (L4). Of the last `tail` waypoints those before the chain go straight, so
/// that it is not disturbed; before them legs are mixed and values spread. The tail begins so far inside the limits that its steps, at most
/// 511 of at most 105, do not leave them.
pub fn chain(random: &mut Random, n: usize, tail: usize) -> Draft {
    let spread = n - tail;
    let legs = (0..n - 1).map(|i| if i < spread { random.between(1, 256) as u16 } else { 256 }).collect();
    let mut points = vec![[0; 3]; n];
    for axis in 0..3 {
        for point in &mut points[..spread] {
            point[axis] = within(random, axis);
        }
        let [least, most] = limits(axis);
        let mut value = random.between(i64::from(least) + 54_000, i64::from(most) - 54_000) as i32;
        let mut step = random.between(-100, 100) as i32;
        for (i, point) in points.iter_mut().enumerate().skip(spread) {
            point[axis] = value;
            // d - e at waypoint i, counted from the last inner waypoint
            step += match n as i64 - 2 - i as i64 {
                0 => 4,
                1..=42 if (n - i) % 2 == 1 => -1,
                1..=42 => 1,
                _ => 0,
            };
            value += step;
        }
    }
    Draft { version: 1, kind: FREE, n: n as u16, legs, points, slopes: vec![] }
}

/// An accepted sheet with one to three fields moved to the edge of their range, just inside or just outside.
pub fn at_edges(random: &mut Random) -> Vec<u8> {
    let mut draft = accepted(random);
    let mut stated = None;
    for _ in 0..random.pick(&[1, 1, 1, 2, 3]) {
        match random.below(16) {
            15 => stated = Some(random.pick(&[-8, -1, 1, 8, 256, 1 << 16, -(1 << 16)])),
            field => move_field(random, &mut draft, field),
        }
    }
    let mut bytes = draft.bytes();
    if let Some(off) = stated {
        let length = (bytes.len() as u32).wrapping_add_signed(off).to_be_bytes();
        bytes[0..4].copy_from_slice(&length);
    }
    bytes
}

/// Moves a leg (0 to 3), a waypoint (4 to 8), a slope (9 to 11), the kind (12), N (13) or the version (14) to an edge.
fn move_field(random: &mut Random, draft: &mut Draft, field: usize) {
    match field {
        0..=3 if !draft.legs.is_empty() => {
            let i = place_in(random, draft.legs.len());
            draft.legs[i] = random.pick(&[0, 1, 2, 255, 256, 257, 511, 512, 32_768, 65_535]);
        }
        4..=8 if !draft.points.is_empty() => {
            let i = place_in(random, draft.points.len());
            let axis = random.below(3);
            let limits = limits_to_try(random, axis);
            draft.points[i][axis] = around(random, limits);
        }
        9..=11 => {
            if draft.slopes.is_empty() {
                draft.kind = HELD;
                draft.fit(random);
            }
            draft.slopes[random.below(6)] = around(random, [-5_000, 5_000]);
        }
        12 => {
            draft.kind = random.pick(&[0, 1, 2, 3, 4, 128, 255]);
            if random.once_in(2) {
                draft.fit(random);
            }
        }
        13 => move_count(random, draft),
        _ => draft.version = random.pick(&[0, 1, 2, 255]),
    }
}

/// N at an edge, mostly with lists that fit it.
fn move_count(random: &mut Random, draft: &mut Draft) {
    // 65,535 waypoints that fit the formula are nearly a megabyte: seldom
    let large = random.once_in(200);
    draft.n = random.pick(&[0, 1, 2, 3, 4, 48, 49, 511, 512, 513, 514, if large { 65_535 } else { 600 }]);
    if random.below(4) > 0 {
        draft.fit(random);
    } else {
        draft.n = random.pick(&[draft.n, 65_535, 256]);
    }
}

/// A place in a list: the first, the last, or any.
pub fn place_in(random: &mut Random, length: usize) -> usize {
    let any = random.below(length);
    random.pick(&[0, length - 1, any, any])
}

/// One of the numbers around two limits, or around the ends of four bytes, both sides, and now and then any number.
fn around(random: &mut Random, [least, most]: [i32; 2]) -> i32 {
    if random.once_in(8) {
        return random.word() as i32;
    }
    let limit = random.pick(&[least, most, least, most, i32::MIN, i32::MAX]);
    limit.wrapping_add(random.between(-1, 1) as i32)
}

/// A sheet damaged on the way, or no sheet at all.
pub fn damaged(random: &mut Random) -> Vec<u8> {
    let mut bytes = accepted(random).bytes();
    match random.below(10) {
        // bytes changed
        0..=2 => {
            for _ in 0..random.between(1, 4) {
                let i = random.below(bytes.len());
                bytes[i] = random.word() as u8;
            }
        }
        // a bit turned
        3 | 4 => {
            let i = random.below(8 * bytes.len());
            bytes[i / 8] ^= 1 << (i % 8);
        }
        // cut short
        5 => bytes.truncate(random.below(bytes.len())),
        // made longer
        6 => bytes.extend((0..random.between(1, 30)).map(|_| random.word() as u8)),
        7 => lose_or_double(random, &mut bytes),
        // the length or N in the other order of bytes
        8 => {
            let (from, to) = random.pick(&[(0, 4), (6, 8)]);
            bytes[from..to].reverse();
        }
        _ => bytes = noise(random),
    }
    // half of the time the length is put right, so that the tests behind the first are reached
    if random.once_in(2) {
        mend(&mut bytes);
    }
    bytes
}

/// Bytes lost or doubled inside.
fn lose_or_double(random: &mut Random, bytes: &mut Vec<u8>) {
    let i = random.below(bytes.len());
    let count = random.below(bytes.len() - i).min(16);
    if random.once_in(2) {
        bytes.drain(i..i + count);
    } else {
        let doubled = bytes[i..i + count].to_vec();
        bytes.splice(i..i, doubled);
    }
}

/// Random bytes, half of the time with a version and a kind that are right.
fn noise(random: &mut Random) -> Vec<u8> {
    let length = random.pick(&[0, 1, 4, 7, 8, 9, 20, 34, 36, 60, 200]);
    let mut bytes: Vec<u8> = (0..length).map(|_| random.word() as u8).collect();
    if length > 5 && random.once_in(2) {
        bytes[4] = 1;
        bytes[5] %= 3;
    }
    bytes
}
