//! The model's round (group Q): one seat of a fleet moved on, and the turn passed on.

use super::{shelf, Reader, SEATS, TURN};

/// N19: the most seats.
pub const MOST_SEATS: usize = 32;

/// What a seat that was served gets, its own refusal included, and the next turn, which goes with both (Q3).
#[derive(Clone, PartialEq, Eq, Debug)]
pub struct Served {
    pub place: Result<[i64; 3], u64>,
    pub next: u64,
}

/// A14: the seat whose turn it is, moved on in the fleet, which has leg, offset and laps of each seat in turn (Q1). `Err` has the numbers
/// with which no seat is served: 1 to 9, 19, 20.
pub fn round(sheet: &[u8], list: &[i64], fleet: &mut [u64], turn: u64) -> Result<Served, u64> {
    let course = Reader::STATION.read(sheet)?;
    shelf(&course, list)?;
    let mut seats: Vec<&mut [u64]> = fleet.chunks_exact_mut(3).collect();
    // N19
    if seats.is_empty() || seats.len() > MOST_SEATS {
        return Err(SEATS);
    }
    // N20
    let k = seats.len() as u64;
    if turn >= k {
        return Err(TURN);
    }
    // 11 and 13 of the record, then 12 of the leg on which it stands after the step; only then it moves (Q2, Q3)
    let seat = &mut seats[turn as usize];
    let place = course.stepped([seat[0], seat[1], seat[2]]).and_then(|runner| {
        let place = course.place(list, runner[0] as usize, i128::from(runner[1]))?;
        seat.copy_from_slice(&runner);
        Ok(place)
    });
    Ok(Served { place, next: (turn + 1) % k })
}
