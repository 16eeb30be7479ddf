//! Several drones on one course, served seat by seat (group Q).

use crate::{Place, Refusal, Runner, done, raw};

/// How many seats a fleet can have (N19).
pub const MOST_SEATS: usize = 32;

/// A fleet: drones on one course, a seat for each, and whose turn it is (Q1). The seats are lent: they can be looked at through the fleet
/// while it flies, and are the lender's again after it.
///
/// Two drones on course A, the first at its start, the second a tick before its end (W18):
///
/// ```
/// use station::{COURSE_A, Fleet, Place, Refusal, Runner};
///
/// let mut list = [0; 9];
/// station::lay_out(&COURSE_A, &mut list)?;
/// let mut seats = [Runner::default(), Runner { leg: 1, offset: 1, laps: 0 }];
/// let mut fleet = Fleet::new(&mut seats);
/// assert_eq!(fleet.round(&COURSE_A, &list)?, Place { north: 6, east: 10, up: 21 });
/// assert_eq!(fleet.round(&COURSE_A, &list)?, Place { north: 0, east: 10, up: 24 });
/// assert_eq!(fleet.round(&COURSE_A, &list)?, Place { north: 8, east: 10, up: 22 });
///
/// // the second has landed: its record stays, and the turn goes on to the first
/// assert_eq!(fleet.round(&COURSE_A, &list), Err(Refusal::Landed));
/// assert_eq!(fleet.seats()[1], Runner { leg: 1, offset: 2, laps: 0 });
/// assert_eq!(fleet.turn(), 0);
///
/// // no seat is served by a list that is too short: the turn stays
/// assert_eq!(fleet.round(&COURSE_A, &list[..8]), Err(Refusal::Shelf));
/// assert_eq!(fleet.turn(), 0);
/// assert_eq!(seats, [Runner { leg: 1, offset: 0, laps: 0 }, Runner { leg: 1, offset: 2, laps: 0 }]);
/// # Ok::<(), station::Refusal>(())
/// ```
#[derive(PartialEq, Eq, Debug)]
pub struct Fleet<'a> {
    seats: &'a mut [Runner],
    turn: u64,
}

impl<'a> Fleet<'a> {
    /// A fleet with these seats, the first of which is served first.
    #[inline]
    pub fn new(seats: &'a mut [Runner]) -> Fleet<'a> {
        Fleet::at(seats, 0)
    }

    /// A fleet with these seats that goes on with a turn. Neither is tested before the round.
    ///
    /// ```
    /// use station::{COURSE_A, Fleet, MOST_SEATS, Refusal, Runner};
    ///
    /// let mut seats = [Runner::default(); MOST_SEATS + 1];
    /// assert_eq!(Fleet::at(&mut seats, 0).round(&COURSE_A, &[0; 9]), Err(Refusal::Seats));
    /// assert_eq!(Fleet::at(&mut seats[..2], 2).round(&COURSE_A, &[0; 9]), Err(Refusal::Turn));
    ///
    /// // the second of two, and after the last seat the first
    /// let mut fleet = Fleet::at(&mut seats[..2], 1);
    /// fleet.round(&COURSE_A, &[0; 9])?;
    /// assert_eq!(fleet.turn(), 0);
    /// assert_eq!(fleet.seats(), [Runner::default(), Runner { leg: 0, offset: 1, laps: 0 }]);
    /// # Ok::<(), station::Refusal>(())
    /// ```
    #[inline]
    pub fn at(seats: &'a mut [Runner], turn: u64) -> Fleet<'a> {
        Fleet { seats, turn }
    }

    /// The seats' runners.
    #[inline]
    pub fn seats(&self) -> &[Runner] {
        self.seats
    }

    /// The turn: which seat is served next, counted from 0.
    #[inline]
    pub fn turn(&self) -> u64 {
        self.turn
    }

    /// Serves the seat whose turn it is, by a list that was laid out for this sheet: moves its runner on by a tick, answers the place to
    /// which that brings it, and hands the turn on: to the seat behind it, or behind the last one to the first (Q2). Tests 1-9, 19, 20,
    /// then of this seat 11, 13 and, at the leg on which it stands after the step, 12, in this order (A14). A seat that is refused by one of
    /// these three keeps its record and passes the turn on all the same; after the other refusals the turn stays (Q3). The other seats'
    /// records stay as they were (Q4).
    ///
    /// On a closed course a runner goes round, and the lap is counted (M10):
    ///
    /// ```
    /// use station::{EndKind, Fleet, Place, Runner};
    ///
    /// // four legs of 2 ticks, north alone differs
    /// let (mut sheet, mut list) = ([0; 64], [0; 12]);
    /// station::write(EndKind::Closed, &[2; 4], &[0, 0, 0, 6, 0, 0, 0, 0, 0, -6, 0, 0], &[], &mut sheet)?;
    /// station::lay_out(&sheet, &mut list)?;
    /// let mut seats = [Runner { leg: 3, offset: 1, laps: 4 }];
    /// assert_eq!(Fleet::new(&mut seats).round(&sheet, &list)?, Place { north: 0, east: 0, up: 0 });
    /// assert_eq!(seats, [Runner { leg: 0, offset: 0, laps: 5 }]);
    /// # Ok::<(), station::Refusal>(())
    /// ```
    #[inline]
    pub fn round(&mut self, sheet: &[u8], list: &[i64]) -> Result<Place, Refusal> {
        // where no next turn is told, it is this one again
        let (mut place, mut next) = ([0; 3], [self.turn]);
        let answer = raw::round(sheet, list, self.seats, self.turn, &mut place, &mut next);
        self.turn = next[0];
        done(answer)?;
        Ok(place.into())
    }
}
