//! Why a call is refused (group N): numbers and words.

use core::fmt;

/// Why a call was refused. Of the refusals that a call looks for, the one with the least number is answered (A1); joining, the round and
/// strokes have orders of their own (A13 to A15), and so has the board (A16).
///
/// ```
/// use station::Refusal;
///
/// let refusal = station::read(&[0, 0, 0]).unwrap_err();
/// assert_eq!(refusal, Refusal::Torn);
/// assert_eq!((refusal.number(), refusal.word()), (1, "torn"));
/// assert_eq!(refusal.to_string(), "refused 1 torn");
/// ```
#[derive(Clone, Copy, PartialEq, Eq, Hash, Debug)]
#[non_exhaustive]
pub enum Refusal {
    /// N1: no room for the header, or its count of bytes is not the slice's.
    Torn,
    /// N2: a version other than 1.
    Edition,
    /// N3: no such kind of ends.
    Ends,
    /// N4: over 512 waypoints, or fewer than 2, closed: fewer than 3.
    Points,
    /// N5: too many or too few bytes for that kind and count of waypoints; when writing, too many or too few elements in a list (G3).
    Size,
    /// N6: a leg of 0 or over 256 ticks.
    Leg,
    /// N7: a waypoint's north or east over 1,000,000 mm in size, or its up not from -50,000 to 120,000 mm.
    Reach,
    /// N8: a slope over 5,000 mm per tick in size.
    Slope,
    /// N9: the list is shorter than three numbers a waypoint.
    Shelf,
    /// N10: the tick is over the course's last, on an open course.
    Past,
    /// N11: no such leg, or the offset is beyond it, or laps on an open course.
    Adrift,
    /// N12: at an end of the leg, a bend number over 2^37 in size.
    Bend,
    /// N13: the runner has come to the end of an open course.
    Landed,
    /// N14: the slice is shorter than the sheet to be written into it.
    Page,
    /// N15: the runner stands at the first waypoint with no lap flown.
    Start,
    /// N16: one of the two sheets to be joined is not free-ended.
    Shut,
    /// N17: the first sheet's last waypoint is not the second's first, on some axis.
    Apart,
    /// N18: the joined course would have over 512 waypoints.
    Crowded,
    /// N19: the fleet has no seats, or over 32.
    Seats,
    /// N20: the turn is not below the number of seats.
    Turn,
    /// N21: a tolerance below 0 or over 1,000 mm.
    Grain,
    /// N22: the list for the ends of strokes is shorter than the answer.
    Ink,
    /// N23: over 48 waypoints, the most that the board reads; only the functions of [`board`](crate::board) test it.
    Board,
    /// A number that this crate does not know, from a library newer than it. The library of this version has no such answer.
    Unknown(u64),
}

impl Refusal {
    /// The refusal with a number, as the C boundary answers it; 0 is none.
    ///
    /// ```
    /// use station::Refusal;
    ///
    /// assert_eq!(Refusal::from_number(0), None);
    /// assert_eq!(Refusal::from_number(6), Some(Refusal::Leg));
    /// assert_eq!(Refusal::from_number(99), Some(Refusal::Unknown(99)));
    /// assert!((1..100).all(|number| Refusal::from_number(number).unwrap().number() == number));
    /// ```
    pub const fn from_number(number: u64) -> Option<Refusal> {
        Some(match number {
            0 => return None,
            1 => Refusal::Torn,
            2 => Refusal::Edition,
            3 => Refusal::Ends,
            4 => Refusal::Points,
            5 => Refusal::Size,
            6 => Refusal::Leg,
            7 => Refusal::Reach,
            8 => Refusal::Slope,
            9 => Refusal::Shelf,
            10 => Refusal::Past,
            11 => Refusal::Adrift,
            12 => Refusal::Bend,
            13 => Refusal::Landed,
            14 => Refusal::Page,
            15 => Refusal::Start,
            16 => Refusal::Shut,
            17 => Refusal::Apart,
            18 => Refusal::Crowded,
            19 => Refusal::Seats,
            20 => Refusal::Turn,
            21 => Refusal::Grain,
            22 => Refusal::Ink,
            23 => Refusal::Board,
            _ => Refusal::Unknown(number),
        })
    }

    /// The refusal's number.
    pub const fn number(self) -> u64 {
        self.named().0
    }

    /// The refusal's word; that of a number without a name is `unknown`.
    pub const fn word(self) -> &'static str {
        self.named().1
    }

    /// Number and word.
    const fn named(self) -> (u64, &'static str) {
        match self {
            Refusal::Torn => (1, "torn"),
            Refusal::Edition => (2, "edition"),
            Refusal::Ends => (3, "ends"),
            Refusal::Points => (4, "points"),
            Refusal::Size => (5, "size"),
            Refusal::Leg => (6, "leg"),
            Refusal::Reach => (7, "reach"),
            Refusal::Slope => (8, "slope"),
            Refusal::Shelf => (9, "shelf"),
            Refusal::Past => (10, "past"),
            Refusal::Adrift => (11, "adrift"),
            Refusal::Bend => (12, "bend"),
            Refusal::Landed => (13, "landed"),
            Refusal::Page => (14, "page"),
            Refusal::Start => (15, "start"),
            Refusal::Shut => (16, "shut"),
            Refusal::Apart => (17, "apart"),
            Refusal::Crowded => (18, "crowded"),
            Refusal::Seats => (19, "seats"),
            Refusal::Turn => (20, "turn"),
            Refusal::Grain => (21, "grain"),
            Refusal::Ink => (22, "ink"),
            Refusal::Board => (23, "board"),
            Refusal::Unknown(number) => (number, "unknown"),
        }
    }
}

/// As the stand prints it (T4): `refused 6 leg`.
impl fmt::Display for Refusal {
    fn fmt(&self, f: &mut fmt::Formatter<'_>) -> fmt::Result {
        write!(f, "refused {} {}", self.number(), self.word())
    }
}

impl core::error::Error for Refusal {}
