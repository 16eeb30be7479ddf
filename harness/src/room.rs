// What the C boundary answers where the slice that is lent for the results is too short and nothing is refused (docs/DECISIONS.md, Answers;
// include/station.h says the same). Nothing is written into it then. build.rs hands both numbers to the C files.

/// The out has fewer places than there are results: the number is the same as with room.
pub const ROOM: u64 = 0;

/// The runner lent to a step or a back has fewer than three places: it holds no runner, which is adrift.
pub const NO_RUNNER: u64 = 11;
