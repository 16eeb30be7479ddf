//! The parts of the run with what each compared. A part that compared nothing fails the run; harness/mutants shows of each part that a
//! fault can trip it.

/// One part of the run.
#[derive(Clone, Copy, PartialEq, Eq, Debug)]
pub enum Part {
    /// The figures of group W.
    Worked,
    /// The numbers and words of include/station.h, the sizes of include/board.h.
    Header,
    /// Every call of the library on random, boundary and damaged sheets.
    Calls,
    /// The headers' functions over structs on some of the same calls.
    Structs,
    /// The C files of the benchmark on them.
    CFiles,
    /// The Rust wrapper on some of them.
    Wrapper,
    /// What was lent: no fence touched, no sheet to be read and no list to be written from changed.
    Memory,
    /// Sheets from lists that the library writes, and reads again (G5, G6).
    RoundTrips,
    /// Sheets that the library joins, reads again and lays out, with every waypoint of the two at its tick (J3, J4).
    Joined,
    /// Sheets and their mirror images, which the library lays out and flies (L7, P6).
    Mirrored,
    /// Each number that a call tests was reached, no other.
    Answers,
    /// Bend numbers against the elimination in floats.
    Bends,
    /// Places against the elimination in floats.
    Places,
    /// Places against 004's programs.
    Pcuspl,
    /// E1 to E4 of the exact spline.
    Spline,
    /// Bend numbers against the exact spline.
    ExactBends,
    /// Places against the exact spline.
    ExactPlaces,
    /// Runners and some places at every leg of courses with 1 to 512 legs (P3, P4, P7).
    Ticks,
    /// Places and runners at far ticks.
    FarTicks,
    /// Steps against the runner at the tick.
    Steps,
    /// As many backs, against the same, to where the steps began (M9).
    Backs,
    /// Open courses, stepped to the end and on, and back to the start and on.
    OpenEnds,
    /// Steps and backs in random order against the ticks flown (M7, M8, M11).
    Walks,
    /// Laps from none and about the most, step by step and back, and any laps in every call that tests them (M10, N11, N15).
    Laps,
    /// Sheets around 48 and around 512 waypoints, asked of the board and of the station (B2, B3, B5).
    Board,
    /// Fleets of 1 to 33 seats flown round after round, each seat against a runner of its own (Q2 to Q6).
    Rounds,
    /// Strokes of the library at every tick of their courses, and every cut (H4 to H7).
    Strokes,
    /// One runner moved on for ten years, and back for one.
    OnFoot,
}

/// The parts' names, in the order above.
pub const NAMES: [&str; 28] = [
    "worked",
    "header",
    "calls",
    "structs",
    "c-files",
    "wrapper",
    "memory",
    "round-trips",
    "joined",
    "mirrored",
    "answers",
    "bends",
    "places",
    "pcuspl",
    "spline",
    "exact-bends",
    "exact-places",
    "ticks",
    "far-ticks",
    "steps",
    "backs",
    "open-ends",
    "walks",
    "laps",
    "board",
    "rounds",
    "strokes",
    "on-foot",
];

impl Part {
    pub fn name(self) -> &'static str {
        NAMES[self as usize]
    }
}

/// What each part compared, and what differed.
#[derive(Default)]
pub struct Tally {
    compared: [u64; NAMES.len()],
    differences: [u64; NAMES.len()],
}

impl Tally {
    /// One comparison; `what` says what differs where it does not hold. Only the first differences are printed.
    pub fn check(&mut self, part: Part, holds: bool, what: impl FnOnce() -> String) {
        self.compared[part as usize] += 1;
        if !holds {
            self.differences[part as usize] += 1;
            if self.differences() <= 10 {
                println!("DIFFERENCE ({}): {}", part.name(), what());
            }
        }
    }

    pub fn compared(&self, part: Part) -> u64 {
        self.compared[part as usize]
    }

    pub fn differences(&self) -> u64 {
        self.differences.iter().sum()
    }

    /// Prints the table; whether each part compared something and nothing differed.
    pub fn closed(&self) -> bool {
        println!("{:<16} {:>12} {:>12}", "part", "compared", "differences");
        for (name, (compared, differences)) in NAMES.iter().zip(self.compared.iter().zip(self.differences)) {
            let nothing = if *compared == 0 { "   NOTHING COMPARED" } else { "" };
            println!("  {name:<14} {compared:>12} {differences:>12}{nothing}");
        }
        self.differences() == 0 && self.compared.iter().all(|compared| *compared > 0)
    }
}
