//! Evidence from outside the proofs: the station's library, and with it the C files of the benchmark and the Rust wrapper, against an
//! independent model of docs/REQUIREMENTS.md. harness/usage/evidence lists the options.
//!
//! Prints its seed and what each part compared. Ends with status 1 where anything differs, a distance is not within its limit, a
//! refusal was never reached, or a part compared nothing.

mod board;
mod compare;
mod distance;
mod drawings;
mod fleets;
mod flown;
mod header;
mod hit;
mod joins;
mod laps;
mod mirrors;
mod parts;
mod rounds;
mod sheets;
mod strokes;
mod ticks;
mod walks;
mod worked;
mod wrapper;
mod writes;
mod years;

use compare::Comparison;
use harness::fence::Stand;
use harness::options::{refuse, Given};
use parts::Part;
use std::time::{Instant, SystemTime, UNIX_EPOCH};

const USAGE: &str = include_str!("../../../usage/evidence");

/// With so many steps the runner on foot goes through all ten years.
pub const DEFAULT_STEPS: u64 = 20_000_000;

pub struct Options {
    pub seed: u64,
    /// How many sheets are compared on every call.
    pub cases: u64,
    /// The first of them.
    pub first: u64,
    /// How many steps, nearly, and how many backs are compared with the runner at the tick; those of the runner on foot are as many times
    /// more.
    pub steps: u64,
    /// Lend heap blocks in place of fenced memory (for valgrind).
    pub heap: bool,
}

fn options() -> Options {
    let given = Given::new(USAGE);
    if given.flag("--mutants") {
        refuse(USAGE, "--mutants is for ./evidence, and stands alone");
    }
    let clock = SystemTime::now().duration_since(UNIX_EPOCH).map_or(0, |time| time.as_nanos() as u64);
    Options {
        seed: given.number_or("--seed", clock),
        cases: given.number_or("--cases", 1_000_000),
        first: given.number_or("--first", 0),
        steps: given.number_or("--steps", DEFAULT_STEPS),
        heap: given.flag("--heap"),
    }
}

fn main() {
    let options = options();
    let start = Instant::now();
    println!("evidence: seed {}, library {}", options.seed, harness::LIBRARY);
    hit::watch();

    let mut comparison = Comparison::new(options.seed, if options.heap { Stand::Heap } else { Stand::BeforeFence });
    worked::run(&mut comparison);
    header::run(&mut comparison);
    sheets::run(&options, &mut comparison);
    let elimination = distance::by_elimination(&options, &mut comparison);
    let exact = distance::by_exact_spline(&options, &mut comparison);
    ticks::run(&options, &mut comparison);
    walks::run(&options, &mut comparison);
    laps::run(&options, &mut comparison);
    board::run(&options, &mut comparison);
    rounds::run(&options, &mut comparison);
    strokes::run(&options, &mut comparison);
    years::run(&options, &mut comparison);

    let passed = comparison.tally.closed();
    let moves = [Part::Steps, Part::Backs, Part::OpenEnds, Part::Walks, Part::OnFoot];
    let moves = moves.map(|part| comparison.tally.compared(part)).iter().sum::<u64>();
    println!(
        "evidence: {} sheets, {} calls, {moves} steps and backs, bend numbers off by {:.5} of at most 1.125, places by {:.5} mm of at \
         most 1.5: {} differences, seed {}, {:.0} s",
        options.cases,
        comparison.calls,
        elimination.bend.or(exact.bend),
        elimination.place.or(exact.place),
        comparison.tally.differences(),
        options.seed,
        start.elapsed().as_secs_f64()
    );
    if !passed {
        println!("evidence: FAILED");
        std::process::exit(1);
    }
}
