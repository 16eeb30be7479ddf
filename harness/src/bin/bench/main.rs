//! The benchmark: the library's calls against plain C (c/base.c, gcc -O2) and C written with the same care (c/careful.c, gcc -O3), and
//! laying out plus evaluation against 004's own programs in C (c/pcuspl.c, gcc -O2). The careful C rounds as the library does, by the
//! remainder (F5), and in a second form by half the divisor, added first; calls that do not round are the same code in both. The board's
//! calls are timed against the same C with the board's limit, at its own largest N; there the second form is left out.
//!
//! Ratios are within one run: each comparison runs its candidates in turn, a short block of calls each, for many rounds, and takes each
//! candidate's quickest blocks. There are eight different sheets of each form (of the longest, 1,024 legs), so that no candidate learns one by heart.
//! harness/usage/bench lists the options. A busy machine blurs the ratios: it prints its load. One target is the request's: how the place at
//! the last tick grows with N (P7). All others are our own, and nobody asked for them. No test rests on any.

mod calls;
mod forms;

use calls::{At, Call, Work};
use forms::{board_forms, forms, Form};
use harness::boundary::{BASE, CAREFUL, HALF_FIRST, LIBRARY};
use harness::model::{MOST_SEATS, MOST_TOLERANCE};
use harness::options::Given;
use harness::pcuspl::Pcuspl;
use std::hint::black_box;
use std::ops::Range;
use std::time::Instant;

/// The most that a ratio may be, and whose target that is: the request's or ours.
#[derive(Clone, Copy)]
enum Target {
    Asked(f64),
    Own(f64),
}

/// N = 512 over N = 64, of the place at the last tick of an open course with legs alike (P7).
const ASKED_GROWTH: Target = Target::Asked(16.0);

const OVER_BASE: Target = Target::Own(0.95);
const OVER_CAREFUL: Target = Target::Own(1.05);
const PLACE_OVER_HALF_FIRST: Target = Target::Own(1.05);
const LAY_OUT_OVER_HALF_FIRST: Target = Target::Own(1.1);
const SMALL_OVER_BASE: Target = Target::Own(1.3);
const GROWTH: Target = Target::Own(8.5);

/// What growth is: the largest N of each reader over an eighth of it.
const STATION_GROWTH: &str = "N = 512 over N = 64";
const BOARD_GROWTH: &str = "board, N = 48 over 6";

/// A call's name, the call, and the library's nanoseconds where it was timed.
type Timed = (String, Call, Option<f64>);

/// Targets that were looked at, and those of them that were missed.
#[derive(Default)]
struct Count {
    looked_at: usize,
    missed: usize,
}

struct Bench {
    /// How long each comparison takes.
    seconds: f64,
    /// Only lines with this text are timed.
    only: String,
    asked: Count,
    own: Count,
}

/// Nanoseconds that one turn of calls on these sheets takes.
fn timed(work: &mut Work, sheets: Range<usize>, turns: usize) -> f64 {
    let start = Instant::now();
    for _ in 0..turns {
        for k in sheets.clone() {
            work(k);
        }
    }
    start.elapsed().as_nanos() as f64 / turns as f64
}

impl Bench {
    /// Nanoseconds per call of each candidate over all sheets. A block is one call on one sheet, or where calls are quick some 20
    /// microseconds of calls on all sheets in turn: short enough to fall between the interruptions of a busy machine.
    fn times(&self, candidates: &mut [Work], sheets: usize) -> Vec<f64> {
        let warm = (0..3).map(|_| timed(&mut candidates[0], 0..sheets, 1)).fold(f64::INFINITY, f64::min);
        let turns = (20_000.0 / warm) as usize;
        let size = if turns > 0 { sheets } else { 1 };
        let blocks: Vec<Range<usize>> = (0..sheets / size).map(|k| k * size..(k + 1) * size).collect();
        let mut best = vec![vec![f64::INFINITY; blocks.len()]; candidates.len()];
        let start = Instant::now();
        let mut round = 0;
        while round < 50 || start.elapsed().as_secs_f64() < self.seconds {
            for i in 0..candidates.len() {
                let i = (i + round) % candidates.len();
                for (block, best) in blocks.iter().zip(&mut best[i]) {
                    *best = best.min(timed(&mut candidates[i], block.clone(), turns.max(1)));
                }
            }
            round += 1;
        }
        best.iter().map(|blocks| blocks.iter().sum::<f64>() / sheets as f64).collect()
    }

    /// A ratio beside its target.
    fn ratio(&mut self, ratio: f64, target: Option<Target>) -> String {
        let (most, whose, count) = match target {
            None => return format!("{ratio:>7.3}{:18}", ""),
            Some(Target::Asked(most)) => (most, " asked", &mut self.asked),
            Some(Target::Own(most)) => (most, "", &mut self.own),
        };
        let missed = ratio.is_nan() || ratio > most;
        count.looked_at += 1;
        count.missed += usize::from(missed);
        format!("{ratio:>7.3} (<= {most:.2}{whose}) {:6}", if missed { "missed" } else { "ok" })
    }

    /// Times one call on one form of sheet and prints the line; the library's nanoseconds, none where the line is left out.
    fn call(&mut self, name: &str, form: &Form, call: Call) -> Option<f64> {
        let name = format!("{name}, {}", form.name);
        if !name.contains(&self.only) {
            return None;
        }
        let over_half_first = over_half_first(call).filter(|_| !form.board);
        let candidates = [&LIBRARY, &BASE, &CAREFUL, &HALF_FIRST];
        let candidates = &candidates[..if over_half_first.is_some() { 4 } else { 3 }];
        let mut works: Vec<Work> = candidates.iter().map(|calls| call.work(calls, form)).collect();
        let times = self.times(&mut works, form.sheets.len());
        let targets = match (form.board, form.n) {
            (false, 512) | (true, 48) => [Some(OVER_BASE), Some(OVER_CAREFUL), over_half_first],
            (_, 3) => [Some(SMALL_OVER_BASE), None, None],
            _ => [None; 3],
        };
        let ratios: Vec<String> = times[1..].iter().zip(targets).map(|(time, target)| self.ratio(times[0] / time, target)).collect();
        println!("{}", format!("{name:<46} {:>9.0} ns   {}", times[0], ratios.join(" ")).trim_end());
        Some(times[0])
    }

    /// How a call grows, where both were timed.
    fn growth(&mut self, of: &str, name: &str, target: Target, large: Option<f64>, small: Option<f64>) {
        self.over(&format!("{of}: {name}"), Some(target), large, small);
    }

    /// The same of several, each with its name, small and large.
    fn growths(&mut self, of: &str, times: Vec<(String, [Option<f64>; 2])>) {
        for (name, [small, large]) in times {
            self.growth(of, &name, GROWTH, large, small);
        }
    }

    /// One of the library's times over another, where both were timed.
    fn over(&mut self, name: &str, target: Option<Target>, large: Option<f64>, small: Option<f64>) {
        if let (Some(large), Some(small)) = (large, small) {
            let ratio = self.ratio(large / small, target);
            println!("{:<46} {:>12}   {}", name, "", ratio.trim_end());
        }
    }
}

/// The target over the careful C's second form, for the calls that round.
fn over_half_first(call: Call) -> Option<Target> {
    match call {
        Call::LayOut => Some(LAY_OUT_OVER_HALF_FIRST),
        Call::PlaceAt(_) | Call::PlaceOfRunner | Call::Round(_) => Some(PLACE_OVER_HALF_FIRST),
        _ => None,
    }
}

fn main() {
    let given = Given::new(include_str!("../../../usage/bench"));
    let seed = given.number("--seed").unwrap_or(1);
    let seconds = given.number("--milliseconds").unwrap_or(1500) as f64 / 1000.0;
    let only = given.text("--only").unwrap_or_default();
    let mut bench = Bench { seconds, only, asked: Count::default(), own: Count::default() };
    println!("bench: library {}, seed {seed}, {} s a comparison, quickest blocks of each candidate", harness::LIBRARY, bench.seconds);
    println!("machine: {}", machine());
    println!(
        "{:<46} {:>12}   {:<25} {:<25} .. half first   (in brackets: our own targets, but for the one that is asked)",
        "call", "library", "over plain C", "over careful C"
    );
    let (open, three, laid, longest) = forms(seed);
    time_calls(&mut bench, &open, &three, &laid, &longest);
    let (board_open, board_three, board_laid) = board_forms(seed);
    time_board(&mut bench, &board_open, &board_three, &board_laid);
    println!("against 004's PCUSPL and SEVAL in C (floats, nothing tested; no target): library over 004");
    for form in laid[..2].iter().flatten() {
        against_pcuspl(&bench, form);
    }
    let Bench { asked, own, .. } = bench;
    println!(
        "bench: {} of the request's targets missed, {} of our own ({} and {} looked at)",
        asked.missed, own.missed, asked.looked_at, own.looked_at
    );
}

/// The station's eleven calls on all forms, and how they grow.
fn time_calls(bench: &mut Bench, open: &[Form; 2], three: &Form, laid: &[[Form; 2]], longest: &[Form; 2]) {
    let ticks = [At::First, At::Middle, At::Last];
    let [small, large] = open;
    let [large, small] = [large, small].map(|form| time_form(bench, form, &ticks));
    time_form(bench, three, &[At::Last]);
    let one_seat = bench.call("round, 1 seat", &open[1], Call::Round(1));
    time_laps(bench, &laid[0][1]);
    let per_pass = time_laying_out(bench, three, laid);
    let strokes = time_strokes(bench, three, longest);
    for ((name, call, large), (_, _, small)) in large.into_iter().zip(small) {
        if let Call::PlaceAt(At::Last) = call {
            bench.growth(STATION_GROWTH, &name, ASKED_GROWTH, large, small);
        }
        if let Call::PlaceAt(_) | Call::RunnerAt(_) | Call::Write | Call::Join | Call::Round(_) = call {
            bench.growth(STATION_GROWTH, &name, GROWTH, large, small);
        }
        if let Call::Round(seats) = call {
            bench.over(&format!("{seats} seats over 1: round, N = 512"), None, large, one_seat);
        }
    }
    bench.growths(STATION_GROWTH, per_pass);
    bench.growths(STATION_GROWTH, strokes);
}

/// The board's six calls on its forms, and how they grow.
fn time_board(bench: &mut Bench, [small, large]: &[Form; 2], three: &Form, laid: &[[Form; 2]]) {
    let [large, small] = [large, small].map(|form| time_form(bench, form, &[At::First, At::Middle, At::Last]));
    time_form(bench, three, &[At::Last]);
    let per_pass = time_laying_out(bench, three, laid);
    for ((name, _, large), (_, _, small)) in large.into_iter().zip(small) {
        bench.growth(BOARD_GROWTH, &name, GROWTH, large, small);
    }
    bench.growths(BOARD_GROWTH, per_pass);
}

/// The calls of whom a form asks, but for laying out, places and runners at these ticks.
fn time_form(bench: &mut Bench, form: &Form, ticks: &[At]) -> Vec<Timed> {
    let at_ticks = |what: &str, call: fn(At) -> Call| -> Vec<(String, Call)> {
        ticks.iter().map(|at| (format!("{what} at {}", at.name()), call(*at))).collect()
    };
    let one = |name: &str, call: Call| vec![(name.to_string(), call)];
    let calls = [
        one("read", Call::Read),
        at_ticks("place", Call::PlaceAt),
        one("place of a runner", Call::PlaceOfRunner),
        at_ticks("runner", Call::RunnerAt),
        one("step", Call::Step(At::Middle)),
        one("back", Call::Back(At::Middle)),
        one("write", Call::Write),
        one("join", Call::Join),
        one(&format!("round, {MOST_SEATS} seats"), Call::Round(MOST_SEATS)),
    ];
    let timed = |(name, call): (String, Call)| {
        let time = bench.call(&name, form, call);
        (name, call, time)
    };
    calls.into_iter().flatten().filter(|(_, call)| !form.board || call.is_of_board()).map(timed).collect()
}

/// Laps on a closed course: where the laps of a tick are divided for (M10), and where one is added or taken off.
fn time_laps(bench: &mut Bench, closed: &Form) {
    bench.call(&format!("place at {}", At::LapsOn.name()), closed, Call::PlaceAt(At::LapsOn));
    bench.call(&format!("runner at {}", At::LapsOn.name()), closed, Call::RunnerAt(At::LapsOn));
    bench.call(&format!("step from {}", At::LapEnding.name()), closed, Call::Step(At::LapEnding));
    bench.call(&format!("back from {}", At::LapFlown.name()), closed, Call::Back(At::LapFlown));
}

/// Laying out on its forms; of those whose growth is asked for the name and the library's nanoseconds a pass, small and large. (Not of the
/// worst sheets: of both sizes 60 waypoints are the chain.)
fn time_laying_out(bench: &mut Bench, three: &Form, laid: &[[Form; 2]]) -> Vec<(String, [Option<f64>; 2])> {
    let mut per_pass = vec![];
    let mut timed = |form: &Form| {
        let time = bench.call(&format!("lay out ({:.1} passes)", form.passes), form, Call::LayOut);
        time.map(|time| time / form.passes)
    };
    for [small, large] in laid {
        let name = small.name.rsplit(", ").next().unwrap_or_default();
        let large = timed(large);
        per_pass.push((format!("lay out, a pass, {name}"), [timed(small), large]));
    }
    timed(three);
    per_pass.truncate(2);
    per_pass
}

/// Strokes at three tolerances on the longest courses; the name and the library's nanoseconds, small and large. One of them also into a list
/// in which they have to be counted, and on the smallest courses.
fn time_strokes(bench: &mut Bench, three: &Form, [small, large]: &[Form; 2]) -> Vec<(String, [Option<f64>; 2])> {
    let at = |tolerance| Call::Strokes { tolerance, counted: false };
    let timed = |tolerance| {
        let name = format!("strokes at {tolerance} mm");
        let large = bench.call(&name, large, at(tolerance));
        let small = bench.call(&name, small, at(tolerance));
        (name, [small, large])
    };
    let times = [0, 20, MOST_TOLERANCE].map(timed).into();
    bench.call("strokes at 20 mm, counted", large, Call::Strokes { tolerance: 20, counted: true });
    bench.call("strokes at 20 mm", three, at(20));
    times
}

/// The processor's name and the load, where Linux tells them.
fn machine() -> String {
    let read = |path: &str| std::fs::read_to_string(path).unwrap_or_default();
    let (processor, load) = (read("/proc/cpuinfo"), read("/proc/loadavg"));
    let name = processor.lines().find(|line| line.starts_with("model name")).and_then(|line| line.split(": ").nth(1));
    format!("{}, load {}", name.unwrap_or("unknown"), load.split(' ').next().unwrap_or("unknown"))
}

/// Laying out and then the places of some ticks, by the library and by 004's programs.
fn against_pcuspl(bench: &Bench, form: &Form) {
    for ticks in [0, 16, 1024] {
        let name = format!("lay out and {ticks} places, {}", form.name);
        if !name.contains(&bench.only) {
            continue;
        }
        let (mut list, mut place) = (vec![0; 3 * form.n], [0; 3]);
        let library: Work = Box::new(move |k| {
            let sheet = &form.sheets[k];
            // SAFETY: pointers and lengths of live slices that do not overlap.
            unsafe {
                (LIBRARY.station.lay_out)(sheet.as_ptr(), sheet.len(), list.as_mut_ptr(), list.len());
                for i in 0..ticks {
                    let tick = form.last[k] * i / ticks;
                    let (l, m) = (list.as_ptr(), list.len());
                    black_box((LIBRARY.station.place_at_tick)(sheet.as_ptr(), sheet.len(), l, m, tick, place.as_mut_ptr(), 3));
                }
            }
        });
        let mut record = Pcuspl::empty();
        let pcuspl: Work = Box::new(move |k| {
            record.lay_out(&form.sheets[k]);
            for i in 0..ticks {
                black_box(record.place(form.last[k] * i / ticks));
            }
        });
        let times = bench.times(&mut [library, pcuspl], 8);
        println!("{name:<46} {:>9.0} ns   {:>7.3}", times[0], times[0] / times[1]);
    }
}
