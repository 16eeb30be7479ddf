//! Strokes that the library draws on sheets of the three kinds, small ones and the longest, looked at one by one beside its own place at
//! every tick: their order and ends (H4), how far each is off (H5), whether each cut was needed (H6), and, on small sheets with their own
//! bend numbers, how far each is off the exact spline (H7). The same calls, and refused ones, are compared with the model and the C files.

use crate::compare::{hex, Comparison};
use crate::parts::Part;
use crate::{wrapper, Options};
use harness::boundary::{Call, Lent, Memory, LIBRARY};
use harness::exact::Spline;
use harness::model::{Course, BEND, GRAIN, INK, MOST_POINTS, MOST_TOLERANCE};
use harness::random::Random;
use harness::sheets::{self, Draft, CLOSED, FREE, HELD};

/// What was looked at.
#[derive(Default)]
struct Made {
    strokes: u64,
    /// Those of several ticks, and those of them that have a place just as far off as is allowed.
    long: u64,
    touching: u64,
    cuts: u64,
    /// The most cuts inside one another.
    deepest: u64,
    /// Ticks of strokes beside the exact spline, and the farthest one, beyond the tolerance.
    exact: u64,
    beyond: f64,
    /// Calls by their refusal.
    refused: [u64; 3],
}

/// A sheet's strokes by the library.
struct Drawn<'a> {
    sheet: &'a [u8],
    course: &'a Course,
    list: Vec<i64>,
    tolerance: i64,
    /// The library's place at every tick.
    places: Vec<[i64; 3]>,
    /// The ticks of all waypoints, and P.
    waypoints: Vec<usize>,
    ends: Vec<usize>,
}

/// What the list for the ends holds before a call.
const UNTOUCHED: u64 = u64::MAX;

/// The tolerances of the sheets with 512 waypoints, one after the other. A small run has the first, which cuts most.
const LONG_TOLERANCES: [i64; 3] = [0, 20, MOST_TOLERANCE];

pub fn run(options: &Options, comparison: &mut Comparison) {
    comparison.part = Part::Strokes;
    let (sheets, longest) = ((options.cases / 2_000).clamp(90, 500), (options.cases / 300_000).clamp(1, LONG_TOLERANCES.len() as u64));
    let mut made = Made::default();
    for case in 0..sheets + longest {
        comparison.case = case;
        let mut random = Random::of_case(options.seed ^ 7, case);
        let draft = if case < sheets { small(&mut random, case) } else { long(&mut random) };
        let sheet = draft.bytes();
        let Some(course) = comparison.course(&sheet) else { continue };
        let mut own = vec![0; 3 * course.n];
        let laid_out = wrapper::lay_out(&sheet, &mut own);
        comparison.require(laid_out.is_ok(), || format!("{laid_out:?}, not laid out: {}", hex(&sheet)));
        let list = if case < sheets && random.once_in(3) { any_bends(&mut random, own.len()) } else { own.clone() };
        let exact = list == own && course.n <= 6;
        let tolerance = if case < sheets { tolerance(&mut random) } else { LONG_TOLERANCES[(case - sheets) as usize] };
        let Some(drawn) = Drawn::new(comparison, &sheet, &course, list, tolerance) else { continue };
        if drawn.in_order(comparison) {
            drawn.legs(comparison, &mut made);
            if exact {
                drawn.beside_spline(comparison, &mut made);
            }
            drawn.compared(&mut random, comparison, &mut made);
        }
    }
    report(comparison, sheets, longest, &made);
}

/// Prints what was looked at; each of its counts has to be above 0, and some leg of 256 ticks cut as often as it can be.
fn report(comparison: &mut Comparison, sheets: u64, longest: u64, made: &Made) {
    let &Made { strokes, long, touching, cuts, deepest, exact, beyond, refused } = made;
    let reached = [strokes, long, touching, cuts, exact, refused[0], refused[1], refused[2]];
    comparison.require(!reached.contains(&0) && deepest == 8, || format!("not reached: {reached:?}, deepest cut {deepest}"));
    println!(
        "strokes: {sheets} sheets and {longest} with 512 waypoints, {strokes} strokes at every tick, {long} of them over several ticks, \
         {touching} with a place just as far off as allowed; {cuts} cuts, at most {deepest} inside one another; {exact} ticks beside the \
         exact spline, off by at most the tolerance and {beyond:.5} mm; refused by 21, 12, 22: {refused:?}"
    );
}

/// A sheet of any size; one with so few waypoints that its exact spline is at hand; one that is so flat that long stretches are kept.
fn small(random: &mut Random, case: u64) -> Draft {
    match case % 3 {
        0 => {
            let kind = random.pick(&[FREE, HELD, CLOSED]);
            let n = random.between(if kind == CLOSED { 3 } else { 2 }, 6) as usize;
            sheets::of_size(random, kind, n)
        }
        1 => sheets::accepted(random),
        _ => {
            let (mut draft, flat) = (sheets::accepted(random), random.pick(&[100, 1_000, 10_000]));
            draft.points.iter_mut().flatten().chain(&mut draft.slopes).for_each(|number| *number /= flat);
            draft
        }
    }
}

/// A closed course of 512 waypoints, with legs of 256 ticks on half of it and mixed ones behind them.
fn long(random: &mut Random) -> Draft {
    let mut draft = sheets::of_size(random, CLOSED, MOST_POINTS);
    for (i, leg) in draft.legs.iter_mut().enumerate() {
        *leg = if i < MOST_POINTS / 2 { 256 } else { random.between(1, 256) as u16 };
    }
    for point in &mut draft.points {
        *point = [0, 1, 2].map(|axis| sheets::within(random, axis));
    }
    draft
}

/// Bend numbers that nobody laid out, within the limits of 12.
fn any_bends(random: &mut Random, count: usize) -> Vec<i64> {
    let most = 1 << random.between(8, 37);
    (0..count).map(|_| random.between(-most, most)).collect()
}

/// A tolerance within the limits of 21.
fn tolerance(random: &mut Random) -> i64 {
    let (any, few) = (random.between(0, MOST_TOLERANCE), random.between(0, 20));
    random.pick(&[0, 1, few, few, 20, 100, any, MOST_TOLERANCE])
}

impl<'a> Drawn<'a> {
    /// The library's strokes into a list with room for the most, and its place at every tick.
    fn new(comparison: &mut Comparison, sheet: &'a [u8], course: &'a Course, mut list: Vec<i64>, tolerance: i64) -> Option<Drawn<'a>> {
        let ticks = course.ticks() as u64;
        let places: Result<Vec<[i64; 3]>, _> = (0..=ticks).map(|tick| wrapper::place_at_tick(sheet, &list, tick)).collect();
        comparison.require(places.is_ok(), || format!("a tick without a place: {}", hex(sheet)));
        let (mut ends, mut out) = (vec![UNTOUCHED; ticks as usize + 4], [UNTOUCHED]);
        let memory = Memory { sheet, list: &mut list, ends: &mut ends, words: &mut out, ..Memory::default() };
        let answer = Call::Strokes { tolerance }.by(&LIBRARY, memory);
        let count = ends.iter().take_while(|end| **end != UNTOUCHED).count();
        let kept = ends[count..].iter().all(|end| *end == UNTOUCHED);
        comparison.require(answer == 0 && out == [count as u64] && count as u64 <= ticks + 1 && kept, || {
            format!("{answer}, {out:?} of {count} ends on {ticks} ticks, those behind them kept: {kept}; {}", hex(sheet))
        });
        let ends = ends[..count].iter().map(|end| *end as usize).collect();
        let waypoints = (0..=course.legs.len()).map(|leg| course.legs[..leg].iter().sum::<i128>() as usize).collect();
        Some(Drawn { sheet, course, list, tolerance, places: places.ok()?, waypoints, ends })
    }

    /// H4, H5: whether the ends rise from 0 to P, and every waypoint's tick is one of them.
    fn in_order(&self, comparison: &mut Comparison) -> bool {
        let (ends, last) = (&self.ends, self.places.len() - 1);
        let whole = ends.first() == Some(&0) && ends.last() == Some(&last);
        let rising = whole && ends.windows(2).all(|pair| pair[0] < pair[1]);
        comparison.require(rising, || format!("not rising from 0 to {last}: {ends:?}"));
        let missing = self.waypoints.iter().find(|tick| ends.binary_search(tick).is_err());
        comparison.require(missing.is_none(), || format!("no end at the waypoint of tick {missing:?}: {ends:?}"));
        rising && missing.is_none()
    }

    /// Whether an end lies between two ticks.
    fn is_cut(&self, first: usize, last: usize) -> bool {
        let next = self.ends.partition_point(|end| *end <= first);
        self.ends.get(next).is_some_and(|end| *end < last)
    }

    /// By how much, times the ticks between two of them, a place there is off the stroke from one to the other on some axis, at most.
    fn farthest(&self, first: usize, last: usize) -> i64 {
        let (m, from, to) = ((last - first) as i64, self.places[first], self.places[last]);
        let off = |u: i64, axis: usize| (m * (self.places[first + u as usize][axis] - from[axis]) - u * (to[axis] - from[axis])).abs();
        (0..=m).flat_map(|u| (0..3).map(move |axis| off(u, axis))).max().unwrap_or(0)
    }

    /// Each leg with its strokes and cuts.
    fn legs(&self, comparison: &mut Comparison, made: &mut Made) {
        for leg in self.waypoints.windows(2) {
            self.stretch(comparison, made, leg[0], leg[1], 0);
        }
    }

    /// A stretch between two ticks, inside so many cuts. Where an end lies in it, its middle is one, and it has a place outside the
    /// tolerance, or the cut was needless (H6); its halves are looked at likewise. Where none does, it is a stroke, and every place is within
    /// the tolerance (H5).
    fn stretch(&self, comparison: &mut Comparison, made: &mut Made, first: usize, last: usize, depth: u64) {
        let (farthest, allowed) = (self.farthest(first, last), self.tolerance * (last - first) as i64);
        let tell = |what: &str| format!("{first} to {last} at {} mm {what}, {farthest} of {allowed}: {}", self.tolerance, hex(self.sheet));
        made.deepest = made.deepest.max(depth);
        if !self.is_cut(first, last) {
            comparison.require(farthest <= allowed, || tell("is one stroke"));
            made.strokes += 1;
            made.long += u64::from(last > first + 1);
            made.touching += u64::from(last > first + 1 && farthest == allowed && allowed > 0);
            return;
        }
        let middle = first + (last - first) / 2;
        let at_middle = self.ends.binary_search(&middle).is_ok();
        comparison.require(at_middle && farthest > allowed && depth < 8, || tell("is cut"));
        made.cuts += 1;
        // where the middle is none of the ends, there is nothing to look at in the halves
        if at_middle {
            self.stretch(comparison, made, first, middle, depth + 1);
            self.stretch(comparison, made, middle, last, depth + 1);
        }
    }

    /// H7: at each tick of each stroke of the sheet's own bend numbers, how far the stroke is off the exact spline.
    fn beside_spline(&self, comparison: &mut Comparison, made: &mut Made) {
        for axis in 0..3 {
            let spline = Spline::of(self.course, axis);
            for stroke in self.ends.windows(2) {
                let leg = self.waypoints.partition_point(|tick| *tick <= stroke[0]) - 1;
                let [first, last] = [0, 1].map(|i| i128::from(self.places[stroke[i]][axis]));
                let (m, offset) = ((stroke[1] - stroke[0]) as i128, (stroke[0] - self.waypoints[leg]) as i128);
                for u in 0..=m {
                    let value = [m * first + u * (last - first), m];
                    let (off, within) = spline.distance_of(leg, offset + u, value, 2 * i128::from(self.tolerance) + 3);
                    made.exact += 1;
                    made.beyond = made.beyond.max(off - self.tolerance as f64);
                    comparison.require(within && off <= self.tolerance as f64 + 1.5 + 1e-6, || {
                        let (tolerance, sheet) = (self.tolerance, hex(self.sheet));
                        format!("{stroke:?} at {tolerance} mm, tick {u}, axis {axis}: off the spline by {off}, of {sheet}")
                    });
                }
            }
        }
    }

    /// The same call in lists of any length that will do, and refused ones, by all implementations; what they leave is the model's. A
    /// tolerance that is out of its range goes before a bad bend number, a bad bend number before a list that is too short (A15).
    fn compared(&self, random: &mut Random, comparison: &mut Comparison, made: &mut Made) {
        let (count, most, tolerance) = (self.ends.len(), self.places.len(), self.tolerance);
        let mut bad = self.list.clone();
        bad[random.below(self.list.len())] = random.pick(&[(1 << 37) + 1, -(1 << 37) - 1, i64::MIN, i64::MAX]);
        let no_tolerance = random.pick(&[-1, MOST_TOLERANCE + 1]);
        let tries = [
            (&self.list, tolerance, most, 0),
            (&self.list, tolerance, count, 0),
            (&self.list, tolerance, count - 1, INK),
            (&bad, tolerance, random.pick(&[0, most]), BEND),
            (&bad, no_tolerance, random.pick(&[0, most]), GRAIN),
        ];
        for (list, tolerance, length, due) in tries {
            let before = Lent { list: list.clone(), ends: vec![UNTOUCHED; length], words: vec![UNTOUCHED], ..Lent::default() };
            let (answer, _) = comparison.compare(&Call::Strokes { tolerance }, self.sheet, &before);
            comparison.require(answer == due, || format!("{answer} by the model, {due} is due; {}", hex(self.sheet)));
            made.refused.iter_mut().zip([GRAIN, BEND, INK]).for_each(|(made, number)| *made += u64::from(answer == number));
        }
    }
}
