//! How far bend numbers and places are from the exact spline: by an elimination in floats on courses of all sizes, and in exact
//! arithmetic, from the spline's own properties, on small ones. A distance that is no number is within no limit.

use crate::compare::Comparison;
use crate::parts::Part;
use crate::worked::courses;
use crate::{wrapper, Options};
use harness::boundary::{Call, Lent, LIBRARY};
use harness::elimination;
use harness::exact::Spline;
use harness::model::Course;
use harness::pcuspl::Pcuspl;
use harness::random::Random;
use harness::sheets::{self, Draft, CLOSED, FREE, HELD};

/// L6, and C3 in millimetres.
const BEND_LIMIT: f64 = 1.125;
const PLACE_LIMIT: f64 = 1.5;

/// The largest distance seen; once it is no number it stays so.
#[derive(Clone, Copy, Default)]
pub struct Largest(f64);

impl Largest {
    fn see(&mut self, off: f64) {
        if off.is_nan() || off > self.0 {
            self.0 = off;
        }
    }

    /// The larger one of two.
    pub fn or(mut self, other: Largest) -> f64 {
        self.see(other.0);
        self.0
    }
}

/// The largest distances seen: of a bend number (in its own unit), of a place (in millimetres).
#[derive(Default)]
pub struct Distances {
    pub bend: Largest,
    pub place: Largest,
}

/// One distance, which has to be at most its limit.
fn near(comparison: &mut Comparison, largest: &mut Largest, off: f64, limit: f64, what: impl FnOnce() -> String) {
    largest.see(off);
    comparison.require(off <= limit, || format!("{} off by {off}, at most {limit} is allowed", what()));
}

/// The course of a sheet and the bend numbers that the library lays out for it.
fn laid_out(comparison: &mut Comparison, sheet: &[u8]) -> Option<(Course, Vec<i64>)> {
    let course = comparison.course(sheet)?;
    let before = Lent { list: vec![0; 3 * course.n], ..Lent::default() };
    let (answer, after) = comparison.call(&LIBRARY, &Call::LayOut, sheet, &before);
    comparison.require(answer == 0, || format!("an accepted sheet is not laid out: {answer}"));
    Some((course, after.list))
}

/// Bend numbers and places of the library against an elimination in floats, and on closed courses against 004's programs.
pub fn by_elimination(options: &Options, comparison: &mut Comparison) -> Distances {
    let worked = courses();
    let count = (options.cases / 25).max(worked.len() as u64);
    let (mut largest, mut pcuspl_off) = (Distances::default(), Largest::default());
    let mut pcuspl = Pcuspl::empty();
    for case in 0..count {
        comparison.case = case;
        let mut random = Random::of_case(options.seed ^ 1, case);
        let draft = worked.get(case as usize).map_or_else(|| generated(&mut random), |worked| worked.0.clone());
        let sheet = draft.bytes();
        comparison.part = Part::Bends;
        let Some((course, list)) = laid_out(comparison, &sheet) else { continue };
        if course.closed() {
            comparison.part = Part::Pcuspl;
            pcuspl.lay_out(&sheet);
            for _ in 0..20 {
                let tick = random.below(course.ticks() as usize) as u64;
                by_pcuspl(comparison, &mut pcuspl_off, &pcuspl, &sheet, &list, tick);
            }
        }
        for axis in 0..3 {
            on_axis(comparison, &mut largest, &mut random, &sheet, &course, &list, axis);
        }
    }
    let [bends, places, by_pcuspl] = [Part::Bends, Part::Places, Part::Pcuspl].map(|part| comparison.tally.compared(part));
    println!(
        "elimination in floats: {count} sheets, {bends} comparisons of bend numbers, off by at most {:.5} (limit 9/8 = 1.125), \
         {places} of places, by at most {:.5} mm (limit 1.5); 004's PCUSPL and SEVAL on the closed ones: {by_pcuspl} of places, by at most {:.5} mm",
        largest.bend.0, largest.place.0, pcuspl_off.0
    );
    largest
}

/// The place at one tick of a closed course against 004's programs.
fn by_pcuspl(comparison: &mut Comparison, largest: &mut Largest, pcuspl: &Pcuspl, sheet: &[u8], list: &[i64], tick: u64) {
    let place = wrapper::place_at_tick(sheet, list, tick).map(|place| place.map(|number| number as f64));
    let exact = pcuspl.place(tick);
    for axis in 0..3 {
        let off = place.map_or(f64::NAN, |place| (place[axis] - exact[axis]).abs());
        near(comparison, largest, off, PLACE_LIMIT, || format!("tick {tick}, axis {axis}, 004 {exact:?}, library {place:?}:"));
    }
}

/// All bend numbers of one axis and some places.
fn on_axis(
    comparison: &mut Comparison,
    largest: &mut Distances,
    random: &mut Random,
    sheet: &[u8],
    course: &Course,
    list: &[i64],
    axis: usize,
) {
    let bends = elimination::bends(course, axis);
    comparison.part = Part::Bends;
    for (i, bend) in bends.iter().enumerate() {
        let off = (list[axis * course.n + i] as f64 - 65_536.0 * bend).abs();
        near(comparison, &mut largest.bend, off, BEND_LIMIT, || format!("bend number {i}, axis {axis} of {course:?}:"));
    }
    comparison.part = Part::Places;
    for _ in 0..20 {
        let leg = random.below(course.legs.len());
        let h = course.legs[leg];
        let offset = if random.once_in(2) { h / 2 } else { random.below(h as usize) as i128 };
        let place = wrapper::place_of_runner(sheet, list, [leg as u64, offset as u64, 0]);
        let exact = elimination::place(course, axis, &bends, leg, offset);
        let off = place.map_or(f64::NAN, |place| (place[axis] as f64 - exact).abs());
        near(comparison, &mut largest.place, off, PLACE_LIMIT, || {
            format!("leg {leg}, offset {offset}, axis {axis}, {place:?}, {course:?}:")
        });
    }
}

fn generated(random: &mut Random) -> Draft {
    match random.below(8) {
        0 => tense(random),
        1 => {
            let kind = random.pick(&[FREE, HELD, CLOSED]);
            let n = random.between(100, 512) as usize;
            sheets::of_size(random, kind, n)
        }
        _ => sheets::accepted(random),
    }
}

/// A course that strains the bend numbers: short legs, values that turn between the limits, and steep slopes against the first step.
fn tense(random: &mut Random) -> Draft {
    let n = random.between(2, 12) as usize;
    let legs: Vec<u16> = (0..n - 1).map(|_| random.pick(&[1, 1, 2, 255, 256])).collect();
    let slopes = [random.pick(&[-5_000, 5_000]), random.pick(&[-5_000, 4_999])];
    let mut draft = Draft::of(HELD, &legs, &vec![0; n], Some(slopes));
    for (i, point) in draft.points.iter_mut().enumerate() {
        for (axis, value) in point.iter_mut().enumerate() {
            let ([least, most], inside) = (sheets::limits(axis), random.between(-3, 3).max(0) as i32);
            *value = [least + inside, most - inside][i % 2];
        }
    }
    draft
}

/// D3 in exact arithmetic on small courses of the three kinds in turn: the spline has its properties, every tick has its place, bend
/// numbers and places are within the limits.
pub fn by_exact_spline(options: &Options, comparison: &mut Comparison) -> Distances {
    let count = (options.cases / 500).max(3);
    let mut largest = Distances::default();
    for case in 0..count {
        comparison.case = case;
        let mut random = Random::of_case(options.seed ^ 2, case);
        let kind = [FREE, HELD, CLOSED][case as usize % 3];
        let n = random.between(if kind == CLOSED { 3 } else { 2 }, 6) as usize;
        let sheet = sheets::of_size(&mut random, kind, n).bytes();
        comparison.part = Part::ExactBends;
        let Some((course, list)) = laid_out(comparison, &sheet) else { continue };
        for axis in 0..3 {
            let spline = Spline::of(&course, axis);
            comparison.part = Part::Spline;
            comparison.require(spline.is_exact(&course, axis), || format!("not the exact spline: {course:?}"));
            comparison.part = Part::ExactBends;
            for i in 0..n {
                let (off, within) = spline.bend_distance(i, list[axis * n + i]);
                exactly(comparison, &mut largest.bend, off, within, BEND_LIMIT, || format!("bend number {i} of {course:?}"));
            }
            comparison.part = Part::ExactPlaces;
            places_of(comparison, &mut largest.place, &spline, &sheet, &course, &list, axis);
        }
    }
    let [splines, bends, places] = [Part::Spline, Part::ExactBends, Part::ExactPlaces].map(|part| comparison.tally.compared(part));
    println!(
        "exact spline: {count} small sheets, {splines} splines tested for their properties, {bends} comparisons of bend numbers, off by at \
         most {:.5}, {places} of places, by at most {:.5} mm",
        largest.bend.0, largest.place.0
    );
    largest
}

/// One distance that was tested exactly; its float is printed, so it has to be a number near the limit as well.
fn exactly(comparison: &mut Comparison, largest: &mut Largest, off: f64, within: bool, limit: f64, what: impl FnOnce() -> String) {
    largest.see(off);
    comparison.require(within && off <= limit + 1e-9, || format!("{} off by {off}, at most {limit} is allowed", what()));
}

/// Some 150 ticks of one axis against the exact spline.
fn places_of(
    comparison: &mut Comparison,
    largest: &mut Largest,
    spline: &Spline,
    sheet: &[u8],
    course: &Course,
    list: &[i64],
    axis: usize,
) {
    let ticks = course.ticks() as u64;
    for tick in (0..=ticks).step_by(ticks as usize / 150 + 1) {
        let place = wrapper::place_at_tick(sheet, list, tick);
        let (leg, offset) = course.leg_and_offset(tick).expect("a tick of the course");
        let (off, within) = place.map_or((f64::NAN, false), |place| spline.distance(leg, offset, place[axis]));
        exactly(comparison, largest, off, within, PLACE_LIMIT, || format!("tick {tick}: {place:?} of {course:?}"));
    }
}
