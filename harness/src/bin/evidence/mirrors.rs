//! Courses and their mirror images, laid out and flown by the library: on the mirrored axes bend numbers and places have the other sign, on
//! the others they are the same (L7, P6).

use crate::compare::Comparison;
use crate::parts::Part;
use crate::sheets::lent;
use harness::boundary::{Call, Memory, LIBRARY};
use harness::mirrors;
use harness::model::Runner;
use harness::random::Random;
use harness::sheets::{Draft, CLOSED};

/// A course with the axes that are mirrored; of it and of its image the sheet and the own bend numbers.
struct Pair {
    draft: Draft,
    axes: [bool; 3],
    sheets: [Vec<u8>; 2],
    lists: [Vec<i64>; 2],
}

/// With every fourth case a course and its image: all bend numbers, places at some ticks and of some runners.
pub fn run(random: &mut Random, comparison: &mut Comparison) {
    if comparison.case % 4 != 0 {
        return;
    }
    comparison.part = Part::Mirrored;
    let mut pair = laid_out(random, comparison);
    for _ in 0..8 {
        let tick = tick(random, &pair.draft);
        flown(comparison, &mut pair, &Call::PlaceAtTick { tick });
        let runner = runner(random, &pair.draft);
        flown(comparison, &mut pair, &Call::PlaceOfRunner { runner });
    }
}

/// Numbers of the three axes, as many of each, as the image has them.
fn image(numbers: &[i64], axes: [bool; 3]) -> Vec<i64> {
    let each = numbers.len() / 3;
    numbers.iter().enumerate().map(|(i, number)| if axes[i / each] { number.wrapping_neg() } else { *number }).collect()
}

/// L7: both are laid out, and the image's bend numbers are the course's, mirrored.
fn laid_out(random: &mut Random, comparison: &mut Comparison) -> Pair {
    let (draft, axes) = mirrors::mirrorable(random);
    let sheets = [draft.bytes(), mirrors::mirrored(&draft, axes).bytes()];
    let before = lent(random, 3 * draft.points.len(), 0, 0);
    let [first, second] = sheets.each_ref().map(|sheet| comparison.call(&LIBRARY, &Call::LayOut, sheet, &before));
    let (answers, lists) = ([first.0, second.0], [first.1.list, second.1.list]);
    comparison.require(answers == [0, 0] && lists[1] == image(&lists[0], axes), || {
        format!("{draft:?}\n  mirrored {axes:?}\n  laid out {answers:?}, bend numbers {lists:?}")
    });
    Pair { draft, axes, sheets, lists }
}

/// P6: both have a place there, and the image's is the course's, mirrored.
fn flown(comparison: &mut Comparison, pair: &mut Pair, call: &Call) {
    let (mut answers, mut places) = ([u64::MAX; 2], [[i64::MAX; 3]; 2]);
    for i in 0..2 {
        let memory = Memory { sheet: &pair.sheets[i], list: &mut pair.lists[i], place: &mut places[i], ..Memory::default() };
        answers[i] = call.by(&LIBRARY, memory);
    }
    comparison.require(answers == [0, 0] && places[1].to_vec() == image(&places[0], pair.axes), || {
        format!("{:?}\n  mirrored {:?}\n  {call:?}: {answers:?}, places {places:?}", pair.draft, pair.axes)
    });
}

/// A tick that the course has: a waypoint's, any from the first to the last, on a closed course any of 64 bits.
fn tick(random: &mut Random, draft: &Draft) -> u64 {
    let ticks = |legs: &[u16]| legs.iter().map(|leg| u64::from(*leg)).sum::<u64>();
    match random.below(4) {
        0 => ticks(&draft.legs[..random.below(draft.legs.len() + 1)]),
        1 if draft.kind == CLOSED => random.any_size(),
        _ => random.below(ticks(&draft.legs) as usize + 1) as u64,
    }
}

/// A runner that is not adrift (N11).
fn runner(random: &mut Random, draft: &Draft) -> Runner {
    let leg = random.below(draft.legs.len());
    let full = draft.kind != CLOSED && leg == draft.legs.len() - 1;
    let offset = random.below(usize::from(draft.legs[leg]) + usize::from(full));
    let laps = if draft.kind == CLOSED { random.any_size() } else { 0 };
    [leg as u64, offset as u64, laps]
}
