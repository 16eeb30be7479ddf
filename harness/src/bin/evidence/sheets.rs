//! Every call on random, boundary and damaged sheets.

use crate::compare::{Comparison, ALL};
use crate::parts::Part;
use crate::{drawings, fleets, joins, mirrors, writes, Options};
use harness::boundary::{Call, Lent, NAMES, STATION_CALLS, TESTS};
use harness::fence::Stand;
use harness::lists;
use harness::model::{Course, Kind, Reader, Runner, WORDS};
use harness::random::Random;
use harness::sheets;
use std::ops::Range;

pub fn run(options: &Options, comparison: &mut Comparison) {
    // these sheets have to reach every number themselves, whatever the worked ones reached
    (comparison.answers, comparison.without_room) = ([[0; WORDS.len()]; NAMES.len()], 0);
    let (stand, mut of_kind) = (comparison.stand, [0_u64; 3]);
    for case in options.first..options.first.saturating_add(options.cases) {
        comparison.case = case;
        let mut random = Random::of_case(options.seed, case);
        if !options.heap {
            comparison.stand = if random.once_in(4) { Stand::AfterFence } else { Stand::BeforeFence };
        }
        // the structs and the C files of the benchmark on every fourth sheet
        comparison.implementations = if case % 4 == 0 { &ALL } else { &ALL[..1] };
        let before = comparison.tally.differences();
        one_sheet(&mut random, comparison, &mut of_kind);
        if comparison.tally.differences() > before && before < 10 {
            println!("  (case {case} of seed {})", options.seed);
        }
    }
    (comparison.stand, comparison.implementations) = (stand, &ALL);
    let [free, held, closed] = of_kind;
    let accepted = free + held + closed;
    println!("sheets: {} compared on every call, {accepted} of them accepted (free {free}, held {held}, closed {closed})", options.cases);
    let all = options.cases >= 10_000;
    comparison.part = Part::Answers;
    for (kind, count) in Kind::ALL.iter().zip(of_kind) {
        comparison.require(!all || count > 0, || format!("no accepted sheet was {kind:?}"));
    }
    coverage(comparison, all);
}

/// One sheet on every call, and its lists, or those of another sheet where it is refused; a pair to join; and a sheet with its mirror image.
fn one_sheet(random: &mut Random, comparison: &mut Comparison, of_kind: &mut [u64; 3]) {
    comparison.part = Part::Calls;
    let sheet = match random.below(10) {
        0..=3 => sheets::accepted(random).bytes(),
        4..=6 => sheets::at_edges(random),
        _ => sheets::damaged(random),
    };
    let (lists, accepted) = match Reader::STATION.read(&sheet) {
        Ok(course) => {
            of_kind[course.kind as usize] += 1;
            on_accepted(random, comparison, &sheet, &course);
            (course.lists(), sheet)
        }
        Err(_) => {
            on_refused(random, comparison, &sheet);
            let draft = sheets::accepted(random);
            (lists::of_draft(&draft), draft.bytes())
        }
    };
    writes::run(random, comparison, &lists, &accepted);
    joins::run(random, comparison);
    mirrors::run(random, comparison);
}

/// What is lent, filled with numbers that a call must replace or leave.
pub fn lent(random: &mut Random, list: usize, words: usize, place: usize) -> Lent {
    Lent {
        list: (0..list).map(|_| random.word() as i64).collect(),
        words: (0..words).map(|_| random.word()).collect(),
        place: (0..place).map(|_| random.word() as i64).collect(),
        ..Lent::default()
    }
}

/// The length of a lent out: mostly what is needed, or more, or less.
pub fn room(random: &mut Random, needed: usize) -> usize {
    match random.below(8) {
        0 => random.below(needed),
        1 => needed + random.below(4),
        _ => needed,
    }
}

/// One call, and on every second sheet the same of the board; now and then by the wrapper. What the call itself leaves.
pub fn try_call(random: &mut Random, comparison: &mut Comparison, call: Call, sheet: &[u8], before: &Lent) -> Lent {
    let (_, after) = comparison.compare(&call, sheet, before);
    let on_board = call.on_board().filter(|_| comparison.case % 2 == 0);
    if let Some(call) = &on_board {
        comparison.compare(call, sheet, before);
    }
    if random.once_in(8) {
        for call in on_board.iter().chain([&call]) {
            comparison.compare_wrapper(call, sheet, before);
        }
    }
    after
}

/// Each call that gets one sheet once, strokes now and then, with anything lent.
fn on_refused(random: &mut Random, comparison: &mut Comparison, sheet: &[u8]) {
    let list = random.pick(&[0, 1, 6, 9, 40, 1536]);
    let (words, place, next) = (random.below(5), random.below(5), random.below(2));
    let before = Lent { next: vec![random.word(); next], ends: vec![random.word(); 2], ..lent(random, list, words, place) };
    let (tick, runner) = (random.any_size(), [(); 3].map(|()| random.any_size()));
    let calls = [
        Call::Read,
        Call::LayOut,
        Call::PlaceAtTick { tick },
        Call::PlaceOfRunner { runner },
        Call::RunnerAtTick { tick },
        Call::Step,
        Call::Back,
        Call::Round { turn: random.below(3) as u64 },
    ];
    for call in calls {
        try_call(random, comparison, call, sheet, &before);
    }
    if random.once_in(4) {
        let tolerance = random.between(-1, 1);
        try_call(random, comparison, Call::Strokes { tolerance }, sheet, &before);
    }
}

/// Every call with what fits the course, or nearly.
fn on_accepted(random: &mut Random, comparison: &mut Comparison, sheet: &[u8], course: &Course) {
    let words = room(random, 3);
    let before = lent(random, 0, words, 0);
    try_call(random, comparison, Call::Read, sheet, &before);

    // a list that has the places, maybe some more; and one that has not
    let need = 3 * course.n;
    let list = need + random.pick(&[0, 0, 1, 7]);
    let before = lent(random, list, 0, 0);
    let own = try_call(random, comparison, Call::LayOut, sheet, &before).list;
    if random.once_in(4) {
        let list = short(random, need);
        let before = lent(random, list, 0, 0);
        try_call(random, comparison, Call::LayOut, sheet, &before);
    }

    for _ in 0..3 {
        places(random, comparison, sheet, course, &own);
        runners(random, comparison, sheet, course);
        fleets::run(random, comparison, sheet, course, &own);
    }
    drawings::run(random, comparison, sheet, course, &own);
}

/// A place by tick and one by runner, with the sheet's own bend numbers or changed ones.
fn places(random: &mut Random, comparison: &mut Comparison, sheet: &[u8], course: &Course, own: &[i64]) {
    let need = 3 * course.n;
    let list = bend_list(random, own, need);
    let place = room(random, 3);
    let before = Lent { list, ..lent(random, 0, 0, place) };
    let tick = tick(random, course);
    try_call(random, comparison, Call::PlaceAtTick { tick }, sheet, &before);

    let list = bend_list(random, own, need);
    let place = room(random, 3);
    let before = Lent { list, ..lent(random, 0, 0, place) };
    let runner = runner(random, course);
    try_call(random, comparison, Call::PlaceOfRunner { runner }, sheet, &before);
}

/// A runner at a tick, a step, and a back.
fn runners(random: &mut Random, comparison: &mut Comparison, sheet: &[u8], course: &Course) {
    let words = room(random, 3);
    let before = lent(random, 0, words, 0);
    let tick = tick(random, course);
    try_call(random, comparison, Call::RunnerAtTick { tick }, sheet, &before);

    for call in [Call::Step, Call::Back] {
        let mut words = runner(random, course).to_vec();
        words.extend([random.word(), random.word()]);
        words.truncate(room(random, 3).min(5));
        let before = Lent { words, ..lent(random, 0, 0, 0) };
        try_call(random, comparison, call, sheet, &before);
    }
}

/// The length of a list that is too short.
fn short(random: &mut Random, need: usize) -> usize {
    let any = random.below(need);
    random.pick(&[0, need / 3, need - 1, any])
}

/// The sheet's own bend numbers, or changed ones: one at the limit or beyond it, all random, or too few.
pub fn bend_list(random: &mut Random, own: &[i64], need: usize) -> Vec<i64> {
    const LIMIT: i64 = 1 << 37;
    let mut list = own.to_vec();
    match random.below(8) {
        0 => list.truncate(short(random, need)),
        1 | 2 => {
            for _ in 0..random.pick(&[1, 2, need]) {
                let near = LIMIT + random.between(-1, 1);
                let far = random.word() as i64;
                list[random.below(need)] = random.pick(&[near, -near, near, -near, i64::MIN, i64::MAX, far]);
            }
        }
        3 => list.iter_mut().for_each(|bend| *bend = random.between(-LIMIT, LIMIT)),
        4 => list.iter_mut().for_each(|bend| *bend = random.pick(&[-LIMIT, LIMIT])),
        _ => {}
    }
    list
}

/// A tick on the course, at a waypoint or beside one, past the end, or far.
fn tick(random: &mut Random, course: &Course) -> u64 {
    let ticks = course.ticks() as u64;
    let waypoint: i128 = course.legs[..random.below(course.legs.len() + 1)].iter().sum();
    match random.below(10) {
        0 => random.pick(&[0, 1, ticks - 1, ticks, ticks + 1, 2 * ticks]),
        1 | 2 => (waypoint as u64).wrapping_add_signed(random.between(-1, 1)),
        3 => random.any_size(),
        4 => u64::MAX - random.below(3) as u64,
        5 => (u64::MAX / ticks).wrapping_mul(ticks).wrapping_add_signed(random.between(-2, 2)),
        _ => random.below(ticks as usize + 1) as u64,
    }
}

/// Laps: on an open course mostly none, since any are adrift; on a closed one few, the most, nearly the most, or any.
pub fn laps(random: &mut Random, course: &Course) -> u64 {
    if !course.closed() && !random.once_in(12) {
        return 0;
    }
    match random.below(8) {
        0 => u64::MAX,
        1 => u64::MAX - random.below(3) as u64,
        2 => 1 << random.below(64),
        3 => random.any_size(),
        _ => random.below(3) as u64,
    }
}

/// A runner that fits, or is at an end of its leg, or is adrift.
pub fn runner(random: &mut Random, course: &Course) -> Runner {
    let (l, laps) = (course.legs.len(), laps(random, course));
    let leg = match random.below(12) {
        0 => return [random.any_size(), random.any_size(), random.any_size()],
        1 => return [l as u64 + random.below(2) as u64, random.below(2) as u64, laps],
        2..=4 => l - 1,
        5 | 6 => 0,
        _ => random.below(l),
    };
    let h = course.legs[leg] as u64;
    let offset = match random.below(12) {
        0 => random.any_size(),
        1 => h + 1,
        2 => u64::MAX,
        3 | 4 => h,
        5 | 6 => h - 1,
        7 | 8 => 0,
        _ => random.below(h as usize) as u64,
    };
    [leg as u64, offset, laps]
}

/// How often each call of a range gave each number.
fn print_answers(comparison: &Comparison, of: &str, calls: Range<usize>) {
    let names: String = NAMES[calls.clone()].iter().map(|name| format!("{:>16}", name.trim_start_matches("board_"))).collect();
    println!("{of:<22}{names}");
    for (number, word) in WORDS.iter().enumerate() {
        let counts: String = comparison.answers[calls.clone()].iter().map(|counts| format!("{:>16}", counts[number])).collect();
        println!("  {number:>6} {:>14}{counts}", if number == 0 { "done" } else { word });
    }
}

/// Prints how often each call gave each number. In a run of some size each number that a call tests must have been reached, by a joining 1
/// to 8 for either sheet; no other may.
fn coverage(comparison: &mut Comparison, all: bool) {
    print_answers(comparison, "answers:", 0..STATION_CALLS);
    print_answers(comparison, "answers of the board:", STATION_CALLS..NAMES.len());
    println!("  {} of these calls were done but lacked room for the results", comparison.without_room);
    if !all {
        println!("  (with fewer than 10,000 cases not every number has to be reached)");
    }
    comparison.require(!all || comparison.without_room > 0, || "no call lacked room".to_string());
    for (index, tests) in TESTS.iter().enumerate() {
        for number in 0..WORDS.len() as u64 {
            let reached = comparison.answers[index][number as usize] > 0;
            let tested = number == 0 || tests.contains(&number);
            comparison.require(if all { reached == tested } else { tested || !reached }, || {
                format!("{} answered {number}: {reached}; it has to test that: {tested}", NAMES[index])
            });
        }
    }
    for (sheet, counts) in ["first", "second"].iter().zip(comparison.unjoined) {
        println!("  a joining was refused for its {sheet} sheet, by 1 to 8: {:?}", &counts[1..]);
        for (number, count) in counts.iter().enumerate().skip(1) {
            comparison.require(!all || *count > 0, || format!("no joining was refused by {number} for its {sheet} sheet"));
        }
    }
}
