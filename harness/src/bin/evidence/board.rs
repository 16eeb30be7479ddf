//! The board beside the station (group B): sheets around its 48 waypoints and around the 512 of all sheets, of every kind of ends, sound and
//! with each fault that one of the six calls can be refused for. Both are held to the model, and the library's board to its station: up to 48
//! waypoints it answers alike and leaves the same (B3); beyond, it says 23 wherever the station comes past 4 (A16), and all that was lent
//! stays as it was.

use crate::compare::{hex, Comparison};
use crate::parts::Part;
use crate::Options;
use harness::boundary::{Call, Lent, Memory, LIBRARY};
use harness::model::{Kind, BOARD, LANDED, POINTS, TORN, WORDS};
use harness::random::Random;
use harness::sheets::{self, Draft, CLOSED, FREE, HELD};

/// B2, and N4's limit.
const MOST: u16 = 48;
const MOST_OF_ALL: u16 = 512;

/// B5.
const LONGEST: usize = 702;

/// The counts of waypoints that are tried.
const COUNTS: [usize; 9] = [1, 2, 47, 48, 49, 50, 511, 512, 513];

/// The numbers that a sheet is refused by for one of its fields; 0 is a sound one. (4 and 23 go with the counts.)
const FAULTS: [u64; 8] = [0, 1, 2, 3, 5, 6, 7, 8];

/// Sheets; calls asked of both by the station's number, those that the board answered alike, and those that it refused with 23; the longest
/// sheet that the board read; ticks flown by both.
#[derive(Default)]
struct Made {
    sheets: u64,
    alike: [u64; WORDS.len()],
    over: [u64; WORDS.len()],
    longest: usize,
    flown: u64,
}

pub fn run(options: &Options, comparison: &mut Comparison) {
    comparison.part = Part::Board;
    let mut made = Made::default();
    for case in 0..(options.cases / 50_000).clamp(2, 20) {
        comparison.case = case;
        let mut random = Random::of_case(options.seed ^ 8, case);
        for (n, kind) in COUNTS.iter().flat_map(|n| [FREE, HELD, CLOSED].map(|kind| (*n, kind))) {
            for fault in FAULTS.into_iter().filter(|fault| *fault != 8 || kind == HELD) {
                let draft = sheets::of_size(&mut random, kind, n);
                one_sheet(&mut random, comparison, &mut made, &draft, fault);
            }
        }
    }
    let Made { sheets, alike, over, longest, flown } = made;
    // the six have no number above 13, and 1 to 4 come before 23
    let wanted = |number: u64| (number <= LANDED, number <= LANDED && !(TORN..=POINTS).contains(&number));
    let reached = |number: u64| (alike[number as usize] > 0, over[number as usize] > 0);
    let missed: Vec<u64> = (0..WORDS.len() as u64).filter(|number| reached(*number) != wanted(*number)).collect();
    comparison.require(missed.is_empty(), || format!("the station's numbers {missed:?}: alike {alike:?}, over {over:?}"));
    comparison.require(longest == LONGEST && flown > 0, || format!("the board read up to {longest} bytes, and {flown} ticks were flown"));
    println!(
        "board: {sheets} sheets of 1 to 513 waypoints, {} calls answered by board and station alike, {} refused by the board alone; {flown} \
         ticks flown by both; the longest sheet that the board read has {longest} bytes",
        alike.iter().sum::<u64>(),
        over.iter().sum::<u64>()
    );
}

/// A draft's sheet with a fault, in all six calls; a sound one that the board reads is flown as well.
fn one_sheet(random: &mut Random, comparison: &mut Comparison, made: &mut Made, draft: &Draft, fault: u64) {
    let sheet = faulty(random, draft, fault);
    made.sheets += 1;
    for (call, before) in questions(random, draft) {
        ask(comparison, made, &sheet, &call, &before);
    }
    let least = Kind::ALL[usize::from(draft.kind)].least_points();
    if fault == 0 && draft.points.len() >= least && draft.n <= MOST {
        fly(comparison, made, &sheet, draft);
    }
}

/// A draft's sheet with one field that this number refuses.
fn faulty(random: &mut Random, draft: &Draft, fault: u64) -> Vec<u8> {
    let mut draft = draft.clone();
    match fault {
        2 => draft.version = random.pick(&[0, 2, 255]),
        6 if !draft.legs.is_empty() => {
            let leg = sheets::place_in(random, draft.legs.len());
            draft.legs[leg] = random.pick(&[0, 257, 65_535]);
        }
        7 => {
            let (waypoint, axis) = (sheets::place_in(random, draft.points.len()), random.below(3));
            let [least, most] = sheets::limits(axis);
            draft.points[waypoint][axis] = random.pick(&[least - 1, most + 1]);
        }
        8 => draft.slopes[random.below(6)] = random.pick(&[-5_001, 5_001]),
        _ => {}
    }
    let mut sheet = draft.bytes();
    match fault {
        1 => sheet.push(0),
        3 => sheet[5] = random.pick(&[3, 255]),
        5 => {
            sheet.resize(random.pick(&[8, sheet.len() - 1, sheet.len() + 1]), 0);
            sheets::mend(&mut sheet);
        }
        _ => {}
    }
    sheet
}

/// Each of the six with what it needs, with too little room, and with what it is refused by on a sheet that is read.
fn questions(random: &mut Random, draft: &Draft) -> Vec<(Call, Lent)> {
    let (need, l) = (3 * draft.points.len(), draft.legs.len() as u64);
    let ticks = draft.legs.iter().map(|leg| u64::from(*leg)).sum::<u64>();
    let end = [l.saturating_sub(1), u64::from(*draft.legs.last().unwrap_or(&1)), 0];
    let bends: Vec<i64> = (0..need + 2).map(|_| random.between(-(1 << 37), 1 << 37)).collect();
    let bad = vec![i64::MIN; need];
    let with = |list: &[i64], words: &[u64], place: usize| {
        let (list, words, place) = (list.to_vec(), words.to_vec(), vec![i64::MAX; place]);
        Lent { list, words, place, ..Lent::default() }
    };
    let mut all = vec![
        (Call::Read, with(&[], &[77; 3], 0)),
        (Call::Read, with(&[], &[77; 2], 0)),
        (Call::LayOut, with(&bends, &[], 0)),
        (Call::LayOut, with(&bends[..need - 1], &[], 0)),
        (Call::Step, with(&[], &[0, 0, 0, 77], 0)),
        (Call::Step, with(&[], &end, 0)),
        (Call::Step, with(&[], &[l, 0, 0], 0)),
        (Call::Step, with(&[], &[0, 0], 0)),
    ];
    for tick in [0, ticks, ticks + 1, random.below(ticks as usize + 1) as u64, random.any_size()] {
        all.push((Call::RunnerAtTick { tick }, with(&[], &[77; 3], 0)));
        all.push((Call::PlaceAtTick { tick }, with(&bends, &[], 3)));
    }
    let placed = [Call::PlaceAtTick { tick: 0 }, Call::PlaceOfRunner { runner: [0; 3] }];
    for call in placed {
        all.push((call.clone(), with(&bends, &[], 2)));
        all.push((call.clone(), with(&bends[..need - 1], &[], 3)));
        all.push((call, with(&bad, &[], 3)));
    }
    for runner in [[0; 3], end, [l, 0, 0]] {
        all.push((Call::PlaceOfRunner { runner }, with(&bends, &[], 3)));
    }
    all
}

/// N, where the sheet says it.
fn count(sheet: &[u8]) -> u16 {
    sheet.get(6..8).map_or(0, |bytes| u16::from_be_bytes([bytes[0], bytes[1]]))
}

/// The same of the board; every call here has it.
fn on_board(call: &Call) -> Call {
    call.on_board().expect("one of the six")
}

/// One call of both, by all implementations; then the library's board beside its station.
fn ask(comparison: &mut Comparison, made: &mut Made, sheet: &[u8], call: &Call, before: &Lent) {
    let board = on_board(call);
    for call in [call, &board] {
        comparison.compare(call, sheet, before);
        comparison.compare_wrapper(call, sheet, before);
    }
    let [station, got] = [call, &board].map(|call| comparison.call(&LIBRARY, call, sheet, before));
    let over = (MOST + 1..=MOST_OF_ALL).contains(&count(sheet)) && (station.0 == 0 || station.0 > POINTS);
    let wanted = if over { (BOARD, before.clone()) } else { station.clone() };
    comparison.require(got == wanted, || {
        format!("{call:?}, lent {before:?}\n  sheet {}\n  station {station:?}\n  board {got:?}, not {wanted:?}", hex(sheet))
    });
    let by_number = if got.0 == BOARD { &mut made.over } else { &mut made.alike };
    by_number[station.0 as usize] += 1;
    if let (Call::Read, 0) = (call, got.0) {
        made.longest = made.longest.max(sheet.len());
    }
}

/// The library's station and board, each with its own list and runner.
struct Flight<'a> {
    sheet: &'a [u8],
    lists: [Vec<i64>; 2],
    runners: [[u64; 3]; 2],
}

impl Flight<'_> {
    /// What both answer to a call, and the places that they leave.
    fn ask(&mut self, call: &Call) -> [(u64, [i64; 3]); 2] {
        let mut places = [[i64::MAX; 3]; 2];
        let mut answers = [u64::MAX; 2];
        for (i, call) in [call.clone(), on_board(call)].iter().enumerate() {
            let (list, words) = (&mut self.lists[i][..], &mut self.runners[i][..]);
            answers[i] = call.by(&LIBRARY, Memory { sheet: self.sheet, list, words, place: &mut places[i], ..Memory::default() });
        }
        [(answers[0], places[0]), (answers[1], places[1])]
    }
}

/// The whole course from its start, laid out and stepped by each of the two: runners and places are alike at every tick.
fn fly(comparison: &mut Comparison, made: &mut Made, sheet: &[u8], draft: &Draft) {
    let mut flight = Flight { sheet, lists: [vec![0; 3 * draft.points.len()], vec![1; 3 * draft.points.len()]], runners: [[0; 3]; 2] };
    let laid_out = flight.ask(&Call::LayOut).map(|(answer, _)| answer);
    let same = flight.lists[0] == flight.lists[1];
    comparison.require(laid_out == [0, 0] && same, || format!("laid out {laid_out:?} {:?}\n  sheet {}", flight.lists, hex(sheet)));
    for tick in 1..=draft.legs.iter().map(|leg| u64::from(*leg)).sum() {
        let [moved, board] = flight.ask(&Call::Step).map(|(answer, _)| answer);
        let runner = flight.runners[0];
        let by_runner = flight.ask(&Call::PlaceOfRunner { runner });
        let by_tick = flight.ask(&Call::PlaceAtTick { tick });
        let places = [by_runner, by_tick].concat();
        let alike = moved == 0 && board == 0 && flight.runners[1] == runner && places.iter().all(|place| *place == places[0]);
        comparison.require(alike && places[0].0 == 0, || {
            format!("tick {tick}: {moved}, {board}, {:?}, {places:?}\n  sheet {}", flight.runners, hex(sheet))
        });
        made.flown += 1;
    }
}
