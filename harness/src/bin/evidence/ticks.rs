//! Ticks at every leg of courses with 1 to 512 legs (P3, P4, P7): the library's runners, and some of its places, against the model, and both
//! against legs, offsets and laps that are counted here, with the start of each leg summed anew, as are the board's runners up to its limit;
//! on mixed legs the careful C as well.

use crate::compare::{hex, Comparison};
use crate::parts::Part;
use crate::Options;
use harness::boundary::{Call, Calls, Memory, CAREFUL, LIBRARY};
use harness::model::{Course, Reader, Runner, BOARD, MOST_POINTS, PAST};
use harness::random::Random;
use harness::sheets::{self, CLOSED, FREE, HELD};

/// A tick with the runner that it names; none where the course has no such tick.
type Counted = (u64, Option<Runner>);

/// What was tried, how many of the runners were refused, and how many the board found.
#[derive(Default)]
struct Made {
    sheets: u64,
    runners: u64,
    places: u64,
    past: u64,
    board: u64,
}

/// A course, and any bend numbers that are not refused.
struct Tried {
    sheet: Vec<u8>,
    course: Course,
    list: Vec<i64>,
}

pub fn run(options: &Options, comparison: &mut Comparison) {
    let mut made = Made::default();
    // every count of legs, and so every remainder by sixteen; of the larger counts a small run leaves most out
    let most = (options.cases / 1_000).clamp(66, 510) as usize;
    for legs in (1..=most).chain([511, 512]) {
        comparison.case = legs as u64;
        let mut random = Random::of_case(options.seed ^ 5, legs as u64);
        let open = random.pick(&[FREE, HELD]);
        let kinds = [(open, legs + 1), (CLOSED, legs)];
        for (kind, n) in kinds.into_iter().filter(|(kind, n)| *n <= MOST_POINTS && (*kind != CLOSED || *n > 2)) {
            for alike in [None, Some(1), Some(256)] {
                comparison.part = Part::Ticks;
                let Some(mut tried) = Tried::new(&mut random, comparison, kind, n, alike) else { continue };
                tried.run(&mut random, comparison, &mut made, alike.is_none());
            }
        }
    }
    let Made { sheets, runners, places, past, board } = made;
    comparison.part = Part::Ticks;
    comparison.require(past > 0 && past < runners && places > 0 && board > 0, || {
        format!("{runners} runners, {past} of them past, {board} of the board, {places} places")
    });
    println!(
        "ticks: {sheets} sheets with 1 to {most}, 511 and 512 legs, at every leg its start, its last tick and one between, and the ends, on \
         closed ones also a lap later and in the last laps of 64 bits: {runners} runners compared, {past} of them past, \
         {board} found by the board too, and {places} places"
    );
}

impl Tried {
    /// A course with its legs mixed, or all of one length.
    fn new(random: &mut Random, comparison: &mut Comparison, kind: u8, n: usize, alike: Option<u16>) -> Option<Tried> {
        let mut draft = sheets::of_size(random, kind, n);
        for leg in &mut draft.legs {
            *leg = alike.unwrap_or_else(|| random.between(1, 256) as u16);
        }
        let sheet = draft.bytes();
        let course = comparison.course(&sheet)?;
        let list = (0..3 * n).map(|_| random.between(-(1 << 37), 1 << 37)).collect();
        Some(Tried { sheet, course, list })
    }

    /// All ticks that are counted; on mixed legs some places too, and the careful C.
    fn run(&mut self, random: &mut Random, comparison: &mut Comparison, made: &mut Made, mixed: bool) {
        made.sheets += 1;
        for counted in counted(random, &self.course) {
            self.runner(comparison, made, counted);
            if mixed {
                self.runner_in_c(comparison, counted);
            }
            if mixed && random.once_in(3) {
                self.place(comparison, counted.0);
                made.places += 1;
            }
        }
    }

    /// What a runner from a tick answers and leaves.
    fn asked(&self, calls: &Calls, call: &Call) -> (u64, Runner) {
        let mut words = UNTOUCHED;
        let answer = call.by(calls, Memory { sheet: &self.sheet, words: &mut words, ..Memory::default() });
        (answer, words)
    }

    /// The library's runner, and the model's, against the counted one.
    fn runner(&self, comparison: &mut Comparison, made: &mut Made, (tick, named): Counted) {
        let call = Call::RunnerAtTick { tick };
        let (got, wanted) = (self.asked(&LIBRARY, &call), answered(named));
        let model = self.course.runner(tick);
        comparison.require(got == wanted && model == named, || {
            format!("at tick {tick}: {got:?}, model {model:?}, counted {named:?}\n  sheet {}", hex(&self.sheet))
        });
        made.runners += 1;
        made.past += u64::from(got.0 == PAST);
        let Some(call) = call.on_board() else { return };
        let on_board = self.asked(&LIBRARY, &call);
        let wanted = if self.course.n > Reader::BOARD.most { (BOARD, UNTOUCHED) } else { wanted };
        comparison.require(on_board == wanted, || {
            format!("on the board at tick {tick}: {on_board:?}, not {wanted:?}\n  sheet {}", hex(&self.sheet))
        });
        made.board += u64::from(on_board.0 == 0);
    }

    /// The careful C's runner against the counted one.
    fn runner_in_c(&self, comparison: &mut Comparison, (tick, named): Counted) {
        let (got, wanted) = (self.asked(&CAREFUL, &Call::RunnerAtTick { tick }), answered(named));
        comparison.tally.check(Part::CFiles, got == wanted, || {
            format!("{} at tick {tick}: {got:?}, counted {named:?}\n  sheet {}", CAREFUL.name, hex(&self.sheet))
        });
    }

    /// The library's place against the model's.
    fn place(&mut self, comparison: &mut Comparison, tick: u64) {
        let mut place = [i64::MAX; 3];
        let memory = Memory { sheet: &self.sheet, list: &mut self.list, place: &mut place, ..Memory::default() };
        let answer = Call::PlaceAtTick { tick }.by(&LIBRARY, memory);
        let found = self.course.leg_and_offset(tick).ok_or(PAST).and_then(|(leg, offset)| self.course.place(&self.list, leg, offset));
        let wanted = found.map_or_else(|number| (number, [i64::MAX; 3]), |place| (0, place));
        comparison.require((answer, place) == wanted, || {
            format!("place at tick {tick}: {answer} {place:?}, model {wanted:?}\n  sheet {}", hex(&self.sheet))
        });
    }
}

/// What the out of a runner holds before the call.
const UNTOUCHED: Runner = [u64::MAX; 3];

/// The answer that is due, and what it leaves.
fn answered(named: Option<Runner>) -> (u64, Runner) {
    named.map_or((PAST, UNTOUCHED), |runner| (0, runner))
}

/// Of every leg its start, a tick on it, and its last tick, which is the one before the next leg's start and at the end P - 1. Then P, P + 1
/// and the largest tick on an open course; a closed one has them with a lap, and all of these once more in the last laps of 64 bits.
fn counted(random: &mut Random, course: &Course) -> Vec<Counted> {
    let legs: Vec<u64> = course.legs.iter().map(|leg| *leg as u64).collect();
    let mut counted: Vec<Counted> = vec![];
    for (leg, h) in legs.iter().enumerate() {
        let start: u64 = legs[..leg].iter().sum();
        let mut offsets = vec![0, random.below(*h as usize) as u64, h - 1];
        offsets.dedup();
        counted.extend(offsets.into_iter().map(|offset| (start + offset, Some([leg as u64, offset, 0]))));
    }
    let ticks: u64 = legs.iter().sum();
    if !course.closed() {
        let last = legs.len() - 1;
        counted.extend([(ticks, Some([last as u64, legs[last], 0])), (ticks + 1, None), (u64::MAX, None)]);
        return counted;
    }
    counted.push((1, Some(if legs[0] > 1 { [0, 1, 0] } else { [1, 0, 0] })));
    // the last lap of 64 bits is begun; where it does not reach the tick, the one before it does
    let most = u64::MAX / ticks;
    let last = |tick| if u64::MAX - most * ticks < tick { most - 1 } else { most };
    let on = |(tick, named): Counted, laps: u64| (laps * ticks + tick, named.map(|[leg, offset, _]| [leg, offset, laps]));
    counted.into_iter().flat_map(|first| [first, on(first, 1), on(first, last(first.0))]).collect()
}
