//! One call by the model, by the library and by the C files, in memory with fences: equal answers, equal outputs, nothing else touched.

use crate::hit::{self, Doing};
use crate::parts::{Part, Tally};
use crate::wrapper::{self, Refusal, Six};
use harness::boundary::{Call, Calls, Lent, Memory, BASE, CAREFUL, HALF_FIRST, LIBRARY, NAMES, STRUCTS};
use harness::fence::{Fenced, Stand};
use harness::model::{Course, Lists, Reader, MOST_STROKE_ENDS, WORDS};
use harness::room::ROOM;

pub struct Comparison {
    pub tally: Tally,
    /// The part whose comparisons are made now, and the case of it, which a fence hit names.
    pub part: Part,
    pub case: u64,
    seed: u64,
    /// Calls that were compared with the model.
    pub calls: u64,
    /// Those of them that would have been done but lacked room for the results.
    pub without_room: u64,
    /// How often each call gave each answer, by [`Call::index`].
    pub answers: [[u64; WORDS.len()]; NAMES.len()],
    /// How often a joining was refused for its first sheet, and for its second, by number (1 to 8).
    pub unjoined: [[u64; 9]; 2],
    pub stand: Stand,
    /// The library, and with it its functions over structs and the C files or not.
    pub implementations: &'static [Calls],
    sheet: Fenced<u8>,
    second: Fenced<u8>,
    legs: Fenced<u64>,
    waypoints: Fenced<i64>,
    slopes: Fenced<i64>,
    list: Fenced<i64>,
    words: Fenced<u64>,
    place: Fenced<i64>,
    next: Fenced<u64>,
    ends: Fenced<u64>,
    page: Fenced<u8>,
}

pub const ALL: [Calls; 5] = [LIBRARY, STRUCTS, BASE, CAREFUL, HALF_FIRST];

/// The lists of a call that is not a writing.
static NO_LISTS: Lists = Lists { kind: 0, legs: vec![], waypoints: vec![], slopes: vec![] };

impl Comparison {
    pub fn new(seed: u64, stand: Stand) -> Comparison {
        Comparison {
            tally: Tally::default(),
            part: Part::Worked,
            case: 0,
            seed,
            calls: 0,
            without_room: 0,
            answers: [[0; WORDS.len()]; NAMES.len()],
            unjoined: [[0; 9]; 2],
            stand,
            implementations: &ALL,
            sheet: Fenced::new(1 << 20),
            second: Fenced::new(1 << 20),
            legs: Fenced::new(1 << 17),
            waypoints: Fenced::new(1 << 18),
            slopes: Fenced::new(64),
            list: Fenced::new(4096),
            words: Fenced::new(128),
            place: Fenced::new(64),
            next: Fenced::new(64),
            ends: Fenced::new(MOST_STROKE_ENDS + 64),
            page: Fenced::new(1 << 14),
        }
    }

    /// One comparison of the part that is on.
    pub fn require(&mut self, holds: bool, what: impl FnOnce() -> String) {
        self.tally.check(self.part, holds, what);
    }

    /// The course of a sheet that has to be accepted.
    pub fn course(&mut self, sheet: &[u8]) -> Option<Course> {
        let course = Reader::STATION.read(sheet);
        self.require(course.is_ok(), || format!("the model does not accept the sheet {}", hex(sheet)));
        course.ok()
    }

    /// One call by one implementation, in memory with fences.
    pub fn call(&mut self, calls: &Calls, call: &Call, sheet: &[u8], before: &Lent) -> (u64, Lent) {
        let lists = if let Call::Write(lists) = call { lists } else { &NO_LISTS };
        let other: &[u8] = if let Call::Join(second) = call { second } else { &[] };
        let lent_sheet: &[u8] = self.sheet.lend(sheet, self.stand);
        // a sheet that is joined with itself is lent once: the two may share their memory
        let second: &[u8] = if other == sheet { lent_sheet } else { self.second.lend(other, self.stand) };
        let legs: &[u64] = self.legs.lend(&lists.legs, self.stand);
        let waypoints: &[i64] = self.waypoints.lend(&lists.waypoints, self.stand);
        let slopes: &[i64] = self.slopes.lend(&lists.slopes, self.stand);
        let list = self.list.lend(&before.list, self.stand);
        let words = self.words.lend(&before.words, self.stand);
        let place = self.place.lend(&before.place, self.stand);
        let next = self.next.lend(&before.next, self.stand);
        let ends = self.ends.lend(&before.ends, self.stand);
        let page = self.page.lend(&before.page, self.stand);
        let doing = Doing { part: self.part.name(), seed: self.seed, case: self.case, implementation: calls.name, call, sheet };
        let memory = Memory { sheet: lent_sheet, second, legs, waypoints, slopes, list, words, place, next, ends, page };
        let answer = hit::watched(&doing, || call.by(calls, memory));
        let (list, words, place) = (list.to_vec(), words.to_vec(), place.to_vec());
        let after = Lent { list, words, place, next: next.to_vec(), ends: ends.to_vec(), page: page.to_vec() };
        let kept = lent_sheet == sheet && legs == lists.legs && waypoints == lists.waypoints && slopes == lists.slopes && second == other;
        self.tally.check(Part::Memory, kept, || format!("{} {call:?} wrote its lists or a sheet, of {}", calls.name, hex(sheet)));
        (answer, after)
    }

    /// Compares one call; the model's answer and what it leaves.
    pub fn compare(&mut self, call: &Call, sheet: &[u8], before: &Lent) -> (u64, Lent) {
        let mut after = before.clone();
        let answer = call.by_model(sheet, &mut after);
        self.answers[call.index()][answer as usize] += 1;
        self.calls += 1;
        self.without_room += u64::from([0, ROOM].contains(&answer) && call.lacks_room(before));
        for (i, calls) in self.implementations.iter().enumerate() {
            let got = self.call(calls, call, sheet, before);
            let part = match i {
                0 => self.part,
                1 => Part::Structs,
                _ => Part::CFiles,
            };
            let name = calls.name;
            self.tally.check(part, got.0 == answer && got.1 == after, || {
                let (sheet, number, left) = (hex(sheet), got.0, got.1);
                format!("{name} {call:?}\n  sheet {sheet}\n  lent {before:?}\n  model {answer} {after:?}\n  {name} {number} {left:?}")
            });
        }
        (answer, after)
    }

    /// Compares a call, and the same of the board where it has it; what the model says of the call itself.
    pub fn compare_both(&mut self, call: &Call, sheet: &[u8], before: &Lent) -> (u64, Lent) {
        if let Some(call) = call.on_board() {
            self.compare(&call, sheet, before);
        }
        self.compare(call, sheet, before)
    }

    /// Compares the Rust wrapper's answer to the same call; it always has room. A kind above 2 cannot be said there, nor numbers behind a
    /// fleet's last seat, and the next turn takes the turn's place.
    pub fn compare_wrapper(&mut self, call: &Call, sheet: &[u8], before: &Lent) {
        if let Call::Write(Lists { kind: 3.., .. }) = call {
            return;
        }
        let mut model = Lent { place: vec![0; 3], ..before.clone() };
        if let Call::Round { turn } = *call {
            model.words.truncate(before.words.len() / 3 * 3);
            model.next = vec![turn];
        } else {
            model.words.resize(3, 0);
        }
        let mut got = model.clone();
        let answer = match by_wrapper(call, sheet, &mut got) {
            Ok(()) => (0, ""),
            Err(refusal) => (refusal.number(), refusal.word()),
        };
        let number = call.by_model(sheet, &mut model);
        let wanted = (number, WORDS[number as usize]);
        self.tally.check(Part::Wrapper, answer == wanted && got == model, || {
            format!("{call:?} {answer:?} {got:?}\n  sheet {}\n  model {wanted:?} {model:?}", hex(sheet))
        });
    }
}

/// One call by the wrapper; its results go where the C boundary would write them.
fn by_wrapper(call: &Call, sheet: &[u8], lent: &mut Lent) -> Result<(), Refusal> {
    match *call {
        Call::Board(ref call) => by_wrapped_six(call, &wrapper::BOARD, sheet, lent),
        Call::Back => moved(sheet, &mut lent.words, wrapper::back),
        Call::Write(ref lists) => wrapper::write(lists, &mut lent.page).map(|length| lent.words[0] = length as u64),
        Call::Join(ref second) => wrapper::join(sheet, second, &mut lent.page).map(|length| lent.words[0] = length as u64),
        Call::Round { .. } => {
            wrapper::round(sheet, &lent.list, &mut lent.words, &mut lent.next[0]).map(|place| lent.place = place.to_vec())
        }
        Call::Strokes { tolerance } => {
            wrapper::strokes(sheet, &lent.list, tolerance, &mut lent.ends).map(|count| lent.words[0] = count as u64)
        }
        _ => by_wrapped_six(call, &wrapper::STATION, sheet, lent),
    }
}

/// One of the six calls that station and board both have, by the wrapper of one of the two.
fn by_wrapped_six(call: &Call, six: &Six, sheet: &[u8], lent: &mut Lent) -> Result<(), Refusal> {
    match *call {
        Call::Read => (six.read)(sheet).map(|course| lent.words.copy_from_slice(&course)),
        Call::LayOut => (six.lay_out)(sheet, &mut lent.list),
        Call::PlaceAtTick { tick } => (six.place_at_tick)(sheet, &lent.list, tick).map(|place| lent.place = place.to_vec()),
        Call::PlaceOfRunner { runner } => (six.place_of_runner)(sheet, &lent.list, runner).map(|place| lent.place = place.to_vec()),
        Call::RunnerAtTick { tick } => (six.runner_at_tick)(sheet, tick).map(|runner| lent.words.copy_from_slice(&runner)),
        Call::Step => moved(sheet, &mut lent.words, six.step),
        _ => panic!("only the station has {}", NAMES[call.index()]),
    }
}

/// A step or a back by the wrapper on a lent runner.
fn moved(sheet: &[u8], words: &mut [u64], by: fn(&[u8], &mut [u64; 3]) -> Result<(), Refusal>) -> Result<(), Refusal> {
    let mut runner = [words[0], words[1], words[2]];
    let answer = by(sheet, &mut runner);
    words.copy_from_slice(&runner);
    answer
}

/// A sheet's bytes, the first 400 of them.
pub fn hex(sheet: &[u8]) -> String {
    let digits: String = sheet.iter().take(400).map(|byte| format!("{byte:02x}")).collect();
    format!("({} bytes) {digits}{}", sheet.len(), if sheet.len() > 400 { ".." } else { "" })
}
