//! Fleets of 1 to 33 seats on sheets of the three kinds, flown by the library round after round with the turn handed on as it came back.
//! Each seat is held to the model, to a runner of its own that is stepped and asked for its place, and to a count of the ticks that it has
//! flown (Q2, Q3, Q6, M11), and any k rounds in a row serve each seat once (Q5). Bend numbers go bad and are mended on the way.

use crate::compare::{hex, Comparison};
use crate::flown::Flown;
use crate::parts::Part;
use crate::sheets::laps;
use crate::{wrapper, Options};
use harness::boundary::{Call, Lent, Memory, LIBRARY};
use harness::model::{Course, Runner, ADRIFT, BEND, LANDED, MOST_SEATS, SEATS, SHELF, TORN, TURN};
use harness::random::Random;
use harness::sheets;

/// How many rounds there were, by their answers and by what was met.
#[derive(Default)]
struct Made {
    done: u64,
    adrift: u64,
    /// Adrift for nothing but laps on an open course.
    lapped: u64,
    landed: u64,
    bend: u64,
    /// Done, with a bad number at the leg just left; landed, with one at the last leg.
    left: u64,
    landed_first: u64,
    /// Done, to the first waypoint of a closed course; of these, with the most laps.
    over: u64,
    most_laps: u64,
    /// Refused with their number alone: of 33 seats, and others.
    too_many: u64,
    alone: u64,
    /// Made again with other seats beside this one.
    strangers: u64,
}

/// A seat as it is counted here.
struct Seat {
    /// A runner of its own.
    runner: Runner,
    /// The ticks that it has flown; none where it is adrift.
    flown: Option<Flown>,
    /// The round in which it was served last.
    last: Option<u64>,
}

/// What a round answers, and the place and the next turn that it leaves.
type Told = (u64, [i64; 3], [u64; 1]);

/// What place and next hold before a round.
const UNTOUCHED: ([i64; 3], [u64; 1]) = ([i64::MAX; 3], [u64::MAX]);

struct Flight<'a> {
    sheet: &'a [u8],
    course: &'a Course,
    own: Vec<i64>,
    list: Vec<i64>,
    seats: Vec<Seat>,
    fleet: Vec<u64>,
    turn: u64,
    rounds: u64,
}

pub fn run(options: &Options, comparison: &mut Comparison) {
    comparison.part = Part::Rounds;
    let flights = (options.cases / 1_000).clamp(66, 1_000);
    let mut made = Made::default();
    for case in 0..flights {
        comparison.case = case;
        let mut random = Random::of_case(options.seed ^ 6, case);
        let sheet = sheets::accepted(&mut random).bytes();
        let Some(course) = comparison.course(&sheet) else { continue };
        let k = 1 + case as usize % (MOST_SEATS + 1);
        let mut flight = Flight::new(&mut random, comparison, &sheet, &course, k);
        if k > MOST_SEATS {
            flight.crowded(comparison, &mut made);
        }
        for _ in 0..random.pick(&[10, 60, 300]) * flight.seats.len() + random.below(k) {
            flight.disturb(&mut random);
            flight.alone(&mut random, comparison, &mut made);
            flight.strangers(&mut random, comparison, &mut made);
            flight.round(comparison, &mut made);
        }
    }
    report(comparison, flights, &made);
}

/// Prints what was flown; each of its counts has to be above 0.
fn report(comparison: &mut Comparison, flights: u64, made: &Made) {
    let &Made { done, adrift, lapped, landed, bend, left, landed_first, over, most_laps, too_many, alone, strangers } = made;
    let reached = [done, adrift, lapped, landed, bend, left, landed_first, over, most_laps, too_many, alone, strangers];
    comparison.require(!reached.contains(&0), || format!("rounds that were not reached: {reached:?}"));
    println!(
        "rounds: {flights} fleets of 1 to 33 seats, {} rounds compared: {done} moved on ({over} to the first waypoint of a closed course, \
         {most_laps} of them with 2^64 - 1 laps, {left} off a leg with a bad bend number), {adrift} adrift, {lapped} more for laps on an \
         open course, {landed} landed ({landed_first} on a leg with a bad bend number), {bend} refused for a bend number; {too_many} of 33 \
         seats and {alone} more refused with their number alone; {strangers} made again beside other seats",
        done + adrift + lapped + landed + bend
    );
}

/// A seat's start: the first tick, one of the last ones, any, on a closed course with any laps; or a record that is adrift.
fn start(random: &mut Random, comparison: &mut Comparison, sheet: &[u8], course: &Course) -> Seat {
    let (legs, ticks) = (course.legs.len() as u64, course.ticks() as u64);
    let laps = laps(random, course);
    if random.once_in(8) {
        return Seat { runner: adrift(random, legs, laps), flown: None, last: None };
    }
    let last = if course.closed() { ticks - 1 } else { ticks };
    let (late, any) = (last - last.min(random.below(6) as u64), random.below(last as usize + 1) as u64);
    let flown = Flown::new(course, random.pick(&[0, late, late, any]), if course.closed() { laps } else { 0 });
    let runner = flown.runner(sheet);
    comparison.require(runner.is_ok(), || format!("no runner for {flown:?}: {runner:?}"));
    let [leg, offset, _] = runner.unwrap_or_default();
    // laps on an open course are adrift
    Seat { runner: [leg, offset, laps], flown: (laps == flown.laps()).then_some(flown), last: None }
}

/// A record that is adrift on any course of so many legs.
fn adrift(random: &mut Random, legs: u64, laps: u64) -> Runner {
    let far = random.any_size();
    random.pick(&[[legs, 0, laps], [0, 257, laps], [legs.saturating_add(far), far, laps], [u64::MAX; 3]])
}

impl<'a> Flight<'a> {
    fn new(random: &mut Random, comparison: &mut Comparison, sheet: &'a [u8], course: &'a Course, k: usize) -> Flight<'a> {
        let mut own = vec![0; 3 * course.n];
        let laid_out = wrapper::lay_out(sheet, &mut own);
        comparison.require(laid_out.is_ok(), || format!("{laid_out:?}, not laid out: {}", hex(sheet)));
        let seats: Vec<Seat> = (0..k).map(|_| start(random, comparison, sheet, course)).collect();
        let fleet = seats.iter().flat_map(|seat| seat.runner).collect();
        let turn = random.below(k) as u64;
        Flight { sheet, course, list: own.clone(), own, seats, fleet, turn, rounds: 0 }
    }

    /// The library's round of some fleet by the list that is lent now.
    fn told(&mut self, fleet: &mut [u64], turn: u64) -> Told {
        let (mut place, mut next) = UNTOUCHED;
        let memory =
            Memory { sheet: self.sheet, list: &mut self.list, words: fleet, place: &mut place, next: &mut next, ..Memory::default() };
        (Call::Round { turn }.by(&LIBRARY, memory), place, next)
    }

    /// N19: 33 seats are refused whosever turn it is, and nothing is written; then the last one goes.
    fn crowded(&mut self, comparison: &mut Comparison, made: &mut Made) {
        for turn in 0..=self.seats.len() as u64 {
            let mut fleet = self.fleet.clone();
            let got = self.told(&mut fleet, turn);
            let (place, next) = UNTOUCHED;
            comparison.require(got == (SEATS, place, next) && fleet == self.fleet, || format!("{turn} of 33: {got:?} {fleet:?}"));
            made.too_many += 1;
        }
        self.seats.pop();
        self.fleet.truncate(3 * self.seats.len());
        self.turn %= self.seats.len() as u64;
    }

    /// Now and then a bend number around the leg of the seat whose turn it is becomes bad, or all are as they were laid out.
    fn disturb(&mut self, random: &mut Random) {
        match random.below(12) {
            0 => {
                let leg = self.seats[self.turn as usize].runner[0].min(self.course.legs.len() as u64 - 1);
                let waypoint = (leg as usize + random.below(3)) % self.course.n;
                self.list[random.below(3) * self.course.n + waypoint] = random.pick(&[(1 << 37) + 1, -(1 << 37) - 1]);
            }
            1 | 2 => self.list.copy_from_slice(&self.own),
            _ => {}
        }
    }

    /// Now and then a round between two others that is refused with its number alone: a torn sheet, a list that is too short, no seat, a
    /// turn that no seat has. Nothing is written, and the flight goes on with its turn (Q3).
    fn alone(&mut self, random: &mut Random, comparison: &mut Comparison, made: &mut Made) {
        if !random.once_in(16) {
            return;
        }
        let (mut sheet, mut list, mut fleet) = (self.sheet, self.list.clone(), self.fleet.clone());
        let (mut turn, k, (mut place, mut next)) = (self.turn, self.seats.len() as u64, UNTOUCHED);
        let due = random.pick(&[TORN, SHELF, SEATS, TURN]);
        match due {
            TORN => sheet = &sheet[..sheet.len() - 1],
            SHELF => list.truncate(3 * self.course.n - 1),
            SEATS => fleet.truncate(random.below(3)),
            _ => turn = random.pick(&[k, k + 1, turn + (1 << 32), u64::MAX]),
        }
        let before = (list.clone(), fleet.clone(), place, next);
        let memory = Memory { sheet, list: &mut list, words: &mut fleet, place: &mut place, next: &mut next, ..Memory::default() };
        let answer = Call::Round { turn }.by(&LIBRARY, memory);
        let after = (list, fleet, place, next);
        comparison.require(answer == due && after == before, || format!("{answer}, due {due}; {after:?}, before {before:?}"));
        made.alone += 1;
    }

    /// Q4: now and then the round that comes next is made on a copy whose other seats have other records: the same is told, this seat's
    /// record becomes the same, and the others stay.
    fn strangers(&mut self, random: &mut Random, comparison: &mut Comparison, made: &mut Made) {
        if self.seats.len() < 2 || !random.once_in(8) {
            return;
        }
        let (seat, mut fleet) = (self.turn as usize, self.fleet.clone());
        let told = self.told(&mut fleet, self.turn);
        let mut others: Vec<u64> = self.fleet.iter().map(|_| random.any_size()).collect();
        let own = 3 * seat..3 * seat + 3;
        others[own.clone()].copy_from_slice(&self.fleet[own.clone()]);
        let mut wanted = others.clone();
        wanted[own.clone()].copy_from_slice(&fleet[own]);
        let got = self.told(&mut others, self.turn);
        comparison.require(got == told && others == wanted, || format!("seat {seat}: {got:?} {others:?}, not {told:?} {wanted:?}"));
        made.strangers += 1;
    }

    /// What is due by a runner of the seat's own: a step, then the place at which it stands.
    fn due(&mut self, seat: usize) -> (u64, [i64; 3], Runner) {
        let (before, (mut place, _)) = (self.seats[seat].runner, UNTOUCHED);
        let mut runner = before;
        let mut answer = Call::Step.by(&LIBRARY, Memory { sheet: self.sheet, words: &mut runner, ..Memory::default() });
        if answer == 0 {
            let memory = Memory { sheet: self.sheet, list: &mut self.list, place: &mut place, ..Memory::default() };
            answer = Call::PlaceOfRunner { runner }.by(&LIBRARY, memory);
        }
        (answer, place, if answer == 0 { runner } else { before })
    }

    /// One round of the flight, held to the model and to the seat's own runner.
    fn round(&mut self, comparison: &mut Comparison, made: &mut Made) {
        let (turn, seat, (place, next)) = (self.turn, self.turn as usize, UNTOUCHED);
        let (list, words) = (self.list.clone(), self.fleet.clone());
        let mut model = Lent { list, words, place: place.to_vec(), next: next.to_vec(), ..Lent::default() };
        let by_model = Call::Round { turn }.by_model(self.sheet, &mut model);
        let from = self.seats[seat].runner;
        let (answer, place, runner) = self.due(seat);
        self.seats[seat].runner = runner;
        let due = (answer, place, [(turn + 1) % self.seats.len() as u64]);
        let all: Vec<u64> = self.seats.iter().flat_map(|seat| seat.runner).collect();

        let mut fleet = std::mem::take(&mut self.fleet);
        let got = self.told(&mut fleet, turn);
        self.fleet = fleet;
        let as_modelled = (by_model, &model.place[..], &model.next[..], &model.words) == (got.0, &got.1[..], &got.2[..], &self.fleet);
        comparison.require(as_modelled && got == due && self.fleet == all, || {
            let (sheet, fleet) = (hex(self.sheet), &self.fleet);
            format!("seat {turn} from {from:?}: {got:?} {fleet:?}\n  due {due:?} {all:?}\n  model {by_model} {model:?}\n  sheet {sheet}")
        });
        self.counted(comparison, got.0, seat);
        self.tally(made, got.0, from, seat);
        // as it came back; where that is no seat's, the difference is told above
        self.turn = got.2[0].min(self.seats.len() as u64 - 1);
    }

    /// Q6, Q5: a round that moved the seat adds one to the ticks that it has flown, and it is the runner that has flown so many; the others
    /// leave it, and 11 and 13 are for a seat that is adrift or at the end. It was served last k rounds ago, or not yet.
    fn counted(&mut self, comparison: &mut Comparison, answer: u64, turn: usize) {
        let (k, round) = (self.seats.len() as u64, self.rounds);
        let seat = &mut self.seats[turn];
        let mut on = seat.flown;
        let due: &[u64] = match on.as_mut().map(Flown::on) {
            None => &[ADRIFT],
            Some(LANDED) => &[LANDED],
            Some(_) => &[0, BEND],
        };
        if answer == 0 {
            seat.flown = on;
        }
        let stands = [0, 1, 2].map(|number| self.fleet[3 * turn + number]);
        let named = seat.flown.map_or(Ok(stands), |flown| flown.runner(self.sheet));
        let in_turn = seat.last.map_or(round < k, |last| round - last == k);
        seat.last = Some(round);
        let flown = seat.flown;
        self.rounds += 1;
        comparison.require(due.contains(&answer) && named == Ok(stands) && in_turn, || {
            format!("round {round}, seat {turn} of {k}: {answer}, due {due:?}; {flown:?} {stands:?}, not {named:?}; in turn: {in_turn}")
        });
    }

    /// Counts the round, and whether a bad bend number that must not matter was met.
    fn tally(&self, made: &mut Made, answer: u64, from: Runner, seat: usize) {
        let leg = from[0] as usize;
        let bad = leg < self.course.legs.len() && self.course.place(&self.list, leg, 0) == Err(BEND);
        match answer {
            0 => {
                let [onto, offset, _] = self.seats[seat].runner;
                let over = self.course.closed() && [onto, offset] == [0, 0];
                made.done += 1;
                made.left += u64::from(onto != from[0] && bad);
                made.over += u64::from(over);
                made.most_laps += u64::from(over && from[2] == u64::MAX);
            }
            ADRIFT if self.course.fits([from[0], from[1], 0]) => made.lapped += 1,
            ADRIFT => made.adrift += 1,
            LANDED => {
                made.landed += 1;
                made.landed_first += u64::from(bad);
            }
            _ => made.bend += 1,
        }
    }
}
