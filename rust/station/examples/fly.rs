//! Flies a course with the station's library: worked course A (T5), written from its lists, or the sheet in a file, `fly FILE`.
//! It prints what `examples/fly.c` prints; harness/newcomers compares both with `examples/fly.expected`.

use station::{Course, EndKind, LONGEST_LIST, LONGEST_SHEET, Refusal, Runner};
use std::error::Error;
use std::io::Read;

/// What a call answered.
fn tell<T>(what: &str, answer: Result<T, Refusal>) {
    match answer {
        Ok(_) => println!("{what}: done"),
        Err(refusal) => println!("{what}: {refusal}"),
    }
}

/// Course A: two legs of 2 ticks, north, east and up of three waypoints, free ends and so no slopes (G1).
fn course_a() -> Result<Vec<u8>, Refusal> {
    let mut sheet = vec![0; LONGEST_SHEET];
    let length = station::write(EndKind::Free, &[2, 2], &[0, 10, 20, 8, 10, 22, 0, 10, 24], &[], &mut sheet)?;
    sheet.truncate(length);
    Ok(sheet)
}

/// The file's bytes, or one more than the longest sheet has, which is refused.
fn load(name: &str) -> std::io::Result<Vec<u8>> {
    let mut sheet = Vec::new();
    std::fs::File::open(name)?.take(LONGEST_SHEET as u64 + 1).read_to_end(&mut sheet)?;
    Ok(sheet)
}

/// Reads the sheet, lays it out into the list and prints one line for each tick (T2).
fn fly_by_tick(sheet: &[u8], list: &mut [i64]) -> Result<Course, Refusal> {
    let course = station::read(sheet)?;
    let kind = match course.kind {
        EndKind::Free => "free",
        EndKind::Held => "held",
        EndKind::Closed => "closed",
    };
    println!("{kind}: {} waypoints, {} ticks", course.waypoints, course.ticks);
    station::lay_out(sheet, list)?;
    println!("tick north east up");
    for tick in 0..=course.ticks {
        let place = station::place_at_tick(sheet, list, tick)?;
        println!("{tick} {} {} {}", place.north, place.east, place.up);
    }
    Ok(course)
}

/// The same places by a runner that is moved on from the first waypoint; counts the ticks at which both agree. On a closed course that is a
/// lap (M10).
fn fly_by_runner(sheet: &[u8], list: &[i64], course: &Course) -> Result<(Runner, u64), Refusal> {
    let mut runner = station::runner_at_tick(sheet, 0)?;
    let mut same = 0;
    for tick in 0..=course.ticks {
        if tick > 0 {
            station::step(sheet, &mut runner)?;
        }
        if station::place_of_runner(sheet, list, runner)? == station::place_at_tick(sheet, list, tick)? {
            same += 1;
        }
    }
    Ok((runner, same))
}

/// Where a runner stands.
fn tell_place(what: &str, sheet: &[u8], list: &[i64], runner: Runner) -> Result<(), Refusal> {
    let place = station::place_of_runner(sheet, list, runner)?;
    println!("{what}: {} {} {}", place.north, place.east, place.up);
    Ok(())
}

/// A gust took the drone off its way: it goes back by a tick and comes again, to where it was (M8).
fn come_again(sheet: &[u8], list: &[i64], runner: &mut Runner) -> Result<(), Refusal> {
    station::back(sheet, runner)?;
    tell_place("after a gust, back by a tick", sheet, list, *runner)?;
    station::step(sheet, runner)?;
    tell_place("and on again", sheet, list, *runner)
}

fn fly(sheet: &mut [u8]) -> Result<(), Refusal> {
    let mut list = [0; LONGEST_LIST];
    let course = fly_by_tick(sheet, &mut list)?;
    let (mut runner, same) = fly_by_runner(sheet, &list, &course)?;
    println!("by runner: {same} of {} places the same", course.ticks + 1);
    println!("laps flown: {}", runner.laps);
    come_again(sheet, &list, &mut runner)?;
    tell("one step more", station::step(sheet, &mut runner));
    tell("one tick more", station::place_at_tick(sheet, &list, course.ticks + 1));
    tell("back from the start", station::back(sheet, &mut Runner::default()));
    sheet[8..10].fill(0);
    tell("with a first leg of 0 ticks", station::read(sheet));
    Ok(())
}

fn main() -> Result<(), Box<dyn Error>> {
    let mut sheet = match std::env::args().nth(1) {
        Some(name) => load(&name)?,
        None => course_a()?,
    };
    if let Err(refusal) = fly(&mut sheet) {
        println!("the sheet: {refusal}");
        std::process::exit(1);
    }
    Ok(())
}
