//! W21: what the station and the board say of the same bytes.

use super::expect;
use crate::compare::Comparison;
use crate::parts::Part;
use harness::boundary::{Call, Lent};
use harness::sheets::{Draft, FREE};

/// The first eight bytes of a free course, and nothing behind them.
fn head(length: u8, version: u8, kind: u8, n: u16) -> Vec<u8> {
    [&[0, 0, 0, length, version, kind], &n.to_be_bytes()[..]].concat()
}

/// A free course with so many waypoints, its last leg of so many ticks, the others of one.
fn course(n: usize, last: u16) -> Vec<u8> {
    let mut legs = vec![1; n - 1];
    legs[n - 2] = last;
    Draft::of(FREE, &legs, &vec![0; n], None).bytes()
}

/// The bytes, the answer of the station, and the board's.
fn figures() -> Vec<(Vec<u8>, u64, u64)> {
    vec![
        (head(8, 1, 0, 1), 4, 4),
        (head(8, 1, 0, 48), 5, 5),
        (head(8, 1, 0, 49), 5, 23),
        (head(8, 1, 0, 512), 5, 23),
        (head(8, 1, 0, 513), 4, 4),
        (head(8, 2, 0, 49), 2, 2),
        (head(8, 1, 3, 49), 3, 3),
        (head(9, 1, 0, 49), 1, 1),
        (course(48, 1), 0, 0),
        (course(49, 1), 0, 23),
        (course(49, 0), 6, 23),
        (course(48, 0), 6, 6),
    ]
}

/// Each answer to reading is that of all six calls, since nothing else that is lent is at fault: a list of 147 numbers, a runner and the
/// tick at the start.
pub fn run(comparison: &mut Comparison) {
    comparison.part = Part::Worked;
    let runner = [0; 3];
    let before = Lent { list: vec![0; 147], words: runner.to_vec(), place: vec![77; 3], ..Lent::default() };
    let calls = [
        Call::Read,
        Call::LayOut,
        Call::PlaceAtTick { tick: 0 },
        Call::PlaceOfRunner { runner },
        Call::RunnerAtTick { tick: 0 },
        Call::Step,
    ];
    for (sheet, station, board) in figures() {
        for call in &calls {
            for (call, wanted) in [(Some(call.clone()), station), (call.on_board(), board)] {
                let Some(call) = call else { continue };
                expect(comparison, &call, &sheet, &before, wanted.to_string(), |answer, _| answer.to_string());
            }
        }
    }
}
