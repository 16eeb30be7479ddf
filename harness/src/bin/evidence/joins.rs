//! Pairs of sheets: joined by the library, read again, laid out and flown over every waypoint (J3, J4); and any pairs.

use crate::compare::{hex, Comparison};
use crate::parts::Part;
use crate::sheets::{lent, try_call};
use crate::writes::{bytes, lent_page};
use harness::boundary::{Call, Lent, Memory, LIBRARY};
use harness::model::Reader;
use harness::pairs;
use harness::random::Random;
use harness::sheets::Draft;

/// Any pair, and with every fourth case one that can be joined.
pub fn run(random: &mut Random, comparison: &mut Comparison) {
    if comparison.case % 4 == 0 {
        comparison.part = Part::Joined;
        let pair = pairs::joinable(random);
        joined(random, comparison, &pair);
    }
    comparison.part = Part::Calls;
    let [first, second] = pairs::any(random);
    match (Reader::STATION.read(&first), Reader::STATION.read(&second)) {
        (Err(number), _) => comparison.unjoined[0][number as usize] += 1,
        (_, Err(number)) => comparison.unjoined[1][number as usize] += 1,
        _ => {}
    }
    let before = lent_page(random, joined_length(&first, &second));
    try_call(random, comparison, Call::Join(second), &first, &before);
}

/// The bytes of two free sheets less a head and a waypoint, which they share once joined; of others some such length.
fn joined_length(first: &[u8], second: &[u8]) -> usize {
    (first.len() + second.len()).saturating_sub(8 + 12)
}

/// The library joins two that can be joined, into the model's bytes and no others, reads the joined sheet again and flies it.
fn joined(random: &mut Random, comparison: &mut Comparison, pair: &[Draft; 2]) {
    let [first, second] = pair.each_ref().map(Draft::bytes);
    let (length, behind) = (joined_length(&first, &second), random.below(4));
    let before = Lent { page: bytes(random, length + behind), ..lent(random, 0, 1, 0) };
    let call = Call::Join(second);
    let mut wanted = before.clone();
    let by_model = call.by_model(&first, &mut wanted);
    let (answer, after) = comparison.call(&LIBRARY, &call, &first, &before);
    comparison.require([answer, by_model] == [0, 0] && after.words == [length as u64] && after == wanted, || {
        let (first, page, wanted) = (hex(&first), hex(&after.page), hex(&wanted.page));
        format!("{call:?}\n  first {first}\n  joined {answer} {:?} {page}\n  by the model {by_model} {wanted}", after.words)
    });
    let sheet = &after.page[..length];
    read_again(random, comparison, pair, sheet);
    flown(random, comparison, pair, sheet);
}

/// J3: the joined sheet is read as a free one with all waypoints but the shared one's double, and all ticks.
fn read_again(random: &mut Random, comparison: &mut Comparison, pair: &[Draft; 2], sheet: &[u8]) {
    let n = pair.iter().map(|draft| draft.points.len() as u64).sum::<u64>() - 1;
    let ticks = pair.iter().flat_map(|draft| &draft.legs).map(|leg| u64::from(*leg)).sum();
    let (answer, read) = comparison.call(&LIBRARY, &Call::Read, sheet, &lent(random, 0, 3, 0));
    comparison.require(answer == 0 && read.words == [0, n, ticks], || {
        format!("{pair:?}\n  joined {}\n  read again: {answer} {:?}, not {:?}", hex(sheet), read.words, [0, n, ticks])
    });
}

/// J4: by the joined sheet's own bend numbers every waypoint of the two is met: the first's at their ticks, the second's later by the
/// first's P.
fn flown(random: &mut Random, comparison: &mut Comparison, pair: &[Draft; 2], sheet: &[u8]) {
    let need = 3 * pair.iter().map(|draft| draft.points.len()).sum::<usize>() - 3;
    let (answer, Lent { mut list, .. }) = comparison.call(&LIBRARY, &Call::LayOut, sheet, &lent(random, need, 0, 0));
    comparison.require(answer == 0, || format!("{pair:?}\n  joined {}\n  is not laid out: {answer}", hex(sheet)));
    let mut start = 0;
    for draft in pair {
        let mut tick = start;
        for (i, point) in draft.points.iter().enumerate() {
            let mut place = [i64::MAX; 3];
            let memory = Memory { sheet, list: &mut list, place: &mut place, ..Memory::default() };
            let answer = Call::PlaceAtTick { tick }.by(&LIBRARY, memory);
            comparison.require(answer == 0 && place == point.map(i64::from), || {
                format!("{pair:?}\n  joined {}\n  at tick {tick}: {answer} {place:?}, not waypoint {point:?}", hex(sheet))
            });
            tick += draft.legs.get(i).map_or(0, |leg| u64::from(*leg));
        }
        start = tick;
    }
}
