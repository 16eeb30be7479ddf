//! Sheets from lists: those of an accepted sheet, written and read again, and changed ones.

use crate::compare::{hex, Comparison};
use crate::parts::Part;
use crate::sheets::{lent, room, try_call};
use harness::boundary::{Call, Lent, LIBRARY};
use harness::lists;
use harness::model::Lists;
use harness::random::Random;

/// Writing from the lists of an accepted sheet, with changes and now and then as they are.
pub fn run(random: &mut Random, comparison: &mut Comparison, own: &Lists, sheet: &[u8]) {
    comparison.part = Part::RoundTrips;
    round_trip(random, comparison, own, sheet);
    comparison.part = Part::Calls;
    let changed = lists::changed(random, own);
    compare(random, comparison, changed);
    if random.once_in(3) {
        compare(random, comparison, own.clone());
    }
}

/// One writing by the model and by the others.
fn compare(random: &mut Random, comparison: &mut Comparison, lists: Lists) {
    let need = 8 + 2 * lists.legs.len() + 4 * (lists.waypoints.len() + lists.slopes.len());
    let before = lent_page(random, need);
    try_call(random, comparison, Call::Write(lists), &[], &before);
}

/// G5, G6: the library writes this very sheet from its lists, keeps what stands behind it in the page, and reads it again.
fn round_trip(random: &mut Random, comparison: &mut Comparison, own: &Lists, sheet: &[u8]) {
    let behind = random.below(4);
    let before = Lent { page: bytes(random, sheet.len() + behind), ..lent(random, 0, 1, 0) };
    let (answer, after) = comparison.call(&LIBRARY, &Call::Write(own.clone()), &[], &before);
    let (written, kept) = after.page.split_at(sheet.len());
    let good = answer == 0 && after.words == [sheet.len() as u64] && written == sheet && kept == &before.page[sheet.len()..];
    comparison.require(good, || {
        let (page, before) = (hex(&after.page), hex(&before.page));
        format!("{own:?}\n  sheet {}\n  page {before}\n  written {answer} {:?} {page}", hex(sheet), after.words)
    });
    let (answer, read) = comparison.call(&LIBRARY, &Call::Read, written, &lent(random, 0, 3, 0));
    let wanted = [own.kind, own.waypoints.len() as u64 / 3, own.legs.iter().sum()];
    comparison.require(answer == 0 && read.words == wanted, || {
        format!("{own:?}\n  written {}\n  read again: {answer} {:?}, not {wanted:?}", hex(written), read.words)
    });
}

/// A page for a sheet of so many bytes, long enough, longer, or too short; where that is more than any sheet has, of some such length. And
/// the out for the sheet's length, mostly with a place for it.
pub fn lent_page(random: &mut Random, need: usize) -> Lent {
    let words = room(random, 1);
    let lent = lent(random, 0, words, 0);
    let need = need.clamp(8, 8_000);
    let length = match random.below(8) {
        0 => random.pick(&[0, 7, need / 2, need - 1, need - 1]),
        1 | 2 => need + random.pick(&[1, 2, 40]),
        _ => need,
    };
    Lent { page: bytes(random, length), ..lent }
}

/// Bytes that a call must replace or leave.
pub fn bytes(random: &mut Random, length: usize) -> Vec<u8> {
    (0..length).map(|_| random.word() as u8).collect()
}
