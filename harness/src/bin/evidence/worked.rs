//! The figures of group W, typed here by hand: model, library, C files and wrapper are held to them. Those for runners
//! are in runners.rs, those for the board in board.rs.

mod board;
mod runners;

use crate::compare::Comparison;
use crate::parts::Part;
use harness::boundary::{Call, Lent};
use harness::lists::of_draft;
use harness::model::Lists;
use harness::pairs;
use harness::random::Random;
use harness::sheets::{chain, Draft, CLOSED, FREE, HELD};

/// A course with its north values; bend numbers of north; ticks with the place's north.
pub type Worked = (Draft, &'static [i64], &'static [(u64, i64)]);

/// W1 to W9, W16.
pub fn courses() -> Vec<Worked> {
    vec![
        (Draft::of(FREE, &[2, 2], &[0, 8, 0], None), &[0, -65_536, 0], &[(0, 0), (1, 6), (2, 8), (3, 6), (4, 0)]),
        (Draft::of(FREE, &[2, 2], &[0, -8, 0], None), &[0, 65_536, 0], &[(1, -6)]),
        (Draft::of(FREE, &[1, 1, 1], &[0, 1, 0, 0], None), &[0, -39_322, 26_215, 0], &[]),
        (Draft::of(FREE, &[1, 2], &[0, 0, 6], None), &[0, 32_768, 0], &[(2, 2)]),
        (Draft::of(HELD, &[4], &[0, 16], Some([0, 0])), &[65_536, -65_536], &[(1, 3), (2, 8)]),
        (Draft::of(HELD, &[4], &[0, 16], Some([4, 4])), &[0, 0], &[(1, 4)]),
        (square(), &[0, -49_152, 0, 49_152], &[(1, 4), (7, -4), (18_446_744_073_709_551_615, -4)]),
        (Draft::of(FREE, &[5], &[3, -4], None), &[0, 0], &[]),
        // W16: a course, its mirror image, and the image with the slopes as they were, which is none
        (Draft::of(HELD, &[4], &[0, 16], Some([8, 8])), &[-65_536, 65_536], &[(1, 6), (2, 8), (3, 11)]),
        (Draft::of(HELD, &[4], &[0, -16], Some([-8, -8])), &[65_536, -65_536], &[(1, -6), (2, -8), (3, -11)]),
        (Draft::of(HELD, &[4], &[0, -16], Some([8, 8])), &[-196_608, 196_608], &[]),
    ]
}

/// T5: course A with its three axes.
fn course_a() -> Draft {
    Draft { points: vec![[0, 10, 20], [8, 10, 22], [0, 10, 24]], ..Draft::of(FREE, &[2, 2], &[0; 3], None) }
}

/// W7: closed, four legs of 2 ticks.
fn square() -> Draft {
    Draft::of(CLOSED, &[2; 4], &[0, 6, 0, -6], None)
}

/// W10: sheets with what reading them answers.
fn read_or_refused() -> Vec<(Vec<u8>, u64)> {
    let pair = |leg, north| {
        let mut draft = Draft::of(FREE, &[leg], &[0, 0], None);
        draft.points[1][0] = north;
        draft.bytes()
    };
    let alike = |kind, n: usize, l| Draft::of(kind, &vec![1; l], &vec![0; n], if kind == HELD { Some([0, 0]) } else { None }).bytes();
    vec![
        (pair(256, 0), 0),
        (pair(257, 0), 6),
        (pair(0, 0), 6),
        (pair(1, 1_000_000), 0),
        (pair(1, 1_000_001), 7),
        (alike(FREE, 512, 511), 0),
        (alike(FREE, 513, 512), 4),
        (alike(HELD, 512, 511), 0),
        (alike(HELD, 513, 512), 4),
        (alike(CLOSED, 512, 512), 0),
        (alike(CLOSED, 2, 2), 4),
        (vec![], 1),
    ]
}

/// W14: the leg of a held course from the home post to a waypoint, its north, east and up, all six slopes, and the answer to reading its
/// sheet and to writing its lists.
const REACHES: [(u16, [i32; 3], i32, u64); 17] = [
    (1, [1_000_000, 0, 0], 0, 0),
    (1, [1_000_001, 0, 0], 0, 7),
    (1, [-1_000_000, 0, 0], 0, 0),
    (1, [-1_000_001, 0, 0], 0, 7),
    (1, [0, 1_000_000, 0], 0, 0),
    (1, [0, 1_000_001, 0], 0, 7),
    (1, [0, -1_000_000, 0], 0, 0),
    (1, [0, -1_000_001, 0], 0, 7),
    (1, [0, 0, 120_000], 0, 0),
    (1, [0, 0, 120_001], 0, 7),
    (1, [0, 0, -50_000], 0, 0),
    (1, [0, 0, -50_001], 0, 7),
    (1, [1_000_000, -1_000_000, 120_000], 5_000, 0),
    (1, [-1_000_000, 1_000_000, -50_000], -5_000, 0),
    // 6 before 7, 7 before 8
    (0, [0, 0, 120_001], 0, 6),
    (0, [0, 0, -50_001], 5_001, 6),
    (1, [0, 0, 120_001], 5_001, 7),
];

/// Compares a call, then what the model left with the figures.
fn expect(
    comparison: &mut Comparison,
    call: &Call,
    sheet: &[u8],
    before: &Lent,
    wanted: String,
    left: impl Fn(u64, &Lent) -> String,
) -> Lent {
    let (answer, after) = comparison.compare_both(call, sheet, before);
    comparison.compare_wrapper(call, sheet, before);
    let got = left(answer, &after);
    comparison.require(got == wanted, || format!("{call:?} has to be {wanted}, the model has {got}"));
    after
}

pub fn run(comparison: &mut Comparison) {
    comparison.part = Part::Worked;
    let lent = |list: Vec<i64>| Lent { list, words: vec![u64::MAX; 3], place: vec![i64::MAX; 3], ..Lent::default() };

    for (draft, bends, places) in courses() {
        let sheet = draft.bytes();
        let whole = [bends, bends, bends, &[77, 77]].concat();
        let before = lent(vec![77; whole.len()]);
        let laid_out = expect(comparison, &Call::LayOut, &sheet, &before, format!("0 {whole:?}"), |answer, after| {
            format!("{answer} {:?}", after.list)
        });
        for (tick, north) in places {
            let call = Call::PlaceAtTick { tick: *tick };
            expect(comparison, &call, &sheet, &laid_out, format!("0 {:?}", [north; 3]), place);
        }
    }

    // the courses of W do not tell 40 passes from 39 or 41; this one does
    let sheet = chain(&mut Random::new(1), 64, 60).bytes();
    comparison.compare(&Call::LayOut, &sheet, &lent(vec![77; 192]));

    // T5: course A whole, and W10's tick past its last
    let a = course_a().bytes();
    let (_, laid_out) = comparison.compare(&Call::LayOut, &a, &lent(vec![0; 9]));
    let wanted = ["0 [0, 10, 20]", "0 [6, 10, 21]", "0 [8, 10, 22]", "0 [6, 10, 23]", "0 [0, 10, 24]", "10 [-1, -1, -1]"];
    for (tick, wanted) in wanted.iter().enumerate() {
        let before = Lent { place: vec![-1; 3], ..laid_out.clone() };
        expect(comparison, &Call::PlaceAtTick { tick: tick as u64 }, &a, &before, wanted.to_string(), place);
    }
    refusals(comparison);
    reaching(comparison);
    writing(comparison);
    joining(comparison);
    runners::run(comparison);
    board::run(comparison);
    strokes_kept_and_cut(comparison);
    strokes_refused(comparison);
    println!("worked courses: {} comparisons with the figures of group W", comparison.tally.compared(Part::Worked));
}

/// An answer and the place that it leaves.
fn place(answer: u64, after: &Lent) -> String {
    format!("{answer} {:?}", after.place)
}

/// W10.
fn refusals(comparison: &mut Comparison) {
    let lent = Lent { words: vec![u64::MAX; 3], ..Lent::default() };
    for (sheet, wanted) in read_or_refused() {
        expect(comparison, &Call::Read, &sheet, &lent, wanted.to_string(), |answer, _| answer.to_string());
    }
}

/// W14: reading a sheet of 58 bytes, and writing it from its lists into 60.
fn reaching(comparison: &mut Comparison) {
    let before = Lent { words: vec![u64::MAX; 3], page: vec![0xee; 60], ..Lent::default() };
    for (leg, waypoint, slope, refusal) in REACHES {
        let mut draft = Draft::of(HELD, &[leg], &[0, 0], Some([slope, slope]));
        draft.points[1] = waypoint;
        let (sheet, call) = (draft.bytes(), Call::Write(of_draft(&draft)));
        let read = if refusal == 0 { "0 [1, 2, 1]".to_string() } else { format!("{refusal} {:?}", [u64::MAX; 3]) };
        expect(comparison, &Call::Read, &sheet, &before, read, |answer, after| format!("{answer} {:?}", after.words));
        let page = if refusal == 0 { format!("0 58 {}eeee", digits(&sheet)) } else { format!("{refusal} -1 {}", "ee".repeat(60)) };
        expect(comparison, &call, &[], &before, page, written_page);
    }
}

/// Bytes as digits.
fn digits(bytes: &[u8]) -> String {
    bytes.iter().map(|byte| format!("{byte:02x}")).collect()
}

/// An answer, the length that it leaves, and the page.
fn written_page(answer: u64, after: &Lent) -> String {
    format!("{answer} {} {}", after.words[0] as i64, digits(&after.page))
}

/// W12: course A from its lists; and lists at the edges of G3 and G4.
fn writing(comparison: &mut Comparison) {
    const SHEET: &str = "000000300100000300020002000000000000000a00000014000000080000000a00000016000000000000000a00000018";
    let a = [0, 10, 20, 8, 10, 22, 0, 10, 24];
    let mut written = |kind: u64, legs: &[u64], waypoints: &[i64], page: usize, wanted: &str| {
        let call = Call::Write(Lists { kind, legs: legs.to_vec(), waypoints: waypoints.to_vec(), slopes: vec![] });
        let before = Lent { words: vec![u64::MAX; 3], page: vec![0xee; page], ..Lent::default() };
        expect(comparison, &call, &[], &before, wanted.to_string(), written_page);
    };
    written(0, &[2, 2], &a, 48, &format!("0 48 {SHEET}"));
    written(0, &[2, 2], &a, 50, &format!("0 48 {SHEET}eeee"));
    written(0, &[2, 2], &a, 47, &format!("14 -1 {}", "ee".repeat(47)));
    written(0, &[2, 2], &[&a[..], &[0]].concat(), 2, "5 -1 eeee");
    written(0, &[2, 0], &a, 0, "6 -1 ");
    written(0, &[2, 65_537], &a, 2, "6 -1 eeee");
    written(0, &[2], &a[..5], 2, "4 -1 eeee");
    written(0, &[2; 511], &[0; 1_537], 2, "5 -1 eeee");
    written(0, &[2; 512], &[0; 1_539], 2, "4 -1 eeee");
    written(u64::MAX, &[2, 2], &a, 2, "3 -1 eeee");
}

/// One joining into a page of so many bytes; what it leaves.
fn joined(comparison: &mut Comparison, first: &[u8], second: &[u8], page: usize, wanted: &str) -> Lent {
    let before = Lent { words: vec![u64::MAX; 3], page: vec![0xee; page], ..Lent::default() };
    expect(comparison, &Call::Join(second.to_vec()), first, &before, wanted.to_string(), written_page)
}

/// W15: course A and one that starts where it ends; and the order of A13.
fn joining(comparison: &mut Comparison) {
    const SHEET: &str = "0000003e01000004000200020003000000000000000a00000014000000080000000a00000016000000000000000a00000018\
                         000000090000000a00000018";
    let from = |up: i32| Draft { points: vec![[0, 10, up], [9, 10, 24]], ..Draft::of(FREE, &[3], &[0; 2], None) };
    let held = |draft: Draft| Draft { kind: HELD, slopes: vec![0; 6], ..draft };
    let [a, held_a, onward, apart, held_apart, no_leg] =
        [course_a(), held(course_a()), from(24), from(25), held(from(25)), Draft { legs: vec![0], ..from(24) }].map(|draft| draft.bytes());
    let sheet = joined(comparison, &a, &onward, 62, &format!("0 62 {SHEET}")).page;
    joined(comparison, &a, &onward, 64, &format!("0 62 {SHEET}eeee"));
    joined(comparison, &a, &onward, 61, &format!("14 -1 {}", "ee".repeat(61)));
    joined(comparison, &onward, &a, 62, &format!("17 -1 {}", "ee".repeat(62)));
    let refused: [(&[u8], &[u8], u64); 8] = [
        (&a, &apart, 17),
        (&a, &held_apart, 16),
        (&held_a, &onward, 16),
        (&held_a, &no_leg, 6),
        (&a, &[], 1),
        (&held_a, &[], 1),
        (&no_leg, &[], 6),
        (&[], &no_leg, 1),
    ];
    for (first, second, number) in refused {
        joined(comparison, first, second, 2, &format!("{number} -1 eeee"));
    }
    let before = Lent { list: vec![0; 12], place: vec![-1; 3], ..Lent::default() };
    let (_, laid_out) = comparison.compare(&Call::LayOut, &sheet, &before);
    for (tick, wanted) in [(4, "0 [0, 10, 24]"), (7, "0 [9, 10, 24]")] {
        expect(comparison, &Call::PlaceAtTick { tick }, &sheet, &laid_out, wanted.to_string(), place);
    }
    most_joined(comparison);
}

/// W15: 300 waypoints with 213 and with 214, from a course of so many waypoints, cut at its waypoint 299.
fn most_joined(comparison: &mut Comparison) {
    let long = |n: u16| Draft::of(FREE, &(1..n).map(|i| 1 + i % 256).collect::<Vec<u16>>(), &(0..n.into()).collect::<Vec<i32>>(), None);
    let parts = |n: u16| pairs::cut(&long(n), 299).map(|part| part.bytes());
    let [first, second] = parts(512);
    joined(comparison, &first, &second, 7_174, &format!("0 7174 {}", digits(&long(512).bytes())));
    let [first, second] = parts(513);
    joined(comparison, &first, &second, 7_188, &format!("18 -1 {}", "ee".repeat(7_188)));
    // 18 before 14, 17 before 18
    joined(comparison, &first, &second, 2, "18 -1 eeee");
    joined(comparison, &second, &first, 2, "17 -1 eeee");
}

/// A sheet with its own bend numbers.
fn laid_out(comparison: &mut Comparison, draft: &Draft) -> (Vec<u8>, Vec<i64>) {
    let sheet = draft.bytes();
    let before = Lent { list: vec![0; 3 * draft.points.len()], ..Lent::default() };
    let (_, after) = comparison.compare(&Call::LayOut, &sheet, &before);
    (sheet, after.list)
}

/// Strokes into a list of so many places; the answer, how many ends (-1 where that does not come), and the list (77 where nothing came).
fn drawn(comparison: &mut Comparison, (sheet, list): (&[u8], &[i64]), tolerance: i64, places: usize, wanted: &str) {
    let before = Lent { list: list.to_vec(), words: vec![u64::MAX; 3], ends: vec![77; places], ..Lent::default() };
    let left = |answer, after: &Lent| format!("{answer} {} {:?}", after.words[0] as i64, after.ends);
    expect(comparison, &Call::Strokes { tolerance }, sheet, &before, wanted.to_string(), left);
}

/// W19, on north alone and on all three axes; in lists with a place more than the answer, as many, and P + 1.
fn strokes_kept_and_cut(comparison: &mut Comparison) {
    let north = |draft: Draft| Draft { points: draft.points.iter().map(|point| [point[0], 0, 0]).collect(), ..draft };
    let held = Draft::of(HELD, &[4], &[0, 16], Some([0, 0]));
    let arch = Draft::of(FREE, &[16, 16], &[0, 800, 0], None);
    let figures: [(Draft, i64, &[u64]); 7] = [
        (Draft::of(FREE, &[2, 2], &[0, 8, 0], None), 1, &[0, 1, 2, 3, 4]),
        (Draft::of(FREE, &[2, 2], &[0, 8, 0], None), 2, &[0, 2, 4]),
        (held.clone(), 1, &[0, 2, 3, 4]),
        (held, 2, &[0, 4]),
        (arch.clone(), 20, &[0, 8, 12, 16, 20, 24, 32]),
        (arch.clone(), 100, &[0, 8, 16, 24, 32]),
        (arch, 1_000, &[0, 16, 32]),
    ];
    for (draft, tolerance, ends) in figures {
        for draft in [north(draft.clone()), draft] {
            let (sheet, list) = laid_out(comparison, &draft);
            let ticks = draft.legs.iter().sum::<u16>();
            for places in [ends.len(), ends.len() + 1, usize::from(ticks) + 1] {
                let whole = [ends, &vec![77; places - ends.len()]].concat();
                drawn(comparison, (&sheet, &list), tolerance, places, &format!("0 {} {whole:?}", ends.len()));
            }
            drawn(comparison, (&sheet, &list), tolerance, ends.len() - 1, &format!("22 -1 {:?}", vec![77; ends.len() - 1]));
        }
    }
}

/// What course A's strokes are refused by, in A15's order, and the limits of 21; a bad number behind the course's own does not matter.
fn strokes_refused(comparison: &mut Comparison) {
    let (a, list) = laid_out(comparison, &course_a());
    let bad = |at: usize| (0..9).map(|i| if i == at { -(1 << 37) - 1 } else { list[i] }).collect::<Vec<i64>>();
    for (tolerance, wanted) in [(-1, "21 -1 [77, 77]"), (0, "22 -1 [77, 77]"), (1_000, "22 -1 [77, 77]"), (1_001, "21 -1 [77, 77]")] {
        drawn(comparison, (&a, &list), tolerance, 2, wanted);
    }
    for at in 0..9 {
        drawn(comparison, (&a, &bad(at)), 2, 2, "12 -1 [77, 77]");
        drawn(comparison, (&a, &bad(at)), 1_001, 5, "21 -1 [77, 77, 77, 77, 77]");
    }
    drawn(comparison, (&a, &[&list[..], &[i64::MIN]].concat()), 2, 4, "0 3 [0, 2, 4, 77]");
    drawn(comparison, (&a, &list[..8]), -1, 0, "9 -1 []");
    drawn(comparison, (&a[1..], &list[..8]), -1, 0, "1 -1 []");
}
