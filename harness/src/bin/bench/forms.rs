//! The sheets that the benchmark's calls are timed on, eight of each form but the longest, with all that the calls take besides.

use harness::boundary::{Calls, Six};
use harness::model::{self, Kind, Lists, Reader, Runner};
use harness::pairs;
use harness::random::Random;
use harness::sheets::{self, Draft, CLOSED, FREE};

/// Sheets of one form with their bend numbers.
pub struct Form {
    pub name: String,
    pub n: usize,
    /// Whether the board is asked, and not the station.
    pub board: bool,
    pub sheets: Vec<Vec<u8>>,
    /// What the sheets are written from.
    pub sources: Vec<Lists>,
    /// What, joined, has the waypoints of each sheet: two free courses, cut at its middle waypoint.
    pub halves: Vec<[Vec<u8>; 2]>,
    pub lists: Vec<Vec<i64>>,
    /// P.
    pub ticks: Vec<u64>,
    /// The last tick: P on an open course, P - 1 on a closed one.
    pub last: Vec<u64>,
    /// A runner halfway round.
    pub runners: Vec<Runner>,
    /// Passes that laying out makes on the three axes together, on average over the sheets: to the first that changes nothing, or 40.
    pub passes: f64,
}

impl Form {
    fn new(name: &str, n: usize, count: usize, make: impl FnMut() -> Draft) -> Form {
        let drafts: Vec<Draft> = std::iter::repeat_with(make).take(count).collect();
        let mut form = Form {
            name: format!("N = {n}, {name}"),
            n,
            board: false,
            sheets: drafts.iter().map(Draft::bytes).collect(),
            sources: vec![],
            halves: drafts.iter().map(|draft| pairs::cut(draft, n / 2).map(|half| half.bytes())).collect(),
            lists: vec![],
            ticks: vec![],
            last: vec![],
            runners: vec![],
            passes: 0.0,
        };
        for k in 0..drafts.len() {
            form.fill(k);
        }
        for [first, second] in &form.halves {
            model::join(first, second, &mut vec![0; form.sheets[0].len()]).expect("two that can be joined");
        }
        form
    }

    /// The calls of whom is asked.
    pub fn six<'a>(&self, calls: &'a Calls) -> &'a Six {
        if self.board {
            &calls.board
        } else {
            &calls.station
        }
    }

    /// What belongs to the k-th sheet, by the model.
    fn fill(&mut self, k: usize) {
        let (sheet, n) = (&self.sheets[k], self.n);
        let course = Reader::STATION.read(sheet).expect("an accepted sheet");
        let mut list = vec![0; 3 * n];
        Reader::STATION.lay_out(sheet, &mut list).expect("an accepted sheet");
        self.sources.push(course.lists());
        self.lists.push(list);
        let ticks = course.ticks() as u64;
        self.ticks.push(ticks);
        self.last.push(ticks - u64::from(course.kind == Kind::Closed));
        self.runners.push(Reader::STATION.runner_at_tick(sheet, ticks / 2).expect("a tick of the course"));
        for axis in 0..3 {
            let rows = course.rows(axis);
            let mut z = vec![0; n];
            let unchanged = (1..=40).find(|_| !course.pass(&rows, &mut z));
            self.passes += f64::from(unchanged.unwrap_or(40)) / self.sheets.len() as f64;
        }
    }
}

/// Values spread over the whole range of each axis.
fn spread(random: &mut Random, kind: u8, n: usize, leg: impl Fn(&mut Random) -> u16) -> Draft {
    let l = if kind == CLOSED { n } else { n - 1 };
    let legs: Vec<u16> = (0..l).map(|_| leg(random)).collect();
    let mut draft = Draft::of(kind, &legs, &vec![0; n], None);
    for point in &mut draft.points {
        *point = [0, 1, 2].map(|axis| sheets::within(random, axis));
    }
    draft
}

/// Eight sheets with legs alike or mixed on closed courses, on open ones with legs alike, or the slowest.
fn eight(random: &mut Random, name: &str, n: usize) -> Form {
    Form::new(name, n, 8, || match name {
        "alike" => spread(random, CLOSED, n, |_| 10),
        "mixed" => spread(random, CLOSED, n, |random| random.between(1, 256) as u16),
        "open" => spread(random, FREE, n, |_| 10),
        _ => sheets::chain(random, n, 60),
    })
}

/// The sheets: open ones of N = 64 and 512 with legs alike; closed ones of N = 3; for laying out pairs of N = 64 and 512 with legs alike,
/// with mixed ones, and the slowest; for strokes those of `longest`.
pub fn forms(seed: u64) -> ([Form; 2], Form, Vec<[Form; 2]>, [Form; 2]) {
    let mut random = Random::new(seed);
    let mut form = |name: &str, n: usize| eight(&mut random, name, n);
    let open = [form("open", 64), form("open", 512)];
    let three = form("mixed", 3);
    let laid = ["alike", "mixed", "worst"].map(|name| [form(name, 64), form(name, 512)]).into();
    let longest = longest(&mut random);
    (open, three, laid, longest)
}

/// The sheets for the board, whose largest N is 48: the same forms at N = 6 and 48 for 64 and 512, but for the slowest and the longest.
pub fn board_forms(seed: u64) -> ([Form; 2], Form, Vec<[Form; 2]>) {
    let mut random = Random::new(seed ^ 1);
    let mut form = |name: &str, n: usize| {
        let form = eight(&mut random, name, n);
        Form { name: format!("board, {}", form.name), board: true, ..form }
    };
    let open = [form("open", 6), form("open", 48)];
    let three = form("mixed", 3);
    let laid = ["alike", "mixed"].map(|name| [form(name, 6), form(name, 48)]).into();
    (open, three, laid)
}

/// Closed courses with legs of 256 ticks: two of N = 512, and sixteen of N = 64 through the same waypoints, since what a leg takes depends
/// on how it bends.
fn longest(random: &mut Random) -> [Form; 2] {
    let large = [(); 2].map(|()| spread(random, CLOSED, 512, |_| 256));
    let mut part = large.iter().flat_map(|draft| draft.points.chunks(64)).map(|points| {
        let mut draft = Draft::of(CLOSED, &[256; 64], &[0; 64], None);
        draft.points = points.to_vec();
        draft
    });
    let small = Form::new("longest", 64, 16, || part.next().expect("sixteen parts"));
    let mut large = large.iter().cloned();
    [small, Form::new("longest", 512, 2, || large.next().expect("two courses"))]
}
