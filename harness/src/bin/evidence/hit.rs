//! A fence hit: where a call touches memory that was not lent to it, or is handed a null pointer, the system's signal is answered with a
//! line that names the case.

use harness::boundary::{Call, NAMES};
use std::fmt::Write;
use std::ptr::null_mut;
use std::sync::atomic::{AtomicPtr, Ordering::SeqCst};

extern "C" {
    fn signal(number: i32, handler: extern "C" fn(i32)) -> usize;
    fn write(file: i32, bytes: *const u8, count: usize) -> isize;
    fn _exit(status: i32) -> !;
}

/// Linux's numbers of the two signals that a forbidden access gives, and of the one by which gcc traps a null pointer (build.rs).
const SEGMENT_BUS_TRAP: [i32; 3] = [11, 7, 4];

/// The call that runs.
pub struct Doing<'a> {
    pub part: &'static str,
    pub seed: u64,
    pub case: u64,
    pub implementation: &'static str,
    pub call: &'a Call,
    pub sheet: &'a [u8],
}

static NOW: AtomicPtr<Doing> = AtomicPtr::new(null_mut());

/// From now on a fence hit ends the program with status 1 and a line on standard output.
pub fn watch() {
    for number in SEGMENT_BUS_TRAP {
        // SAFETY: the handler calls nothing that takes memory or locks.
        unsafe { signal(number, on_hit) };
    }
}

/// Runs a call; should it hit a fence, `doing` says which call it was.
pub fn watched<T>(doing: &Doing, call: impl FnOnce() -> T) -> T {
    NOW.store(std::ptr::from_ref(doing) as *mut Doing<'static>, SeqCst);
    let answer = call();
    NOW.store(null_mut(), SeqCst);
    answer
}

/// A line of limited length that takes no memory; what is too much is left out.
struct Line {
    bytes: [u8; 2048],
    length: usize,
}

impl Write for Line {
    fn write_str(&mut self, text: &str) -> std::fmt::Result {
        let count = text.len().min(self.bytes.len() - 1 - self.length);
        self.bytes[self.length..self.length + count].copy_from_slice(&text.as_bytes()[..count]);
        self.length += count;
        Ok(())
    }
}

extern "C" fn on_hit(_: i32) {
    let mut line = Line { bytes: [0; 2048], length: 0 };
    // SAFETY: the pointer is null or names the `doing` of the call that was interrupted.
    let _ = match unsafe { NOW.load(SeqCst).as_ref() } {
        None => write!(line, "FENCE: memory that is not this program's was touched between the calls"),
        Some(Doing { part, seed, case, implementation, call, sheet }) => {
            let _ = write!(line, "FENCE (memory): {implementation} {} touched what was not lent to it, ", NAMES[call.index()]);
            let _ = write!(line, "in part {part}, case {case} of seed {seed}\n  sheet ({} bytes) ", sheet.len());
            let _ = sheet.iter().take(400).try_for_each(|byte| write!(line, "{byte:02x}"));
            // last, since lists are long
            write!(line, "\n  {call:?}")
        }
    };
    line.bytes[line.length] = b'\n';
    // SAFETY: the bytes of the line; then the program is over.
    unsafe {
        write(1, line.bytes.as_ptr(), line.length + 1);
        _exit(1)
    }
}
