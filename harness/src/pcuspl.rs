//! 004's own programs, PCUSPL with PTRI and SEVAL, in C (c/pcuspl.c), for closed courses.

/// c/pcuspl.h's record: the knots, the coordinates, the coefficients and workspace.
#[repr(C)]
pub struct Pcuspl {
    n: i32,
    t: [f64; 513],
    arrays: [[f64; 512]; 16],
}

extern "C" {
    fn pcuspl_lay_out(sheet: *const u8, p: *mut Pcuspl);
    fn pcuspl_place(p: *const Pcuspl, tick: f64, out: *mut f64);
}

impl Pcuspl {
    pub fn empty() -> Box<Pcuspl> {
        Box::new(Pcuspl { n: 0, t: [0.0; 513], arrays: [[0.0; 512]; 16] })
    }

    /// The spline of a closed sheet. The sheet must be an accepted one: 004 tests nothing.
    pub fn lay_out(&mut self, sheet: &[u8]) {
        // SAFETY: an accepted sheet has the bytes that its N asks for, and N is at most 512.
        unsafe { pcuspl_lay_out(sheet.as_ptr(), self) }
    }

    /// The place at a tick below P.
    pub fn place(&self, tick: u64) -> [f64; 3] {
        let mut out = [0.0; 3];
        // SAFETY: the record is laid out; `out` has three places.
        unsafe { pcuspl_place(self, tick as f64, out.as_mut_ptr()) };
        out
    }
}
