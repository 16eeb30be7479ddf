//! Memory to lend to a call. Each slice stands right before (or right after) a page that may not be touched, so that a read or write
//! past its end (or before its start) stops the program. Under valgrind, which watches the heap, slices can be heap blocks instead.

use std::ffi::c_void;
use std::ptr::null_mut;

extern "C" {
    fn mmap(address: *mut c_void, length: usize, protection: i32, flags: i32, file: i32, offset: i64) -> *mut c_void;
    fn mprotect(address: *mut c_void, length: usize, protection: i32) -> i32;
}

const PAGE: usize = 4096;
const READ_AND_WRITE: i32 = 1 | 2;
const PRIVATE_AND_ANONYMOUS: i32 = 2 | 0x20;

/// Where a lent slice stands.
#[derive(Clone, Copy, PartialEq, Eq)]
pub enum Stand {
    /// Its last element is right before a fence.
    BeforeFence,
    /// Its first element is right after a fence.
    AfterFence,
    /// A heap block of its own.
    Heap,
}

/// Room between two fences.
pub struct Fenced<T> {
    start: *mut u8,
    bytes: usize,
    heap: Box<[T]>,
}

impl<T: Copy> Fenced<T> {
    /// Room for slices of up to `most` elements.
    pub fn new(most: usize) -> Fenced<T> {
        let bytes = (most * size_of::<T>()).next_multiple_of(PAGE);
        // SAFETY: a fresh anonymous mapping; only the pages between its first and its last become accessible.
        let start = unsafe {
            let whole = mmap(null_mut(), bytes + 2 * PAGE, 0, PRIVATE_AND_ANONYMOUS, -1, 0) as *mut u8;
            assert!(whole as isize != -1, "mmap");
            let start = whole.add(PAGE);
            assert!(mprotect(start as *mut c_void, bytes, READ_AND_WRITE) == 0, "mprotect");
            start
        };
        Fenced { start, bytes, heap: Box::new([]) }
    }

    /// A slice with these elements; what was lent before is gone.
    pub fn lend(&mut self, elements: &[T], stand: Stand) -> &mut [T] {
        let bytes = size_of_val(elements);
        assert!(bytes <= self.bytes);
        if stand == Stand::Heap {
            self.heap = elements.into();
            return &mut self.heap;
        }
        let skip = if stand == Stand::BeforeFence { self.bytes - bytes } else { 0 };
        // SAFETY: `skip` to `skip + bytes` is inside the accessible pages, aligned since `bytes` and the pages are multiples of
        // T's size (a number's), and borrowed through `self`.
        let lent = unsafe { std::slice::from_raw_parts_mut(self.start.add(skip) as *mut T, elements.len()) };
        lent.copy_from_slice(elements);
        lent
    }
}
