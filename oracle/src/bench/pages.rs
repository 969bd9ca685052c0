//! The buffers that are lent: on pages of 2 MiB where the system grants them, as a caller with so much to lend would have them.
//!
//! A text of 4 MiB takes 100 MB of work. On small pages a walk over them spends up to a fifth of its time in looking pages up.

use std::ffi::c_void;

/// The numbers that Linux gives to two advices: to give pages back, which the allocator may have had before, and to take large ones.
const DONT_NEED: i32 = 4;
const HUGE_PAGE: i32 = 14;
/// What the start of an advised part is a multiple of.
const PAGE: usize = 4096;

unsafe extern "C" {
    // From the C library that Rust's own is linked with.
    fn madvise(start: *mut c_void, length: usize, advice: i32) -> i32;
}

/// Which pages buffers are lent on.
#[derive(Copy, Clone, Default, PartialEq, Eq)]
pub enum Pages {
    #[default]
    Large,
    /// As the allocator has them.
    Small,
}

/// A buffer of so many elements, every page touched.
pub fn buffer<T: Copy>(value: T, len: usize, pages: Pages) -> Vec<T> {
    let mut buffer = Vec::with_capacity(len);
    if pages == Pages::Large {
        advise(buffer.as_mut_ptr() as usize, len * size_of::<T>());
    }
    buffer.resize(len, value);
    buffer
}

/// Asks for large pages where nothing was written yet; the system may have none, and then nothing changes.
fn advise(start: usize, bytes: usize) {
    let from = start.next_multiple_of(PAGE);
    let to = (start + bytes) / PAGE * PAGE;
    for advice in [DONT_NEED, HUGE_PAGE] {
        if from < to {
            // SAFETY: the pages lie within a buffer of ours whose contents nobody has looked at.
            unsafe { madvise(from as *mut c_void, to - from, advice) };
        }
    }
}
