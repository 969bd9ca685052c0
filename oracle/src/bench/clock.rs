//! The time that this thread has had a processor, so that other programs on the machine count for little.

use std::time::Duration;

/// The number that Linux gives to the thread's own clock.
const THREAD_CPU_TIME: i32 = 3;

/// C's `struct timespec` on 64-bit Linux.
#[repr(C)]
struct TimeSpec {
    seconds: i64,
    nanoseconds: i64,
}

unsafe extern "C" {
    // From the C library that Rust's own is linked with.
    fn clock_gettime(clock: i32, time: *mut TimeSpec) -> i32;
}

/// The time so far.
pub fn now() -> Duration {
    let mut time = TimeSpec {
        seconds: 0,
        nanoseconds: 0,
    };
    // SAFETY: the pointer is valid for writing, and the layout is that of the target.
    let status = unsafe { clock_gettime(THREAD_CPU_TIME, &raw mut time) };
    assert_eq!(status, 0, "the thread's clock");
    Duration::new(time.seconds as u64, time.nanoseconds as u32)
}
