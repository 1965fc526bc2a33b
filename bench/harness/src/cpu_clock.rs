//! The processor time of this thread. Unlike the time on the wall it leaves out what other programs took.

use std::time::Duration;

/// The kernel's `struct timespec` on 64-bit Linux.
#[repr(C)]
struct Timespec {
    seconds: i64,
    nanoseconds: i64,
}

/// Linux' number for the clock of the calling thread.
const CLOCK_THREAD_CPUTIME_ID: i32 = 3;

extern "C" {
    fn clock_gettime(clock: i32, time: *mut Timespec) -> i32;
}

pub fn now() -> Duration {
    let mut time = Timespec { seconds: 0, nanoseconds: 0 };
    // SAFETY: the pointer is to a whole timespec of this thread; the call fills it and keeps nothing.
    let status = unsafe { clock_gettime(CLOCK_THREAD_CPUTIME_ID, &mut time) };
    assert_eq!(status, 0, "no processor clock");
    Duration::new(time.seconds as u64, time.nanoseconds as u32)
}
