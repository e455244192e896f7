//! The processor time of this thread. Unlike the time of a clock on the wall it does not grow while another process has the
//! processor, so that a shared machine disturbs the figures less.

use std::time::Duration;

/// C's `struct timespec` and the clock's number on x86-64 Linux, where alone the archive links.
#[repr(C)]
struct Timespec {
    seconds: i64,
    nanoseconds: i64,
}
const CLOCK_THREAD_CPUTIME_ID: i32 = 3;

extern "C" {
    fn clock_gettime(clock: i32, time: *mut Timespec) -> i32;
}

/// How much processor time this thread has had so far.
pub fn now() -> Duration {
    let mut time = Timespec { seconds: 0, nanoseconds: 0 };
    // SAFETY: `time` is a timespec, and C's library, which std links, writes nothing else.
    let status = unsafe { clock_gettime(CLOCK_THREAD_CPUTIME_ID, &mut time) };
    assert_eq!(status, 0, "this system has no clock for the processor time of a thread");
    Duration::new(time.seconds as u64, time.nanoseconds as u32)
}
