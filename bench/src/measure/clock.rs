//! The time that this thread has had on a processor: what other programs take meanwhile does not count.

use std::ffi::{c_int, c_long};

#[repr(C)]
struct Time {
    seconds: c_long,
    nanoseconds: c_long,
}

extern "C" {
    fn clock_gettime(clock: c_int, time: *mut Time) -> c_int;
}

/// CLOCK_THREAD_CPUTIME_ID of Linux.
const THREAD: c_int = 3;

fn now() -> f64 {
    let mut time = Time {
        seconds: 0,
        nanoseconds: 0,
    };
    // Sound: the place that is written to is valid, and borrowed alone.
    let failed = unsafe { clock_gettime(THREAD, &mut time) };
    assert_eq!(failed, 0, "this thread's time");
    time.seconds as f64 * 1e9 + time.nanoseconds as f64
}

/// What a call answers, and the nanoseconds that it takes.
pub fn timed<T>(call: impl FnOnce() -> T) -> (T, f64) {
    let start = now();
    let answer = call();
    (answer, now() - start)
}
