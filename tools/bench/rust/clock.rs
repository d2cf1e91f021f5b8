//! The processor's time that this thread has had, which other programs on the machine do not add to.

use std::time::Duration;

/// C's `struct timespec` on 64-bit Linux.
#[repr(C)]
struct Timespec {
    seconds: i64,
    nanoseconds: i64,
}

unsafe extern "C" {
    fn clock_gettime(clock: i32, time: *mut Timespec) -> i32;
}

/// `CLOCK_THREAD_CPUTIME_ID` on Linux.
const OF_THIS_THREAD: i32 = 3;

pub fn now() -> Duration {
    let mut time = Timespec {
        seconds: 0,
        nanoseconds: 0,
    };
    // SAFETY: the clock is known to Linux, and the time is borrowed by this call alone.
    let status = unsafe { clock_gettime(OF_THIS_THREAD, &raw mut time) };
    assert_eq!(status, 0, "the clock of this thread");
    Duration::new(time.seconds as u64, time.nanoseconds as u32)
}
