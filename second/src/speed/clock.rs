//! The processor time that this thread has used: other work on the machine counts less than by the clock on the wall.

use std::time::Duration;

/// Seconds and nanoseconds, as the C library has them on 64-bit Linux.
#[repr(C)]
struct Moment {
    seconds: i64,
    nanoseconds: i64,
}

/// CLOCK_THREAD_CPUTIME_ID of Linux.
const THREAD: i32 = 3;

extern "C" {
    fn clock_gettime(clock: i32, moment: *mut Moment) -> i32;
}

/// How long this thread has run so far.
pub fn processor_time() -> Duration {
    let mut moment = Moment { seconds: 0, nanoseconds: 0 };
    // The C library fills the moment and keeps nothing of it.
    let failed = unsafe { clock_gettime(THREAD, &mut moment) };
    assert_eq!(failed, 0, "the thread has a clock");
    Duration::new(moment.seconds as u64, moment.nanoseconds as u32)
}
