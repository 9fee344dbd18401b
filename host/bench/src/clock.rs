//! Processor time of this thread, which other work on the machine does not add to.

use std::time::Duration;

#[repr(C)]
struct Timespec {
    seconds: i64,
    nanoseconds: i64,
}

extern "C" {
    fn clock_gettime(clock: i32, time: *mut Timespec) -> i32;
}

/// Linux: CLOCK_THREAD_CPUTIME_ID
const THREAD: i32 = 3;

/// The processor time that this thread has spent.
pub fn spent() -> Duration {
    let mut time = Timespec { seconds: 0, nanoseconds: 0 };
    // SAFETY: the pointer is to a timespec of this platform, 64-bit Linux, that lives through the call
    let failed = unsafe { clock_gettime(THREAD, &mut time) };
    assert_eq!(failed, 0, "the clock of a thread's processor time");
    Duration::new(time.seconds as u64, time.nanoseconds as u32)
}
