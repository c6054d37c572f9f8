//! The thread's time on a processor, which std does not give.

use std::time::Duration;

#[repr(C)]
struct Timespec {
    seconds: i64,
    nanoseconds: i64,
}

extern "C" {
    fn clock_gettime(clock: i32, time: *mut Timespec) -> i32;
}

/// CLOCK_THREAD_CPUTIME_ID of 64-bit Linux.
const THREAD: i32 = 3;

pub fn processor_time() -> Duration {
    let mut time = Timespec {
        seconds: 0,
        nanoseconds: 0,
    };
    // SAFETY: the pointer is to a timespec as 64-bit Linux has it.
    let status = unsafe { clock_gettime(THREAD, &mut time) };
    assert_eq!(status, 0, "this clock is there on Linux");
    Duration::new(time.seconds as u64, time.nanoseconds as u32)
}
