//! Time that the thread itself has run, so that other work on the machine counts less.

use std::time::Duration;

#[repr(C)]
struct Timespec {
    seconds: i64,
    nanoseconds: i64,
}

/// CLOCK_THREAD_CPUTIME_ID on Linux.
const THREAD: i32 = 3;

extern "C" {
    fn clock_gettime(clock: i32, time: *mut Timespec) -> i32;
}

pub fn processor_time() -> Duration {
    let mut time = Timespec {
        seconds: 0,
        nanoseconds: 0,
    };
    // SAFETY: the pointer is that of a timespec as x86-64 Linux has it
    let status = unsafe { clock_gettime(THREAD, &mut time) };
    assert_eq!(status, 0, "there is no clock");
    Duration::new(time.seconds as u64, time.nanoseconds as u32)
}
