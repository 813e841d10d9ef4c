//! Processor time of this thread, so that other programs on the machine do not count.
use std::time::Duration;

#[repr(C)]
struct Timespec {
    seconds: i64,
    nanoseconds: i64,
}

extern "C" {
    fn clock_gettime(clock: i32, time: *mut Timespec) -> i32;
}

/// CLOCK_THREAD_CPUTIME_ID of Linux on 64-bit machines.
const THREAD_TIME: i32 = 3;

pub fn now() -> Duration {
    let mut time = Timespec { seconds: 0, nanoseconds: 0 };
    // Sound: the C library writes one timespec, which has this layout on 64-bit Linux.
    let failed = unsafe { clock_gettime(THREAD_TIME, &mut time) };
    assert_eq!(failed, 0, "no processor time");
    Duration::new(time.seconds as u64, time.nanoseconds as u32)
}
