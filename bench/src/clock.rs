//! The processor time that this thread has taken; on a machine with other work it is steadier than the time of day.
use std::time::Duration;

#[repr(C)]
struct Timespec {
    seconds: i64,
    nanoseconds: i64,
}

/// Linux's number for a thread's processor time.
const THREAD: i32 = 3;

extern "C" {
    fn clock_gettime(clock: i32, time: *mut Timespec) -> i32;
}

pub fn now() -> Duration {
    let mut time = Timespec { seconds: 0, nanoseconds: 0 };
    let status = unsafe { clock_gettime(THREAD, &mut time) };
    assert_eq!(status, 0, "this system has no such clock");
    Duration::new(time.seconds as u64, time.nanoseconds as u32)
}
