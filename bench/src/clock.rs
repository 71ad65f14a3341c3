//! The time that this thread has had a core, so that other programs on the machine disturb a measurement little.

#[repr(C)]
struct Time {
    seconds: i64,
    nanoseconds: i64,
}

const THREAD_CPU_TIME: i32 = 3;

extern "C" {
    fn clock_gettime(clock: i32, time: *mut Time) -> i32;
}

/// In seconds.
pub fn core_time() -> f64 {
    let mut time = Time {
        seconds: 0,
        nanoseconds: 0,
    };
    // The call fills the time that it is lent.
    let failed = unsafe { clock_gettime(THREAD_CPU_TIME, &mut time) };
    assert_eq!(failed, 0);
    time.seconds as f64 + time.nanoseconds as f64 / 1e9
}
