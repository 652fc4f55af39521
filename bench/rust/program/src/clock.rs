//! The clock: how long the processor has worked for this thread. Turns that other programs get don't count.

/// A time as the system writes it.
#[repr(C)]
struct Time {
    seconds: i64,
    nanoseconds: i64,
}

/// The number of the clock of a thread's own work, on Linux.
const OWN: i32 = 3;

extern "C" {
    fn clock_gettime(clock: i32, time: *mut Time) -> i32;
}

/// The seconds of work up to now.
pub fn worked() -> f64 {
    let mut time = Time {
        seconds: 0,
        nanoseconds: 0,
    };
    // The time is written during the call alone.
    let status = unsafe { clock_gettime(OWN, &mut time) };
    assert_eq!(status, 0, "there is no clock of a thread's work");
    time.seconds as f64 + time.nanoseconds as f64 / 1e9
}
