//! The time that this thread has had of a processor, which other programs on the machine don't
//! lengthen.

#[repr(C)]
struct Timespec {
    seconds: i64,
    nanoseconds: i64,
}

/// `CLOCK_THREAD_CPUTIME_ID` of Linux.
const THREAD_PROCESSOR_TIME: i32 = 3;

extern "C" {
    fn clock_gettime(clock: i32, time: *mut Timespec) -> i32;
}

/// Returns the seconds of processor time that this thread has taken.
///
/// # Panics
///
/// Where the system has no such clock.
pub fn processor_time() -> f64 {
    let mut time = Timespec {
        seconds: 0,
        nanoseconds: 0,
    };
    // SAFETY: the call writes to the one struct that it is lent, whose layout is that of 64-bit
    // Linux.
    let status = unsafe { clock_gettime(THREAD_PROCESSOR_TIME, &mut time) };
    assert_eq!(status, 0, "the clock of the thread's processor time");
    time.seconds as f64 + time.nanoseconds as f64 * 1e-9
}
