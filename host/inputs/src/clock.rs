//! How long a thread itself works: other programs on the machine do not count.

use std::hint::black_box;

/// The seconds that this thread works on something, and what comes of it, which is not dropped
/// within that time.
pub fn timed<T>(run: impl FnOnce() -> T) -> (f64, T) {
    let start = worked();
    let value = black_box(run());
    (worked() - start, value)
}

/// How long this thread has worked.
fn worked() -> f64 {
    #[repr(C)]
    struct Time {
        seconds: i64,
        nanoseconds: i64,
    }
    unsafe extern "C" {
        fn clock_gettime(clock: i32, time: *mut Time) -> i32;
    }
    const THREAD_CPUTIME: i32 = 3;
    let mut time = Time {
        seconds: 0,
        nanoseconds: 0,
    };
    // SAFETY: POSIX's function, as Linux has it on 64 bits; the time is lent for the call.
    let failed = unsafe { clock_gettime(THREAD_CPUTIME, &mut time) };
    assert_eq!(failed, 0, "clock_gettime");
    time.seconds as f64 + time.nanoseconds as f64 * 1e-9
}
