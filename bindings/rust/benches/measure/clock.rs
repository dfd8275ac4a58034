//! Time spent by this thread, so that others on the machine do not count.

#[repr(C)]
struct Timespec {
    seconds: i64,
    nanoseconds: i64,
}

extern "C" {
    fn clock_gettime(clock: i32, time: *mut Timespec) -> i32;
}

const THREAD_CPU: i32 = 3;

/// Nanoseconds of processor time of this thread.
pub fn now() -> f64 {
    let mut time = Timespec { seconds: 0, nanoseconds: 0 };
    // SAFETY: the call writes one struct of this layout (64-bit Linux).
    let status = unsafe { clock_gettime(THREAD_CPU, &mut time) };
    assert_eq!(status, 0);
    time.seconds as f64 * 1e9 + time.nanoseconds as f64
}

pub fn median(mut values: Vec<f64>) -> f64 {
    values.sort_by(f64::total_cmp);
    values[values.len() / 2]
}
