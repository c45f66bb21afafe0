//! The processor time that a turn takes, and the middle one of several times.

extern "C" {
    fn clock_gettime(clock: i32, time: *mut Time) -> i32;
}

/// What `clock_gettime` writes on a 64-bit Linux.
#[repr(C)]
struct Time {
    seconds: i64,
    nanoseconds: i64,
}

/// The processor time that this thread has taken, in nanoseconds.
fn taken() -> f64 {
    const CLOCK_THREAD_CPUTIME_ID: i32 = 3;
    let mut time = Time {
        seconds: 0,
        nanoseconds: 0,
    };
    // SAFETY: the function writes one time where it is told to.
    unsafe { clock_gettime(CLOCK_THREAD_CPUTIME_ID, &mut time) };
    time.seconds as f64 * 1e9 + time.nanoseconds as f64
}

pub fn time(turn: impl FnOnce()) -> f64 {
    let start = taken();
    turn();
    taken() - start
}

pub fn median(mut numbers: Vec<f64>) -> f64 {
    numbers.sort_by(f64::total_cmp);
    numbers[numbers.len() / 2]
}
