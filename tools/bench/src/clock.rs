//! The thread's processor time, and times of calls by it, in microseconds.

const SAMPLES: usize = 25;
/// the least time of a sample
const SAMPLE: f64 = 4000.0;

#[repr(C)]
struct Timespec {
    seconds: i64,
    nanoseconds: i64,
}

unsafe extern "C" {
    fn clock_gettime(clock: i32, time: &mut Timespec) -> i32;
}

/// The thread's processor time so far.
fn now() -> f64 {
    let mut t = Timespec {
        seconds: 0,
        nanoseconds: 0,
    };
    // SAFETY: CLOCK_THREAD_CPUTIME_ID of Linux is 3, and the struct is C's timespec on x86-64
    assert_eq!(unsafe { clock_gettime(3, &mut t) }, 0);
    t.seconds as f64 * 1e6 + t.nanoseconds as f64 / 1e3
}

/// One call alone.
pub fn once(call: impl FnOnce()) -> f64 {
    let start = now();
    call();
    now() - start
}

/// A call among many: the least of the samples.
pub fn time(mut call: impl FnMut()) -> f64 {
    let mut sample = |calls: usize| once(|| (0..calls).for_each(|_| call())) / calls as f64;
    let calls = (SAMPLE / sample(1).max(0.001)).ceil() as usize;
    (0..SAMPLES).map(|_| sample(calls)).fold(f64::MAX, f64::min)
}
