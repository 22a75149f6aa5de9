//! How long something takes: the processor's time that it had, which other processes don't lengthen by their turns, or the time that a customer waits.
use std::hint::black_box;
use std::time::{Duration, Instant};

#[repr(C)]
struct Timespec {
    seconds: i64,
    nanos: i64,
}

unsafe extern "C" {
    fn clock_gettime(clock: i32, time: *mut Timespec) -> i32;
}

/// Linux's CLOCK_THREAD_CPUTIME_ID.
const OF_THREAD: i32 = 3;

fn of_thread() -> Duration {
    let mut time = Timespec { seconds: 0, nanos: 0 };
    assert_eq!(unsafe { clock_gettime(OF_THREAD, &mut time) }, 0);
    Duration::new(time.seconds as u64, time.nanos as u32)
}

pub fn worked<T>(call: impl FnOnce() -> T) -> (Duration, T) {
    let begin = of_thread();
    let answer = black_box(call());
    (of_thread() - begin, answer)
}

pub fn waited<T>(call: impl FnOnce() -> T) -> (Duration, T) {
    let begin = Instant::now();
    let answer = black_box(call());
    (begin.elapsed(), answer)
}
