//! Processor time: how much was used, and a limit to it. Other work on the machine isn't counted in it.

use std::time::Duration;

const MOST_RUNS: usize = 5;
const SHORT: Duration = Duration::from_millis(5);

/// The clock of this thread's processor time; that of the process is coarse while a timer is set.
const CLOCK: i32 = 3;
/// The timer of the process's processor time.
const TIMER: i32 = 2;

#[repr(C)]
#[derive(Default)]
struct Time {
    seconds: i64,
    parts: i64,
}

#[repr(C)]
struct Timer {
    again: Time,
    first: Time,
}

extern "C" {
    fn clock_gettime(clock: i32, time: *mut Time) -> i32;
    fn setitimer(timer: i32, new: *const Timer, old: *mut Timer) -> i32;
}

/// The processor time that this thread has used.
pub fn used() -> Duration {
    let mut time = Time::default();
    let status = unsafe { clock_gettime(CLOCK, &mut time) };
    assert_eq!(status, 0, "the processor's clock can be read");
    Duration::new(time.seconds as u64, time.parts as u32)
}

/// Ends this process when it has used so much more processor time; zero takes an earlier limit back.
pub fn end_after(limit: Duration) {
    let first = Time { seconds: limit.as_secs() as i64, parts: limit.subsec_micros() as i64 };
    let status = unsafe { setitimer(TIMER, &Timer { again: Time::default(), first }, std::ptr::null_mut()) };
    assert_eq!(status, 0, "a timer can be set");
}

/// What the call gives, and its time: of one that is short, the least of a few runs.
pub fn timed<T>(call: impl Fn() -> T) -> (T, Duration) {
    let mut least = Duration::MAX;
    for run in 1.. {
        let start = used();
        let answer = call();
        least = least.min(used() - start);
        if least > SHORT || run == MOST_RUNS {
            return (answer, least);
        }
    }
    unreachable!("a run was the last")
}
