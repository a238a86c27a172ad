//! The stopwatch, which does without what a busy machine adds.
//!
//! A CPU changes its speed from second to second by a tenth, as its neighbours work or rest. So
//! each repetition is timed in steps of a chain of multiplications that runs beside it, and a
//! step counts as one nanosecond until the figures are made.

use std::ffi::c_int;
use std::hint::black_box;
use std::sync::atomic::{AtomicU64, Ordering};
use std::time::{Duration, Instant};

/// How many steps show the speed, and how often, so that an interrupt does not spoil all of it.
const STEPS: u32 = 2_000;
const TRIES: usize = 3;

/// Repetitions longer than this hardly ever have the CPU to themselves on a busy machine.
const LONG: Duration = Duration::from_millis(5);

/// The least nanoseconds of a step so far, as bits; those of infinity to begin with.
static BEST_PACE: AtomicU64 = AtomicU64::new(f64::INFINITY.to_bits());

/// Nanoseconds of a step at the highest speed that was seen.
pub fn best_pace() -> f64 {
    f64::from_bits(BEST_PACE.load(Ordering::Relaxed))
}

/// Nanoseconds of a step now. Each waits for the one before, so nothing but the speed matters.
fn pace() -> f64 {
    let mut least = Duration::MAX;
    for _ in 0..TRIES {
        let start = Instant::now();
        let mut value = black_box(1_u64);
        for _ in 0..STEPS {
            value = (value ^ 0x55).wrapping_mul(0x9e37_79b9_7f4a_7c15);
        }
        black_box(value);
        least = least.min(start.elapsed());
    }
    let pace = least.as_secs_f64() * 1e9 / f64::from(STEPS);
    // Positive numbers have the order of their bits.
    BEST_PACE.fetch_min(pace.to_bits(), Ordering::Relaxed);
    pace
}

/// C's struct timespec.
#[repr(C)]
struct Moment {
    seconds: i64,
    nanoseconds: i64,
}

extern "C" {
    fn clock_gettime(clock: c_int, moment: *mut Moment) -> c_int;
}

/// The clock that stands still while another process has this one's CPU.
const CLOCK_THREAD_CPUTIME_ID: c_int = 3;

/// How long this thread has been running.
fn running() -> Duration {
    let mut moment = Moment {
        seconds: 0,
        nanoseconds: 0,
    };
    // SAFETY: the moment has the form that C gives it.
    let done = unsafe { clock_gettime(CLOCK_THREAD_CPUTIME_ID, &mut moment) };
    assert_eq!(done, 0, "the system has this clock");
    Duration::new(moment.seconds as u64, moment.nanoseconds as u32)
}

/// The time that the work takes. Where that is long, other processes come between, and their time
/// is left out.
fn time(run: impl FnOnce()) -> Duration {
    let before = running();
    let start = Instant::now();
    run();
    let taken = start.elapsed();
    match taken < LONG {
        true => taken,
        false => taken.min(running() - before),
    }
}

/// Runs a piece of work that many times, after a short warm-up, and says how long it took, in
/// steps. The higher speed of before and after counts, so that a change meanwhile makes the work
/// seem slow and not fast, unless the speed was higher only in between.
pub fn stopwatch(count: u64, mut run: impl FnMut(u64)) -> Duration {
    let before = pace();
    run(count / 8);
    let taken = time(|| run(count));
    taken.div_f64(before.min(pace()))
}
