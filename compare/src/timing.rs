//! Processor times of two sides, taken in turn.

use std::hint::black_box;
use std::time::Duration;

/// A sample repeats its work until about this long has passed.
const SAMPLE: Duration = Duration::from_millis(3);

/// How long a measurement may take.
#[derive(Clone, Copy)]
pub struct Effort {
    /// about so long for one row
    pub row: Duration,
    pub least_samples: usize,
    pub most_samples: usize,
}

/// Seconds of one piece of work on each side, and the ratio of the two.
#[derive(Clone, Copy, Debug)]
pub struct Times {
    pub proved: f64,
    pub rust: f64,
    pub ratio: f64,
    pub least_ratio: f64,
    pub most_ratio: f64,
}

/// Times both sides in turn: medians of several samples, and the spread of their ratios.
pub fn measure<P, R>(
    effort: Effort,
    mut proved: impl FnMut() -> P,
    mut rust: impl FnMut() -> R,
) -> Times {
    // the first calls warm up, and tell how often to repeat
    let first = (time(1, &mut proved), time(1, &mut rust));
    let repeats = |seconds: f64| (SAMPLE.as_secs_f64() / seconds).clamp(1.0, 1e6) as u32;
    let (often, rust_often) = (repeats(first.0), repeats(first.1));
    let pair = first.0 * f64::from(often) + first.1 * f64::from(rust_often);
    let samples = (effort.row.as_secs_f64() / pair) as usize;
    let samples = samples.clamp(effort.least_samples, effort.most_samples);

    let mut all = [Vec::new(), Vec::new(), Vec::new()];
    for _ in 0..samples {
        let seconds = time(often, &mut proved);
        let rust_seconds = time(rust_often, &mut rust);
        all[0].push(seconds);
        all[1].push(rust_seconds);
        all[2].push(seconds / rust_seconds);
    }
    for values in &mut all {
        values.sort_by(f64::total_cmp);
    }
    let median = |values: &[f64]| values[values.len() / 2];
    Times {
        proved: median(&all[0]),
        rust: median(&all[1]),
        ratio: median(&all[2]),
        least_ratio: all[2][0],
        most_ratio: all[2][samples - 1],
    }
}

/// Seconds of one call, from so many.
fn time<T>(calls: u32, work: &mut impl FnMut() -> T) -> f64 {
    let start = processor_time();
    for _ in 0..calls {
        black_box(work());
    }
    (processor_time() - start).as_secs_f64() / f64::from(calls)
}

/// What `clock_gettime` of the C library fills in on 64-bit Linux.
#[repr(C)]
struct TimeSpec {
    seconds: i64,
    nanoseconds: i64,
}

extern "C" {
    fn clock_gettime(clock: i32, time: *mut TimeSpec) -> i32;
}

/// The processor time of this thread so far: what other programs use does not count.
fn processor_time() -> Duration {
    const THREAD_CLOCK: i32 = 3;
    let mut time = TimeSpec {
        seconds: 0,
        nanoseconds: 0,
    };
    // SAFETY: the struct has the layout that the call writes, and lives through it
    let status = unsafe { clock_gettime(THREAD_CLOCK, &mut time) };
    assert_eq!(status, 0, "the thread has a clock");
    Duration::new(time.seconds as u64, time.nanoseconds as u32)
}
