//! Best times of several repetitions, so that other work on the machine counts little.

use std::time::{Duration, Instant};

/// How many batches of how many runs are made; none begins after so many seconds.
#[derive(Clone, Copy)]
pub struct Runs {
    pub batches: usize,
    pub batch: usize,
    pub seconds: u64,
}

/// The least time of one run of `f` in nanoseconds, over all batches. What the runs answer is dropped after
/// the clock has stopped.
pub fn best<T>(runs: Runs, mut f: impl FnMut() -> T) -> f64 {
    let mut least = f64::INFINITY;
    let mut answers = Vec::with_capacity(runs.batch);
    let begun = Instant::now();
    for _ in 0..runs.batches {
        let start = Instant::now();
        for _ in 0..runs.batch {
            answers.push(std::hint::black_box(f()));
        }
        least = least.min(start.elapsed().as_nanos() as f64 / runs.batch as f64);
        answers.clear();
        if begun.elapsed() >= Duration::from_secs(runs.seconds) {
            break;
        }
    }
    least
}
