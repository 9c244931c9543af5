//! Batches of two sides in turn, and their medians.

use std::hint::black_box;
use std::time::Duration;

use crate::clock::thread_time;

/// How much is timed.
#[derive(Clone, Debug)]
pub struct Plan {
    /// Batches of each side.
    pub batches: usize,
    /// What a batch of the faster side takes at least.
    pub batch_time: Duration,
}

impl Plan {
    /// The plan of the table.
    pub fn full() -> Self {
        Plan {
            batches: 31,
            batch_time: Duration::from_millis(1),
        }
    }

    /// A short run.
    pub fn quick() -> Self {
        Plan {
            batches: 9,
            batch_time: Duration::from_millis(1),
        }
    }
}

/// Seconds of processor time per call of each side: the medians of its batches.
#[derive(Clone, Copy, Debug)]
pub struct Times {
    pub ours: f64,
    pub rust: f64,
}

impl Times {
    /// Our time by the Rust's.
    pub fn ratio(self) -> f64 {
        self.ours / self.rust
    }

    /// The times of one of so many parts of a call.
    pub fn per(self, parts: usize) -> Self {
        let parts = parts as f64;
        Times {
            ours: self.ours / parts,
            rust: self.rust / parts,
        }
    }
}

/// One side: makes so many calls and gives the time that they took.
pub type Side<'a> = &'a mut dyn FnMut(u32) -> Duration;

/// Times the calls of a batch together.
pub fn together<T>(mut call: impl FnMut() -> T) -> impl FnMut(u32) -> Duration {
    move |calls| {
        let start = thread_time();
        for _ in 0..calls {
            black_box(call());
        }
        thread_time() - start
    }
}

/// Times each call apart, so that what it made is dropped outside the time.
pub fn apart<T>(mut call: impl FnMut() -> T) -> impl FnMut(u32) -> Duration {
    move |calls| {
        let mut sum = Duration::ZERO;
        for _ in 0..calls {
            let start = thread_time();
            let made = black_box(call());
            sum += thread_time() - start;
            drop(made);
        }
        sum
    }
}

/// Both sides in turn, batch by batch, each side first every other time; as many calls of both as make the faster side take the time
/// asked for.
pub fn alternate(plan: &Plan, ours: Side<'_>, rust: Side<'_>) -> Times {
    let calls = calls_taking(plan.batch_time, &mut |calls| ours(calls).min(rust(calls)));
    batches(plan, [calls; 2], ours, rust)
}

/// The same where one side is far faster: as many calls of each side as make it take the time asked for.
pub fn alternate_uneven(plan: &Plan, ours: Side<'_>, rust: Side<'_>) -> Times {
    let calls = [
        calls_taking(plan.batch_time, ours),
        calls_taking(plan.batch_time, rust),
    ];
    batches(plan, calls, ours, rust)
}

fn batches(plan: &Plan, calls: [u32; 2], ours: Side<'_>, rust: Side<'_>) -> Times {
    let mut samples = [Vec::new(), Vec::new()];
    for batch in 0..plan.batches {
        for turn in 0..2 {
            let side = (batch + turn) % 2;
            let calls = calls[side];
            let took = if side == 0 { ours(calls) } else { rust(calls) };
            samples[side].push(took.as_secs_f64() / f64::from(calls));
        }
    }
    let [ours, rust] = samples.map(median);
    Times { ours, rust }
}

/// So many calls that a side takes the time asked for.
fn calls_taking(batch_time: Duration, side: Side<'_>) -> u32 {
    let mut calls = 1;
    while side(calls) < batch_time {
        calls *= 2;
    }
    calls
}

/// The middle value, or the mean of the middle two.
pub fn median(mut samples: Vec<f64>) -> f64 {
    samples.sort_unstable_by(f64::total_cmp);
    let (low, high) = ((samples.len() - 1) / 2, samples.len() / 2);
    (samples[low] + samples[high]) / 2.0
}

#[cfg(test)]
mod tests {
    use super::median;

    #[test]
    fn the_middle() {
        assert_eq!(median(vec![3.0, 1.0, 2.0]), 2.0);
        assert_eq!(median(vec![4.0, 1.0, 3.0, 2.0]), 2.5);
    }
}
