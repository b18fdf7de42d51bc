//! The clock.

use std::hint::black_box;
use std::time::Instant;

/// Every row is timed once a round, so that a while in which the machine is busy
/// falls on all of them.
pub const ROUNDS: usize = 10;

/// The samples of each of two calls in a round.
pub const SAMPLES: usize = 50;

/// Nanoseconds a call, of both.
#[derive(Default)]
pub struct Samples {
    engine: Vec<f64>,
    second: Vec<f64>,
}

impl Samples {
    /// Times two calls in turns, so many calls to a sample.
    pub fn take<V, W>(
        &mut self,
        calls: u32,
        mut engine: impl FnMut() -> V,
        mut second: impl FnMut() -> W,
    ) {
        for _ in 0..SAMPLES {
            self.engine.push(sample(calls, &mut engine));
            self.second.push(sample(calls, &mut second));
        }
    }

    pub fn times(self) -> Times {
        Times {
            engine: Summary::of(self.engine),
            second: Summary::of(self.second),
        }
    }
}

fn sample<V>(calls: u32, call: &mut impl FnMut() -> V) -> f64 {
    let start = Instant::now();
    for _ in 0..calls {
        black_box(call());
    }
    start.elapsed().as_nanos() as f64 / f64::from(calls)
}

/// Nanoseconds a call.
#[derive(Clone, Copy)]
pub struct Summary {
    pub best: f64,
    pub median: f64,
}

impl Summary {
    fn of(mut samples: Vec<f64>) -> Summary {
        samples.sort_by(f64::total_cmp);
        Summary {
            best: samples[0],
            median: samples[samples.len() / 2],
        }
    }
}

/// What both take.
#[derive(Clone, Copy)]
pub struct Times {
    pub engine: Summary,
    pub second: Summary,
}
