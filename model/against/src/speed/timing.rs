//! Two sides measured in turns, and the lower quartile of each.

use std::time::{Duration, Instant};

/// One measurement takes about this long, a call that takes longer aside.
const LENGTH: f64 = 100e-6;

/// How many measurements of each side there are at most and at least, and how long both
/// sides together may take.
const MOST: usize = 2_000;
const LEAST: usize = 25;
const LIMIT: Duration = Duration::from_millis(2_500);

/// The microseconds of one call, of the library and of plain Rust.
#[derive(Clone, Copy, Debug)]
pub struct Times {
    pub ours: f64,
    pub plain: f64,
}

impl Times {
    /// The library by plain Rust.
    pub fn ratio(&self) -> f64 {
        self.ours / self.plain
    }
}

/// Both sides in turns, each first in every other turn; the lower quartile of each.
pub fn versus(ours: &mut dyn FnMut(), plain: &mut dyn FnMut()) -> Times {
    let (our_calls, plain_calls) = (calls(ours), calls(plain));
    let (mut a, mut b) = (Vec::new(), Vec::new());
    let start = Instant::now();
    while a.len() < LEAST || a.len() < MOST && start.elapsed() < LIMIT {
        if a.len() % 2 == 0 {
            a.push(one(ours, our_calls));
            b.push(one(plain, plain_calls));
        } else {
            b.push(one(plain, plain_calls));
            a.push(one(ours, our_calls));
        }
    }
    Times {
        ours: quartile(a),
        plain: quartile(b),
    }
}

/// How many calls make one measurement.
fn calls(call: &mut dyn FnMut()) -> u32 {
    call();
    let rough = one(call, 1).max(0.02) / 1e6;
    (LENGTH / rough).clamp(1.0, 10_000.0) as u32
}

/// The microseconds of one call, as the mean of some.
fn one(call: &mut dyn FnMut(), calls: u32) -> f64 {
    let start = Instant::now();
    for _ in 0..calls {
        call();
    }
    start.elapsed().as_secs_f64() * 1e6 / f64::from(calls)
}

/// The lower quartile.
fn quartile(mut times: Vec<f64>) -> f64 {
    times.sort_by(f64::total_cmp);
    times[times.len() / 4]
}
