//! Time per call, contenders in turn.

use std::time::{Duration, Instant};

/// Rounds that each contender has.
const ROUNDS: usize = 31;

/// What a contender runs in a round at least.
const ROUND: Duration = Duration::from_millis(5);

/// One of those that are compared.
pub type Contender<'a> = &'a mut dyn FnMut();

/// The calls that fill a round.
fn calls(run: &mut Contender<'_>) -> u32 {
    let mut calls = 1;
    loop {
        if timed(run, calls) >= ROUND {
            return calls;
        }
        calls *= 2;
    }
}

/// So many calls, timed together.
fn timed(run: &mut Contender<'_>, calls: u32) -> Duration {
    let start = Instant::now();
    for _ in 0..calls {
        run();
    }
    start.elapsed()
}

/// For each contender the nanoseconds a call of its fastest round. In each round all have their turn.
pub fn fastest(contenders: &mut [Contender<'_>]) -> Vec<f64> {
    let calls: Vec<u32> = contenders.iter_mut().map(calls).collect();
    let mut times = vec![f64::INFINITY; contenders.len()];
    for _ in 0..ROUNDS {
        for (k, run) in contenders.iter_mut().enumerate() {
            let time = timed(run, calls[k]).as_nanos() as f64 / f64::from(calls[k]);
            times[k] = times[k].min(time);
        }
    }
    times
}

/// A time in words.
pub fn text(nanoseconds: f64) -> String {
    if nanoseconds < 1e4 {
        format!("{nanoseconds:.0} ns")
    } else if nanoseconds < 1e7 {
        format!("{:.1} µs", nanoseconds / 1e3)
    } else if nanoseconds < 1e9 {
        format!("{:.1} ms", nanoseconds / 1e6)
    } else {
        format!("{:.1} s", nanoseconds / 1e9)
    }
}
