//! Calls timed in turn.

use std::time::Instant;

/// Passes of each call; odd, so that one of them is the median.
pub const PASSES: usize = 41;

/// The nanoseconds of each call's median pass. They pass in turn, so that a slow spell of the machine meets all; a first
/// pass of each warms the machine up and is not counted.
pub fn in_turn<C: Copy, const N: usize>(calls: [C; N], mut pass: impl FnMut(C)) -> [f64; N] {
    calls.into_iter().for_each(&mut pass);
    let mut times = [const { Vec::new() }; N];
    for _ in 0..PASSES {
        for (times, call) in times.iter_mut().zip(calls) {
            times.push(nanoseconds(|| pass(call)));
        }
    }
    times.map(median)
}

fn nanoseconds(pass: impl FnOnce()) -> f64 {
    let start = Instant::now();
    pass();
    start.elapsed().as_nanos() as f64
}

fn median(mut times: Vec<f64>) -> f64 {
    times.sort_by(f64::total_cmp);
    times[times.len() / 2]
}
