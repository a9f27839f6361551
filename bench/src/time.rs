//! Times of calls that are made in turn.

use std::time::Instant;

/// A call, which tells whether it was answered.
pub type Call<'a> = &'a mut dyn FnMut() -> bool;

/// A time is taken of as many calls as take at least so many seconds.
const SHORTEST: f64 = 50e-6;

/// So many seconds of each call are enough, but for the fewest times.
const ENOUGH: f64 = 1.0;
const FEWEST: usize = 31;

/// The time of so many calls, in seconds. All are answered, or all refused.
fn time(calls: usize, call: Call) -> f64 {
    let start = Instant::now();
    let answered = (0..calls).filter(|_| call()).count();
    let seconds = start.elapsed().as_secs_f64();
    assert!(answered == 0 || answered == calls);
    seconds
}

fn calls_for_a_time(call: Call) -> usize {
    let mut calls = 1;
    while time(calls, call) < SHORTEST {
        calls *= 2;
    }
    calls
}

/// The median of each call's times, so many at most, in seconds. The calls are made in turn, so that what else the
/// machine does meets all of them.
pub fn medians<const N: usize>(times: usize, calls: [Call; N]) -> [f64; N] {
    let mut slowest: f64 = 0.0;
    let mut calls = calls.map(|call| {
        let count = calls_for_a_time(call);
        slowest = slowest.max(time(count, call));
        (call, count, Vec::with_capacity(times))
    });
    let times = times.min(FEWEST.max((ENOUGH / slowest) as usize));
    for _ in 0..times {
        for (call, count, found) in &mut calls {
            found.push(time(*count, call) / *count as f64);
        }
    }
    calls.map(|(_, _, mut found)| {
        found.sort_by(f64::total_cmp);
        found[times / 2]
    })
}
