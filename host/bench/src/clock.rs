//! Time per call, the best of many, with the sides taken in turn.

use std::mem::forget;
use std::ptr::read_volatile;
use std::time::{Duration, Instant};

/// One side of a comparison: a run makes one call and gives its nanoseconds.
pub type Side<'a> = &'a mut dyn FnMut() -> f64;

/// How long the sides of one comparison are run.
#[derive(Clone, Copy, Debug)]
pub struct Patience {
    /// Until the calls would have taken this much time, each at its side's best: on a busy machine
    /// a comparison takes longer and has as many calls,
    pub time: Duration,
    /// but at least so many turns of every side,
    pub least: usize,
    /// and at most so many.
    pub most: usize,
}

/// A busy machine may make a comparison so many times longer before it is cut short.
const BUSY: u32 = 5;

/// A side has its turn for about this long before the next has its own, so that each has its
/// memory in the cache as in a run of calls.
const TURN: f64 = 1e6;

/// The most calls of a turn.
const MOST_CALLS: f64 = 100.0;

/// The same value, of which the compiler is to know nothing. Rust has such a function from 1.66 on.
#[allow(unsafe_code)]
pub fn hidden<T>(value: T) -> T {
    // The value is read from a live place, which is then forgotten, so that it is dropped once.
    let same = unsafe { read_volatile(&value) };
    forget(value);
    same
}

/// The nanoseconds of a call. What it answers is dropped after the clock has stopped.
pub fn timed<T>(call: impl FnOnce() -> T) -> f64 {
    let start = Instant::now();
    let answer = hidden(call());
    let time = start.elapsed();
    drop(answer);
    time.as_nanos() as f64
}

/// The best time of each side, less what the clock itself takes.
///
/// The first run of a side, which warms it up, only tells how many calls make a turn.
pub fn best(sides: &mut [Side], patience: Patience) -> Vec<f64> {
    let calls: Vec<usize> = sides.iter_mut().map(|side| calls_of_a_turn(side())).collect();
    let mut best = vec![f64::INFINITY; sides.len()];
    let start = Instant::now();
    let (mut turns, mut worked) = (0, 0.0);
    while turns < patience.least || !patience.ends(turns, worked, start) {
        for (k, side) in sides.iter_mut().enumerate() {
            let turn = (0..calls[k]).map(|_| side()).fold(f64::INFINITY, f64::min);
            best[k] = best[k].min(turn);
            worked += best[k] * calls[k] as f64;
        }
        turns += 1;
    }
    let clock = of_the_clock();
    best.iter().map(|time| (time - clock).max(1.0)).collect()
}

impl Patience {
    /// True after so many turns and so many nanoseconds of work since the start.
    fn ends(&self, turns: usize, worked: f64, start: Instant) -> bool {
        turns >= self.most
            || worked >= self.time.as_nanos() as f64
            || start.elapsed() >= BUSY * self.time
    }
}

fn calls_of_a_turn(first: f64) -> usize {
    (TURN / first.max(1.0)).clamp(1.0, MOST_CALLS) as usize
}

/// The nanoseconds between two looks at the clock.
fn of_the_clock() -> f64 {
    (0..1_000).map(|_| timed(|| ())).fold(f64::INFINITY, f64::min)
}
