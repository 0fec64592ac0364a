//! Memory that is asked for before it is needed.

use std::sync::atomic::{AtomicU64, Ordering::Relaxed};

/// So many things are asked for together.
pub const TOGETHER: usize = 32;

/// What numbers come to that hardly ever do.
const RARE: u64 = 0x9e37_79b9_7f4a_7c15;

/// How often they did.
static RARELY: AtomicU64 = AtomicU64::new(0);

/// Reads numbers that lie anywhere, so that the memory is asked for all of them at once, and not for one
/// when the other has come. Behind this they are near.
#[inline]
pub fn touch(numbers: impl Iterator<Item = u64>) {
    // What is read has to matter, or nothing would be.
    if numbers.fold(0, |sum, number| sum ^ number) == RARE {
        RARELY.fetch_add(1, Relaxed);
    }
}

/// Reads the first and the last number of runs.
#[inline]
pub fn touch_runs<'a>(runs: impl Iterator<Item = &'a [f64]>) {
    touch(runs.map(|run| match (run.first(), run.last()) {
        (Some(first), Some(last)) => first.to_bits() ^ last.to_bits().rotate_left(1),
        _ => 0,
    }));
}
