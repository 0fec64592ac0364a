//! Time per call, of a leaf and of the processor's own operation, in one run.

use crate::leaves;
use std::fmt;
use std::time::Instant;

const INPUTS: usize = 4096;
const RUNS: usize = 400;

/// A leaf may take so many times the processor's time.
pub const MOST_ROOT: f64 = 8.0;
pub const MOST_FLOOR: f64 = 3.0;

/// Nanoseconds per call, the best of many runs.
pub struct Pace {
    pub name: &'static str,
    pub leaf: f64,
    pub processor: f64,
    pub most: f64,
}

impl Pace {
    /// How many times the processor's time the leaf takes.
    pub fn times(&self) -> f64 {
        self.leaf / self.processor
    }

    pub fn within(&self) -> bool {
        self.times() <= self.most
    }
}

impl fmt::Display for Pace {
    fn fmt(&self, f: &mut fmt::Formatter) -> fmt::Result {
        let Pace { name, leaf, processor, most } = self;
        let times = self.times();
        write!(f, "{name:6} {leaf:6.2} ns, processor {processor:6.2} ns: {times:.1} times")?;
        write!(f, ", at most {most}")
    }
}

/// Root, floor and cell over coordinates up to a million, of both signs but for the root.
pub fn paces() -> [Pace; 3] {
    let coordinates: Vec<f64> = (0..INPUTS).map(coordinate).collect();
    let sizes: Vec<f64> = coordinates.iter().map(|x| x.abs()).collect();
    [
        Pace {
            name: "root",
            leaf: best(&sizes, leaves::root),
            processor: best(&sizes, leaves::processor_root),
            most: MOST_ROOT,
        },
        Pace {
            name: "floor",
            leaf: best(&coordinates, |x| leaves::floor(x) as f64),
            processor: best(&coordinates, |x| leaves::processor_floor(x) as f64),
            most: MOST_FLOOR,
        },
        Pace {
            name: "cell",
            leaf: best(&coordinates, |x| leaves::cell(x.to_bits(), 12.5, 0.37) as f64),
            processor: best(&coordinates, |x| {
                leaves::processor_cell(x.to_bits(), 12.5, 0.37) as f64
            }),
            most: MOST_FLOOR,
        },
    ]
}

fn coordinate(i: usize) -> f64 {
    let spread = (i as u64).wrapping_mul(0x9e37_79b9_7f4a_7c15) >> 11;
    (spread as f64 / (1u64 << 52) as f64 - 1.0) * 1e6
}

fn best(inputs: &[f64], call: impl Fn(f64) -> f64) -> f64 {
    (0..RUNS).map(|_| once(inputs, &call)).fold(f64::INFINITY, f64::min)
}

/// One run: nanoseconds per call, the answers summed so that none is left out.
fn once(inputs: &[f64], call: impl Fn(f64) -> f64) -> f64 {
    let start = Instant::now();
    let sum: f64 = inputs.iter().map(|x| call(*x)).sum();
    let time = start.elapsed();
    assert!(sum.is_finite(), "the answers add up to {sum}");
    time.as_nanos() as f64 / inputs.len() as f64
}
