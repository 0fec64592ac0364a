//! The times of one comparison.

use crate::clock::{best, Patience, Side};

/// The best times of a call in nanoseconds.
#[derive(Clone, Copy, Debug, PartialEq)]
pub struct Times {
    pub port: f64,
    pub rust: f64,
}

/// How much longer a comparison is run that the port seems to lose by a little.
const AGAIN: u32 = 3;

/// The ratios that are a little above 1.
const LITTLE: f64 = 1.5;

/// The times of the port and the Rust, in this order.
///
/// A comparison that the port seems to lose by a little is run again for longer, and each side
/// keeps its best.
pub fn measured(sides: &mut [Side; 2], patience: Patience) -> Times {
    let times = Times::best(sides, patience);
    if times.ratio() <= 1.0 || times.ratio() > LITTLE {
        return times;
    }
    let again = Times::best(sides, Patience { time: AGAIN * patience.time, ..patience });
    Times { port: times.port.min(again.port), rust: times.rust.min(again.rust) }
}

impl Times {
    fn best(sides: &mut [Side; 2], patience: Patience) -> Self {
        let times = best(sides, patience);
        Times { port: times[0], rust: times[1] }
    }

    /// The port's time as a part of the Rust's.
    pub fn ratio(&self) -> f64 {
        self.port / self.rust
    }
}
