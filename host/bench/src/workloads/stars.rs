//! All lines meet at one node: a star, a log yard, spurs of one direction.

use super::{Network, USUAL_LIMIT};
use crate::ends::toward;
use answers::random::Random;
use answers::BuildCall;

/// Spurs from one node to the given points, drawn either way.
fn spurs(points: impl Iterator<Item = (f64, f64)>, coarse: f64, limit: f64) -> Network {
    let mut random = Random::new(13);
    let mut call = BuildCall::default();
    for point in points {
        let mut spur = [(0.0, 0.0), point];
        if random.one_in(2) {
            spur.reverse();
        }
        call.push_plain(&spur);
    }
    Network { lines: call, coarse, limit }
}

/// Spurs in random directions, of random lengths up to 100.
pub fn star(lines: usize) -> Network {
    let mut random = Random::new(17);
    let point = |_| {
        let (x, y) = toward(&mut random);
        let length = 1.0 + random.below(100) as f64;
        (x * length, y * length)
    };
    spurs((0..lines).map(point), 10.0, USUAL_LIMIT)
}

/// Spurs in four directions, which all share.
pub fn log_yard(lines: usize) -> Network {
    let point = |line| {
        let length = 1.0 + (line / 4) as f64;
        [(length, 0.0), (0.0, length), (-length, 0.0), (0.0, -length)][line % 4]
    };
    spurs((0..lines).map(point), 16.0, USUAL_LIMIT)
}

/// Spurs of one direction. Every pair qualifies, and all have one measure.
pub fn identical(lines: usize) -> Network {
    spurs((0..lines).map(|line| (1.0 + line as f64, 0.0)), 64.0, 1.0)
}
