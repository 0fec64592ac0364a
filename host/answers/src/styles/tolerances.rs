//! Lines whose ends nearly meet, under every sort of tolerance.

use super::{junctions, point};
use crate::call::BuildCall;
use crate::model::plane::Point;
use crate::random::Random;

/// The tolerances: 0, negative, NaN, infinite, tiny, usual and huge.
pub const TOLERANCES: [f64; 18] = [
    0.0,
    -0.0,
    -1.0,
    f64::NAN,
    f64::INFINITY,
    f64::NEG_INFINITY,
    5e-324,
    f64::MIN_POSITIVE,
    1e-300,
    1e-9,
    0.25,
    0.5,
    1.0,
    1.0,
    3.0,
    1e9,
    1e300,
    f64::MAX,
];

/// Lines about the corners of a grid, some a little off.
pub fn cells(random: &mut Random, lines: usize) -> BuildCall {
    let mut call = BuildCall::default();
    let scale = random.pick(&[1.0, 1.0, 1.0, 1e-9, (1u64 << 62) as f64, 1e300]);
    for _ in 0..lines {
        let points: Vec<_> = (0..2 + random.below(2)).map(|_| corner(random, scale)).collect();
        call.push(&points, 0, 0);
    }
    let switch = random.one_in(2);
    junctions(random, &mut call, switch);
    call.tolerance = random.pick(&TOLERANCES).to_bits();
    call
}

fn corner(random: &mut Random, scale: f64) -> Point {
    let offsets = [0.0, 0.0, 0.25, -0.25, 0.5, 0.75, 1e-9, -1e-9];
    let mut coordinate = || {
        let whole = random.between(-3, 3) as f64;
        scale * (whole + random.pick(&offsets))
    };
    point(coordinate(), coordinate())
}
