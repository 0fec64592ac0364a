//! Origins that cells are counted from: corners of tiles, numbers at the edges of the format, and what
//! is no place.

use super::{networks, shapes, stars, tolerances, wild, Style};
use crate::call::BuildCall;
use crate::random::Random;

/// What is laid out in tiles.
const LAID: [Style<BuildCall>; 6] = [
    ("cells", tolerances::cells),
    ("cells", tolerances::cells),
    ("streets", networks::streets),
    ("roads", networks::roads),
    ("shapes", shapes::shapes),
    ("star", stars::star),
];

/// Tolerances in place of none, so that there are cells.
const TOLERANCES: [f64; 6] = [0.125, 0.5, 1.0, 1.0, 1.5, 3.0];

/// One number of an origin in so many is wild, NaN and infinities among these.
const WILD: usize = 32;

/// Lines of other styles, mostly with a tolerance, and cells counted from an origin.
pub fn tiles(random: &mut Random, lines: usize) -> BuildCall {
    let (_, make) = random.pick(&LAID);
    let mut call = make(random, lines);
    if f64::from_bits(call.tolerance) == 0.0 && !random.one_in(8) {
        call.tolerance = random.pick(&TOLERANCES).to_bits();
    }
    with_origin(random, &call)
}

/// The call with cells counted from some origin.
pub fn with_origin(random: &mut Random, call: &BuildCall) -> BuildCall {
    let origin = [number(random, call), number(random, call)];
    BuildCall { origin, ..call.clone() }
}

/// x or y of an origin.
fn number(random: &mut Random, call: &BuildCall) -> u64 {
    let few = [0.25f64, 0.5, -0.25, 0.1, 0.75, -3.7, 1e-9, -1e-9];
    let large = [-1e15, (1u64 << 53) as f64, (1u64 << 62) as f64, 1e300, f64::MAX, f64::MIN];
    let small = [5e-324f64, -5e-324, f64::MIN_POSITIVE, -f64::MIN_POSITIVE];
    if random.one_in(WILD) {
        return wild::word(random);
    }
    match random.below(8) {
        0 => random.pick(&[0, 1 << 63]),
        1..=3 => corner(random, call),
        4 => random.pick(&large).to_bits(),
        5 => random.pick(&small).to_bits(),
        _ => random.pick(&few).to_bits(),
    }
}

/// A number of a coordinate, or one so many cells away from it. Where that is no place, 0.
fn corner(random: &mut Random, call: &BuildCall) -> u64 {
    if call.coordinates.is_empty() {
        return 0;
    }
    let number = f64::from_bits(random.pick(&call.coordinates));
    let corner = number + random.between(-3, 3) as f64 * f64::from_bits(call.tolerance);
    if corner.is_finite() {
        corner.to_bits()
    } else {
        0
    }
}
