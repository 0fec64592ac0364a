//! Inputs by style. A seed and a size determine a call, on every machine alike: only addition,
//! subtraction, multiplication, division and the root are used, which IEEE 754 fixes to the bit.

pub mod deliveries;
pub mod districts;
pub mod heights;
pub mod networks;
pub mod origins;
pub mod pairing;
pub mod parting;
pub mod regions;
pub mod shapes;
pub mod stars;
pub mod tiny;
pub mod tolerances;
pub mod wild;
pub mod windows;

use crate::call::{BuildCall, PairingCall};
use crate::model::plane::Point;
use crate::random::Random;

/// A named way to make calls of about the given size: lines or ends at a node for building, ends
/// for pairing.
pub type Style<C> = (&'static str, fn(&mut Random, usize) -> C);

/// The styles of building calls.
pub const BUILDING: [Style<BuildCall>; 8] = [
    ("star", stars::star),
    ("streets", networks::streets),
    ("rows", networks::rows),
    ("roads", networks::roads),
    ("cells", tolerances::cells),
    ("shapes", shapes::shapes),
    ("wild", wild::wild),
    ("bits", wild::bits),
];

/// The styles of pairing calls.
pub const PAIRING: [Style<PairingCall>; 9] = [
    ("axes", pairing::axes),
    ("circle", pairing::circle),
    ("whole", pairing::whole),
    ("close", pairing::close),
    ("identical", pairing::identical),
    ("zeros", pairing::zeros),
    ("huge", pairing::huge),
    ("nonfinite", pairing::nonfinite),
    ("bits", pairing::bits),
];

/// A point by its floats.
pub fn point(x: f64, y: f64) -> Point {
    [x.to_bits(), y.to_bits()]
}

/// A limit from -1 to 1, often one of the marked ones.
pub fn limit(random: &mut Random) -> u64 {
    let marked = [-1.0, -0.5, -0.0, 0.0, 0.5, 1.0];
    let limit = if random.one_in(3) { random.unit() } else { random.pick(&marked) };
    limit.to_bits()
}

/// Sets the switch and the limit; where the switch is 0 the limit may be anything.
pub fn junctions(random: &mut Random, call: &mut BuildCall, switch: bool) {
    call.switch = u8::from(switch);
    call.limit = limit(random);
    if !switch && random.one_in(2) {
        call.limit = wild::word(random);
    }
}

/// A line or its reverse.
pub fn either_way(random: &mut Random, mut line: Vec<Point>) -> Vec<Point> {
    if random.one_in(2) {
        line.reverse();
    }
    line
}
