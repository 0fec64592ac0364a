//! Keys: what the ends at one node have in common.

use super::Point;
use crate::Settings;

/// The group and two whole numbers.
pub type Key = (u32, i64, i64);

/// The key of an end: its cells where the tolerance is above 0, and else the bits of x and y. Ends
/// of equal bits lie in one cell, so cells alone tell what meets in either round.
pub fn key(group: u32, [x, y]: Point, settings: Settings) -> Key {
    let Settings { tolerance, origin: [from_x, from_y], .. } = settings;
    if tolerance > 0.0 {
        (group, cell(x, from_x, tolerance), cell(y, from_y, tolerance))
    } else {
        exact_key(group, [x, y])
    }
}

/// The key of round one: the bits of x and y.
pub fn exact_key(group: u32, [x, y]: Point) -> Key {
    (group, x.to_bits() as i64, y.to_bits() as i64)
}

/// The floor of (coordinate - origin) / tolerance, held within the range of i64, and 0 for NaN.
pub fn cell(coordinate: f64, origin: f64, tolerance: f64) -> i64 {
    ((coordinate - origin) / tolerance).floor() as i64
}
