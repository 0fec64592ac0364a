//! Points, keys, directions and the measure.

/// A coordinate: the bits of x and y.
pub type Point = [u64; 2];

/// What the ends at one node have in common: the group and two whole numbers.
pub type Key = (u32, i64, i64);

/// A point as two floats.
fn floats(point: Point) -> (f64, f64) {
    (f64::from_bits(point[0]), f64::from_bits(point[1]))
}

/// True where two points are equal by `==` of their floats.
pub fn same(a: Point, b: Point) -> bool {
    floats(a) == floats(b)
}

/// True where points are a loop: at least three, of which the first and the last agree bit for bit.
pub fn looped(points: &[Point]) -> bool {
    matches!(points, [first, _, .., last] if first == last)
}

/// The key of round one: the bits of x and y.
pub fn exact_key(group: u32, point: Point) -> Key {
    (group, point[0] as i64, point[1] as i64)
}

/// The key of round two: the cells of x and y, counted from an origin.
pub fn cell_key(group: u32, point: Point, origin: Point, tolerance: f64) -> Key {
    let ((x, y), (from_x, from_y)) = (floats(point), floats(origin));
    (group, cell(x, from_x, tolerance), cell(y, from_y, tolerance))
}

/// The floor of (coordinate - origin) / tolerance, held within the range of i64, and 0 for NaN. The
/// difference is rounded, and then the quotient.
pub fn cell(coordinate: f64, origin: f64, tolerance: f64) -> i64 {
    let floor = ((coordinate - origin) / tolerance).floor();
    let bound = (1u64 << 63) as f64;
    if floor.is_nan() {
        0
    } else if floor >= bound {
        i64::MAX
    } else if floor < -bound {
        i64::MIN
    } else {
        floor as i64
    }
}

/// The unit direction from an end (0 the first coordinate, 1 the last) into its piece.
pub fn direction(points: &[Point], end: usize) -> Option<(f64, f64)> {
    let inward: Vec<Point> = match end {
        0 => points.to_vec(),
        _ => points.iter().rev().copied().collect(),
    };
    let anchor = inward[0];
    let next = *inward[1..].iter().find(|&&point| !same(point, anchor))?;
    let ((x, y), (to_x, to_y)) = (floats(anchor), floats(next));
    let (dx, dy) = (to_x - x, to_y - y);
    let length = (dx * dx + dy * dy).sqrt();
    (length > 0.0).then(|| (dx / length, dy / length))
}

/// The measure of two directions: the dot product, held within -1 to 1; NaN stays NaN.
pub fn measure(a: (f64, f64), b: (f64, f64)) -> f64 {
    (a.0 * b.0 + a.1 * b.1).clamp(-1.0, 1.0)
}
