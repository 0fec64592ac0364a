//! The lines of the page: their points, with every bit of each number.
//!
//! Where all numbers are decimals of few digits, as in most deliveries, they are written as whole numbers
//! of the last decimal, and else by their bits. Either way each is written as the difference from the
//! number before it, x from x and y from y, which takes few bytes where points lie near each other.

use super::bytes::Bytes;
use crate::delivery::{Delivery, Point};
use serde_json::{json, Value};

/// The most decimals that are looked for.
const MOST_DECIMALS: usize = 15;

/// What whole numbers stay below, so that a difference of two is exact in a double.
const MOST_WHOLE: u64 = 1 << 51;

/// The lines as the page reads them.
pub fn shapes(delivery: &Delivery) -> Value {
    let mut counts = Bytes::default();
    let shapes = delivery.shapes();
    for line in delivery.lines() {
        match shapes.line(line) {
            Some((points, _)) => counts.number(2 * points.len() as u64),
            None => {
                // What passes through as several runs of points, or as none.
                counts.number(2 * shapes.runs(line).count() as u64 + 1);
                shapes.runs(line).for_each(|run| counts.number(run.len() as u64));
            }
        }
    }
    let points = shapes.points();
    let (decimals, bytes) = match decimals(points) {
        Some(decimals) => (Some(decimals), in_decimals(points, decimals)),
        None => (None, in_bits(points)),
    };
    json!({ "counts": counts.text(), "decimals": decimals, "points": bytes.text() })
}

/// A number as a whole number of so many decimals, where that is exactly the number.
fn whole(x: f64, decimals: usize) -> Option<i64> {
    let power = 10f64.powi(decimals as i32);
    // A zero below 0 is no whole number, and is seen by its bits.
    let whole = (x * power).round() as i64;
    let exact =
        whole.unsigned_abs() <= MOST_WHOLE && (whole as f64 / power).to_bits() == x.to_bits();
    exact.then_some(whole)
}

/// The least number of decimals that all numbers have exactly, if there is one.
fn decimals(points: &[Point]) -> Option<usize> {
    let mut least = 0;
    for &x in points.iter().flatten() {
        least = (least..=MOST_DECIMALS).find(|&decimals| whole(x, decimals).is_some())?;
    }
    // A number of few decimals may be too large for more.
    points.iter().flatten().all(|&x| whole(x, least).is_some()).then_some(least)
}

fn in_decimals(points: &[Point], decimals: usize) -> Bytes {
    let mut bytes = Bytes::default();
    let mut last = [0; 2];
    for point in points {
        let now = point.map(|x| whole(x, decimals).unwrap_or_default());
        (0..2).for_each(|axis| bytes.signed(now[axis] - last[axis]));
        last = now;
    }
    bytes
}

fn in_bits(points: &[Point]) -> Bytes {
    let mut bytes = Bytes::default();
    let mut last = [0; 2];
    for point in points {
        let now = point.map(|x| x.to_bits() as i64);
        (0..2).for_each(|axis| bytes.signed(now[axis].wrapping_sub(last[axis])));
        last = now;
    }
    bytes
}

#[cfg(test)]
mod tests {
    use super::{decimals, in_bits, in_decimals, whole, Point};

    #[test]
    fn decimals_are_exact_or_none() {
        let of = |numbers: &[f64]| {
            let points: Vec<Point> = numbers.iter().map(|&x| [x, 0.0]).collect();
            decimals(&points)
        };
        assert_eq!(of(&[1.0, -20.0, 0.0]), Some(0));
        assert_eq!(of(&[1.5, 487_012.25, 0.001]), Some(3));
        assert_eq!(of(&[25.123_456_7, 62.000_000_1]), Some(7));
        assert_eq!(of(&[0.1 + 0.2]), None);
        assert_eq!(of(&[-0.0]), None);
        assert_eq!(of(&[1e300]), None);
        assert_eq!(of(&[1e15, 0.125]), None);
        assert_eq!(of(&[]), Some(0));
        assert_eq!(whole(-20.25, 2), Some(-2025));
    }

    #[test]
    fn near_points_take_few_bytes() {
        let points =
            [[487_012.25, 6_900_000.5], [487_013.25, 6_900_000.5], [487_013.5, 6_900_001.0]];
        // The first two numbers from 0, then 100 and 0, 25 and 50 hundredths.
        assert_eq!(in_decimals(&points, 2).len(), 4 + 5 + 2 + 1 + 1 + 1);
        let bits = in_bits(&points).len();
        assert!((20..48).contains(&bits), "{bits}");
    }
}
