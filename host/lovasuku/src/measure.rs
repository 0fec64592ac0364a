//! Lengths: on the sphere where the coordinates are degrees, else in the plane.

use crate::delivery::{Delivery, Point};
use crate::joining::distance;
use crate::numbers::rounded;

/// The mean radius of the earth in metres.
pub const RADIUS: f64 = 6_371_008.8;

/// How lengths are measured, and what they are told in.
#[derive(Clone, Debug, PartialEq)]
pub struct Measure {
    /// True where x and y are degrees of longitude and latitude.
    pub degrees: bool,
    /// The name of the unit of lengths.
    pub unit: String,
    /// True where the unit of the coordinates was named.
    pub named: bool,
}

impl Measure {
    /// The measure for a delivery: by the unit that was named for its coordinates, or by what speaks
    /// for degrees.
    pub fn of(delivery: &Delivery, units: Option<&str>) -> Self {
        let degrees = match units {
            Some(units) => matches!(&units.to_lowercase()[..], "degrees" | "degree" | "deg" | "°"),
            None => are_degrees(delivery.crs(), bounds(delivery)),
        };
        let unit = if degrees { "m" } else { units.unwrap_or("units") };
        Measure { degrees, unit: unit.to_owned(), named: units.is_some() }
    }

    /// The distance of two points.
    pub fn distance(&self, a: Point, b: Point) -> f64 {
        match self.degrees {
            true => on_the_sphere(a, b),
            false => distance(a, b),
        }
    }

    /// The length of a way through points.
    pub fn length(&self, points: &[Point]) -> f64 {
        points.windows(2).fold(0.0, |sum, two| sum + self.distance(two[0], two[1]))
    }

    /// A length in words.
    pub fn words(&self, length: f64) -> String {
        format!("{} {}", rounded(length), self.unit)
    }
}

/// The distance of two points given in degrees, in metres, by the haversine.
fn on_the_sphere([x, y]: Point, [to_x, to_y]: Point) -> f64 {
    let half_sine = |from: f64, to: f64| ((to - from).to_radians() / 2.0).sin().powi(2);
    let cosines = y.to_radians().cos() * to_y.to_radians().cos();
    let square = half_sine(y, to_y) + cosines * half_sine(x, to_x);
    2.0 * RADIUS * square.clamp(0.0, 1.0).sqrt().asin()
}

/// The lowest and the highest x and y of all points.
pub fn bounds(delivery: &Delivery) -> [Point; 2] {
    let bounds = extent(delivery.shapes().points().iter().copied());
    match bounds[0][0].is_finite() {
        true => bounds,
        false => [[0.0; 2]; 2],
    }
}

/// The lowest and the highest x and y of points; infinities the other way round where there is none.
pub fn extent(points: impl Iterator<Item = Point>) -> [Point; 2] {
    let mut extent = [[f64::INFINITY; 2], [f64::NEG_INFINITY; 2]];
    for [x, y] in points {
        extent[0] = [extent[0][0].min(x), extent[0][1].min(y)];
        extent[1] = [extent[1][0].max(x), extent[1][1].max(y)];
    }
    extent
}

/// True where nothing speaks against degrees, which GeoJSON has unless it names another system.
fn are_degrees(crs: Option<&str>, [[west, south], [east, north]]: [Point; 2]) -> bool {
    let named = crs.map_or(true, |crs| crs.contains("CRS84") || crs.contains("4326"));
    named && west >= -180.0 && east <= 180.0 && south >= -90.0 && north <= 90.0
}

#[cfg(test)]
mod tests {
    use super::on_the_sphere;

    #[test]
    fn distances_on_the_sphere() {
        let degree = on_the_sphere([10.0, 0.0], [11.0, 0.0]);
        assert!((degree - 111_195.08).abs() < 0.01, "{degree}");
        let quarter = on_the_sphere([0.0, 0.0], [77.0, 90.0]);
        assert!((quarter - 90.0 * degree).abs() < 0.01, "{quarter}");
        assert!((on_the_sphere([0.0, 60.0], [1e-6, 60.0]) - degree / 2e6).abs() < 1e-6);
        assert_eq!(on_the_sphere([3.0, 4.0], [3.0, 4.0]), 0.0);
        assert!((on_the_sphere([-179.5, 0.0], [179.5, 0.0]) - degree).abs() < 0.01);
    }
}
