//! Directions and measures, as the rules define them.

use crate::large::Point;

/// The unit direction from the first of some points to the nearest later one that differs from it.
/// Nothing where none differs, or where the two are so near that their distance rounds to 0.
pub fn direction(mut points: impl Iterator<Item = Point>) -> Option<[f64; 2]> {
    let from = points.next()?;
    let to = points.find(|&point| point != from)?;
    let [dx, dy] = [to[0] - from[0], to[1] - from[1]];
    let length = (dx * dx + dy * dy).sqrt();
    (length > 0.0).then(|| [dx / length, dy / length])
}

/// The measure of two directions: their dot product, held within -1 to 1. NaN stays NaN.
pub fn measure(a: [f64; 2], b: [f64; 2]) -> f64 {
    (a[0] * b[0] + a[1] * b[1]).clamp(-1.0, 1.0)
}

/// The bend in degrees that a measure or a limit stands for, for people: 0 is straight on and 180 is
/// back where one came from.
///
/// ```
/// use lovasuku_chains::explain::bend_of;
///
/// assert_eq!([-1.0, 0.0, 1.0].map(bend_of), [0.0, 90.0, 180.0]);
/// assert_eq!(bend_of(-0.5).round(), 60.0);
/// ```
pub fn bend_of(measure: f64) -> f64 {
    (-measure).acos().to_degrees()
}

#[cfg(test)]
mod tests {
    use super::{direction, measure};

    /// Case M of the rules: how near two points may be to have a direction, and how far apart.
    #[test]
    fn directions_of_very_near_and_very_far_points() {
        let along = |dx: f64| direction([[0.0, 0.0], [dx, 0.0]].into_iter());
        assert_eq!(along(2f64.powi(-537)), Some([1.0, 0.0]));
        assert_eq!(along(2f64.powi(-538)), None);
        assert_eq!(along(2f64.powi(511)), Some([1.0, 0.0]));
        assert_eq!(along(2f64.powi(512)), Some([0.0, 0.0]));
    }

    #[test]
    fn the_nearest_point_that_differs() {
        let points = [[0.0, 1.0], [-0.0, 1.0], [0.0, 3.0], [5.0, 3.0]];
        assert_eq!(direction(points.into_iter()), Some([0.0, 1.0]));
        assert_eq!(direction(points.into_iter().rev()), Some([-1.0, 0.0]));
        assert_eq!(direction(points.into_iter().take(2)), None);
        assert_eq!(direction(points.into_iter().take(1)), None);
        assert_eq!(direction([].into_iter()), None);
    }

    #[test]
    fn measures_are_held_and_nan_stays() {
        assert_eq!(measure([1.0, 0.0], [-1.0, 0.0]), -1.0);
        assert_eq!(measure([0.6, 0.8], [1.0, 1.0]), 1.0);
        assert!(measure([f64::NAN, 0.0], [1.0, 0.0]).is_nan());
    }
}
