//! What a building call is asked for beside its lines.

use crate::Offset;

/// The snap tolerance with the corner that its cells are counted from, and whether and how far
/// junctions are paired.
///
/// ```
/// use lovasuku_chains::Settings;
///
/// let exact = Settings::default();
/// let coarse = exact.with_tolerance(25.0).with_limit(-0.5);
/// assert_eq!(exact, Settings { tolerance: 0.0, origin: [0.0, 0.0], limit: None });
/// assert_eq!(coarse, Settings { tolerance: 25.0, origin: [0.0, 0.0], limit: Some(-0.5) });
/// ```
///
/// Tiles in coordinates of their own have the same cells where each names the corner that they
/// all count from, in its own coordinates:
///
/// ```
/// use lovasuku_chains::{LinesBuf, Rooms, Settings};
///
/// # fn main() -> Result<(), lovasuku_chains::Refusal> {
/// let mut rooms = Rooms::default();
/// let mut chains = |west: f64, origin: [f64; 2]| {
///     let mut tile = LinesBuf::default();
///     tile.push([[90.0 - west, 0.0], [108.0 - west, 0.0]], 0);
///     tile.push([[109.0 - west, 0.0], [120.0 - west, 0.0]], 0);
///     let settings = Settings::default().with_tolerance(10.0).with_origin(origin);
///     Ok(rooms.build(tile.lines(), settings)?.len())
/// };
/// assert_eq!(chains(0.0, [0.0, 0.0])?, 1);
/// // Counted from the tile's own zero, a line of the grid runs through the gap.
/// assert_eq!(chains(99.0, [0.0, 0.0])?, 2);
/// assert_eq!(chains(99.0, [-99.0, 0.0])?, 1);
/// # Ok(())
/// # }
/// ```
#[derive(Clone, Copy, Debug, Default, PartialEq)]
pub struct Settings {
    /// The side of the square cells within which ends meet in round two. Round two runs only
    /// where this is above 0; no tolerance is refused, NaN and infinities included.
    pub tolerance: f64,
    /// x and y of the corner that cells are counted from: the cell of a coordinate is the floor of
    /// (coordinate - origin) / tolerance, by x and by y. Refused where it is not finite, whatever
    /// the tolerance is.
    pub origin: [f64; 2],
    /// Where given, ends at junctions of three or more are paired, straightest first, as long as
    /// the dot product of their two unit directions is at or below it: -1 takes only a straight
    /// continuation, 0 a right angle too, 1 any turn. Refused where it is not from -1 to 1.
    pub limit: Option<f64>,
}

impl Settings {
    /// The same with another tolerance.
    pub fn with_tolerance(self, tolerance: f64) -> Self {
        Settings { tolerance, ..self }
    }

    /// The same with cells counted from another corner.
    pub fn with_origin(self, origin: [f64; 2]) -> Self {
        Settings { origin, ..self }
    }

    /// The same with junctions paired up to a limit.
    pub fn with_limit(self, limit: f64) -> Self {
        Settings { limit: Some(limit), ..self }
    }

    /// The same with junctions paired up to a bend in degrees, by [`limit_of_bend`].
    pub fn with_bend(self, degrees: f64) -> Self {
        Settings { limit: limit_of_bend(degrees), ..self }
    }

    /// The same with junctions paired up to an offset, by its limit.
    pub fn with_offset(self, offset: Offset) -> Self {
        self.with_limit(offset.limit())
    }

    /// The switch and the limit as the door takes them.
    pub(crate) fn switch_and_limit(self) -> (u8, f64) {
        match self.limit {
            Some(limit) => (1, limit),
            None => (0, 0.0),
        }
    }
}

/// The limit that a bend in degrees stands for: 0 and below, and NaN, pair no junction, 60 is
/// limit -0.5, 90 is 0, 120 is 0.5, 180 and above is 1.
///
/// Between these the limit comes from the sine of the platform's library, whose last bit no
/// standard fixes. A caller for whom that bit matters states the limit itself.
///
/// ```
/// use lovasuku_chains::limit_of_bend;
///
/// assert_eq!([0.0, -7.0, f64::NAN].map(limit_of_bend), [None; 3]);
/// let exact = [60.0, 90.0, 120.0, 180.0, 500.0].map(limit_of_bend);
/// assert_eq!(exact, [-0.5, 0.0, 0.5, 1.0, 1.0].map(Some));
/// assert!((limit_of_bend(45.0).unwrap() + 0.5f64.sqrt()).abs() < 1e-15);
/// ```
pub fn limit_of_bend(degrees: f64) -> Option<f64> {
    // No other bends in whole degrees have a limit that is a fraction; the sine misses these.
    if degrees == 60.0 {
        Some(-0.5)
    } else if degrees == 120.0 {
        Some(0.5)
    } else if degrees >= 180.0 {
        Some(1.0)
    } else if degrees > 0.0 {
        Some((degrees - 90.0).to_radians().sin().clamp(-1.0, 1.0))
    } else {
        None
    }
}
