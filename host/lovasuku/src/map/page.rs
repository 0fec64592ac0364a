//! The page: where the map's points lie on it, and its scale.

use super::detail::Detail;
use crate::delivery::{Delivery, Point};
use crate::measure::{bounds, Measure, RADIUS};
use crate::numbers::parted;

/// The size of the page and of the frame on it that the map is drawn in, in pixels.
pub const WIDTH: f64 = 1200.0;
pub const MARGIN: f64 = 24.0;
pub const HEAD: f64 = 84.0;
pub const PANEL: f64 = 312.0;
const FRAME_WIDTH: f64 = WIDTH - PANEL - 3.0 * MARGIN;
const FRAME_HEIGHTS: [f64; 2] = [480.0, 860.0];
const INSET: f64 = 40.0;

/// How many lines are drawn at the full width.
pub const FEW_LINES: f64 = 300.0;

/// How many bridges have rings of the full size.
pub const FEW_BRIDGES: f64 = 20.0;

/// Where points lie on the page.
#[derive(Clone, Copy, Debug)]
pub struct Page {
    /// The lowest and the highest x and y of all points.
    bounds: [Point; 2],
    /// Pixels for two units of y. Halves are subtracted throughout, so that no difference is beyond
    /// the largest number.
    scale: f64,
    /// What x is narrowed by, which is 1 unless x and y are degrees.
    narrow: f64,
    pub frame_height: f64,
    pub detail: Detail,
}

impl Page {
    pub fn of(delivery: &Delivery, measure: &Measure, detail: Detail) -> Self {
        let bounds = bounds(delivery);
        let [west, south] = bounds[0];
        let [east, north] = bounds[1];
        let narrow = match measure.degrees {
            true => middle(south, north).to_radians().cos().max(0.01),
            false => 1.0,
        };
        let halves = [half(west, east) * narrow, half(south, north)];
        let inner = FRAME_WIDTH - 2.0 * INSET;
        let fair = inner * halves[1] / halves[0] + 2.0 * INSET;
        let frame_height = if fair.is_nan() { FRAME_HEIGHTS[0] } else { fair };
        let frame_height = frame_height.clamp(FRAME_HEIGHTS[0], FRAME_HEIGHTS[1]).round();
        let fits = [inner / halves[0], (frame_height - 2.0 * INSET) / halves[1]];
        let scale = fits[0].min(fits[1]);
        let scale = if scale.is_finite() { scale } else { 1.0 };
        Page { bounds, scale, narrow, frame_height, detail }
    }

    pub fn height(&self) -> f64 {
        HEAD + self.frame_height + MARGIN
    }

    pub fn frame_width(&self) -> f64 {
        FRAME_WIDTH
    }

    /// The place of a point on the page, in pixels from its upper left corner.
    pub fn place(&self, [x, y]: Point) -> Point {
        let [middle_x, middle_y] = self.middle();
        let right = self.scale * self.narrow * half(middle_x, x);
        let up = self.scale * half(middle_y, y);
        [MARGIN + FRAME_WIDTH / 2.0 + right, HEAD + self.frame_height / 2.0 - up]
    }

    /// The point in the middle of the frame.
    pub fn middle(&self) -> Point {
        let [[west, south], [east, north]] = self.bounds;
        [middle(west, east), middle(south, north)]
    }

    /// The pixels of a length, along x and along y.
    pub fn pixels(&self, length: f64) -> Point {
        let pixels = self.scale * (length / 2.0);
        [pixels * self.narrow, pixels]
    }

    /// A round length for the scale: its pixels and its words.
    pub fn scale_bar(&self, measure: &Measure) -> (f64, String) {
        let unit = if measure.degrees { RADIUS.to_radians() } else { 1.0 };
        let round = round_below(FRAME_WIDTH / 5.0 / self.scale * 2.0 * unit);
        (round / unit / 2.0 * self.scale, format!("{} {}", plain(round), measure.unit))
    }
}

/// What strokes and signs are made smaller by, so that more than a few things are told apart.
pub fn fineness(things: usize, few: f64) -> f64 {
    (few / (things.max(1) as f64)).powf(0.4).clamp(0.2, 1.0)
}

fn middle(low: f64, high: f64) -> f64 {
    low / 2.0 + high / 2.0
}

fn half(low: f64, high: f64) -> f64 {
    high / 2.0 - low / 2.0
}

/// The highest of 1, 2 and 5 times a power of ten that is not above the number.
fn round_below(x: f64) -> f64 {
    let power = 10f64.powf(x.log10().floor());
    let digit = [5.0, 2.0, 1.0].into_iter().find(|digit| digit * power <= x).unwrap_or(1.0);
    digit * power
}

/// A round number in words.
fn plain(x: f64) -> String {
    match x {
        _ if (1e4..1e9).contains(&x) => parted(x as usize),
        _ if (1e-4..1e9).contains(&x) => format!("{}", (x * 1e6).round() / 1e6),
        _ => format!("{x:e}"),
    }
}

#[cfg(test)]
mod tests {
    use super::{plain, round_below};

    #[test]
    fn round_numbers() {
        let all = [0.7, 1.0, 3.0, 7.0, 12.0, 999.0];
        assert_eq!(all.map(round_below), [0.5, 1.0, 2.0, 5.0, 10.0, 500.0]);
        assert_eq!([0.5, 200.0, 5e5, 2e300].map(plain), ["0.5", "200", "500,000", "2e300"]);
    }
}
