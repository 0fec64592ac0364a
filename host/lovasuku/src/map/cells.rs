//! The grid of cells within which ends meet, drawn lightly below everything else.

use super::drawing::Drawn;
use super::page::{Page, HEAD, MARGIN};
use super::svg::digits_of;
use super::Sheet;
use crate::delivery::Point;
use std::fmt::Write;

/// The cells of a tolerance: how long their sides are, and the corner that they are counted from.
#[derive(Clone, Copy, Debug, PartialEq)]
pub struct Cells {
    pub side: f64,
    pub origin: Point,
}

/// How many pixels a cell has at least where the grid is drawn, so that its lines are told apart, and
/// from how many on they are drawn in full; nearer to each other they are paler.
const LEAST: f64 = 3.0;
const FULL: f64 = 9.0;

/// Draws the lines of the grid within the frame.
pub fn grid(out: &mut String, sheet: &Sheet, page: &Page) -> Drawn {
    let ([columns, rows], side) = match (places(sheet, page), sheet.cells) {
        (Some(places), Some(Cells { side, .. })) => (places, page.pixels(side)[1]),
        _ => return Ok(()),
    };
    let (width, height) = (page.frame_width(), page.frame_height);
    let opacity = (side / FULL).min(1.0);
    write!(out, "<path class=\"cells\" stroke-opacity=\"{opacity:.2}\" d=\"")?;
    for x in columns {
        write!(out, "M{} {HEAD}v{height}", digits_of(x))?;
    }
    for y in rows {
        write!(out, "M{MARGIN} {}h{width}", digits_of(y))?;
    }
    writeln!(out, "\"/>")
}

/// True where the grid is drawn.
pub fn are_drawn(sheet: &Sheet, page: &Page) -> bool {
    places(sheet, page).is_some()
}

/// Where the lines of the grid run on the page, by x and by y, if its cells are large enough.
fn places(sheet: &Sheet, page: &Page) -> Option<[Vec<f64>; 2]> {
    let Cells { side, origin } = sheet.cells?;
    let frames = [(MARGIN, page.frame_width()), (HEAD, page.frame_height)];
    let along = |axis: usize| {
        let (from, length) = frames[axis];
        let middle = page.middle()[axis];
        // The line of the grid next below the middle, from which the others are counted.
        let line = origin[axis] + ((middle - origin[axis]) / side).floor() * side;
        let mut point = page.middle();
        point[axis] = line;
        let (at, step) = (page.place(point)[axis], page.pixels(side)[axis]);
        let within = at.is_finite() && step >= LEAST;
        within.then(|| lines(at, step, from, from + length))
    };
    Some([along(0)?, along(1)?])
}

/// The places strictly between two bounds that are whole steps from a given one.
fn lines(at: f64, step: f64, low: f64, high: f64) -> Vec<f64> {
    let first = at - ((at - low) / step).floor() * step;
    let places = (0..).map(|k| first + k as f64 * step).take_while(|&place| place < high);
    places.filter(|&place| place > low).collect()
}

#[cfg(test)]
mod tests {
    use super::lines;

    #[test]
    fn lines_within_bounds() {
        assert_eq!(lines(7.0, 5.0, 0.0, 20.0), [2.0, 7.0, 12.0, 17.0]);
        assert_eq!(lines(-3.0, 5.0, 0.0, 10.0), [2.0, 7.0]);
        assert_eq!(lines(5.0, 5.0, 0.0, 10.0), [5.0]);
        assert_eq!(lines(1e9, 1e10, 0.0, 10.0), [0.0; 0]);
    }
}
