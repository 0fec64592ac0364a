//! Which way each line was drawn: an arrow on the middle of it.

use super::drawing::Drawn;
use super::page::{fineness, Page, FEW_LINES};
use super::svg::digits_of;
use super::Sheet;
use crate::delivery::Point;
use crate::joining::Chain;
use std::fmt::Write;

/// How many pixels a line has at least that an arrow is drawn on.
const LEAST: f64 = 12.0;

/// The shape of an arrow: its length and half its width, in pixels.
const LENGTH: f64 = 9.0;
const HALF: f64 = 4.0;

/// Draws the arrows, first of the lines that were drawn along their chains, then of those against.
pub fn arrows(out: &mut String, sheet: &Sheet, page: &Page) -> Drawn {
    if !sheet.arrows {
        return Ok(());
    }
    let fine = fineness(sheet.tally.lines, FEW_LINES).max(0.5);
    for (class, turned) in [("along", false), ("against", true)] {
        let of_chain = |chain: &Chain| -> String {
            let lines = chain.path.iter().filter(|step| step.turned == turned);
            let runs = lines.flat_map(|step| sheet.delivery.shapes().runs(step.line));
            runs.filter_map(|run| arrow(page, run, fine)).collect()
        };
        let way: String = sheet.chains.iter().map(of_chain).collect();
        if !way.is_empty() {
            writeln!(out, "<path class=\"arrow {class}\" d=\"{way}\"/>")?;
        }
    }
    Ok(())
}

/// The arrow on the middle of a line, pointing the way that it was drawn, if there is room for one.
fn arrow(page: &Page, run: &[Point], fine: f64) -> Option<String> {
    let places: Vec<Point> = run.iter().map(|&point| page.place(point)).collect();
    let length = |two: &[Point]| (two[1][0] - two[0][0]).hypot(two[1][1] - two[0][1]);
    let whole: f64 = places.windows(2).map(length).sum();
    (whole >= LEAST).then_some(())?;
    let mut left = whole / 2.0;
    let middle = places.windows(2).find(|two| {
        left -= length(two);
        left <= 0.0
    })?;
    let (segment, back) = (length(middle), -left);
    let [dx, dy] = [0, 1].map(|k| (middle[1][k] - middle[0][k]) / segment);
    let at = [middle[1][0] - back * dx, middle[1][1] - back * dy];
    Some(shape(at, [dx, dy], fine))
}

/// An arrow at a place of the page, in a direction.
pub fn shape([x, y]: Point, [dx, dy]: Point, fine: f64) -> String {
    let [along, aside] = [LENGTH / 2.0 * fine, HALF * fine];
    let tip = [x + along * dx, y + along * dy];
    let left = [x - along * dx + aside * dy, y - along * dy - aside * dx];
    let right = [x - along * dx - aside * dy, y - along * dy + aside * dx];
    let [a, b, c] = [tip, left, right].map(|[x, y]| format!("{} {}", digits_of(x), digits_of(y)));
    format!("M{a}L{b}L{c}z")
}

#[cfg(test)]
mod tests {
    use super::shape;

    #[test]
    fn an_arrow_points_its_way() {
        assert_eq!(shape([10.0, 10.0], [1.0, 0.0], 1.0), "M14.5 10L5.5 6L5.5 14z");
        assert_eq!(shape([10.0, 10.0], [0.0, -1.0], 1.0), "M10 5.5L6 14.5L14 14.5z");
    }
}
