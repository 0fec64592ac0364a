//! The mark of loops: chains that end where they begin, as turning loops do.

use super::drawing::{dots, Drawn};
use super::page::{fineness, Page, FEW_LINES};
use super::svg::{digits_of, escape};
use super::Sheet;
use crate::delivery::Point;
use crate::measure::extent;
use crate::tally::runs_of;
use std::fmt::Write;

/// The mark of a loop: a way round with the tip of an arrow.
pub const ROUND: &str = "M4.6-4.6A6.5 6.5 0 1 0 6.5 0M1.2-6.2L4.6-4.6L3.6-1";

/// How many pixels a loop has at least either way that its mark stands in, and how far from a smaller
/// one it stands.
const LARGE: f64 = 30.0;
const BESIDE: f64 = 14.0;

/// Draws the mark of every loop.
pub fn loops(out: &mut String, sheet: &Sheet, page: &Page) -> Drawn {
    let mut all: Vec<usize> =
        (0..sheet.chains.len()).filter(|&k| sheet.chains[k].is_loop).collect();
    all.sort_by(|&a, &b| sheet.lengths[b].total_cmp(&sheet.lengths[a]));
    let (titled, others) = all.split_at(all.len().min(page.detail.titled));
    let fine = fineness(sheet.tally.lines, FEW_LINES);
    writeln!(out, "<g class=\"loops\">")?;
    for &position in titled {
        let [x, y] = place(sheet, page, position).map(digits_of);
        let title = escape(&title(sheet, position));
        writeln!(
            out,
            "<g transform=\"translate({x} {y}) scale({fine:.2})\"><title>{title}</title>\
             <circle r=\"9\"/><path d=\"{ROUND}\"/></g>"
        )?;
    }
    let middles: Vec<Point> = others.iter().map(|&position| middle(sheet, position)).collect();
    dots(out, page, "#00707a", middles.iter())?;
    writeln!(out, "</g>")
}

fn title(sheet: &Sheet, position: usize) -> String {
    let length = sheet.measure.words(sheet.lengths[position]);
    let first = points(sheet, position).next().unwrap_or_default();
    format!("loop: chain {position}, {length} long\nfrom {} {} back to it", first[0], first[1])
}

fn points<'a>(sheet: &'a Sheet, position: usize) -> impl Iterator<Item = Point> + 'a {
    runs_of(sheet.delivery, &sheet.chains[position]).into_iter().flatten().copied()
}

/// Where the mark of a loop stands on the page: in the middle of its extent, or beside it where the
/// mark would cover it.
fn place(sheet: &Sheet, page: &Page, position: usize) -> Point {
    let [low, high] = extent(points(sheet, position)).map(|corner| page.place(corner));
    let [width, height] = [high[0] - low[0], low[1] - high[1]];
    let middle = page.place(middle(sheet, position));
    match width.min(height) < LARGE {
        true => [high[0] + BESIDE, middle[1]],
        false => middle,
    }
}

/// The middle of the extent of a chain. Halves are added, so that no sum is beyond the largest number.
fn middle(sheet: &Sheet, position: usize) -> Point {
    let [low, high] = extent(points(sheet, position));
    [low[0] / 2.0 + high[0] / 2.0, low[1] / 2.0 + high[1] / 2.0]
}
