//! What the map shows of the tolerance: the bridges that it made, and the gaps that it left.

use super::drawing::{dots, Drawn};
use super::labels::{self, Ring};
use super::page::{fineness, Page, FEW_BRIDGES};
use super::svg::{escape, place, way};
use super::{bridges_of, Sheet};
use crate::delivery::Point;
use crate::joining::{Gap, Joint, Why};
use crate::numbers::short;
use std::fmt::Write;

/// Draws the bridges, each in a ring that is seen however short it is.
pub fn bridges(out: &mut String, sheet: &Sheet, page: &Page) -> Drawn {
    let all = bridges_of(sheet);
    let (titled, others) = all.split_at(all.len().min(page.detail.titled));
    let fine = fineness(all.len(), FEW_BRIDGES);
    let rings: Vec<Ring> =
        titled.iter().map(|(_, bridge)| ring(sheet, page, bridge, fine)).collect();
    let labels = labels::places(page, &rings);
    writeln!(out, "<g class=\"bridges\">")?;
    dots(out, page, "#e0001b", others.iter().map(|(_, bridge)| &bridge.ends[0]))?;
    for (((chain, bridge), ring), label) in titled.iter().zip(&rings).zip(labels) {
        let title = escape(&bridge_title(sheet, *chain, bridge));
        write!(out, "<g><title>{title}</title><path d=\"{}\"/>", way(page, &bridge.ends))?;
        let Ring { middle: [x, y], radius, .. } = ring;
        write!(out, "<circle cx=\"{x:.1}\" cy=\"{y:.1}\" r=\"{radius:.1}\"/>")?;
        if let Some([x, y]) = label {
            write!(out, "<text x=\"{x:.1}\" y=\"{y:.1}\">{}</text>", ring.label)?;
        }
        writeln!(out, "</g>")?;
    }
    writeln!(out, "</g>")
}

/// The ring around a bridge, smaller where there are many.
fn ring(sheet: &Sheet, page: &Page, bridge: &Joint, fine: f64) -> Ring {
    let ends = bridge.ends.map(|end| page.place(end));
    let middle = [0, 1].map(|k| (ends[0][k] + ends[1][k]) / 2.0);
    let apart = (ends[1][0] - ends[0][0]).hypot(ends[1][1] - ends[0][1]);
    let radius = (10.0 * fine).max(apart / 2.0 + 6.0 * fine);
    let length = sheet.measure.distance(bridge.ends[0], bridge.ends[1]);
    Ring { middle, radius, length, label: short(length) }
}

fn bridge_title(sheet: &Sheet, chain: usize, bridge: &Joint) -> String {
    let words = length_and_ends(sheet, bridge.lines, bridge.ends);
    format!("bridge of length {words} in chain {chain}, made by the tolerance")
}

/// Draws the gaps below the tolerance that stayed open.
pub fn gaps(out: &mut String, sheet: &Sheet, page: &Page) -> Drawn {
    let all = &sheet.tally.gaps;
    let (titled, others) = all.split_at(all.len().min(page.detail.titled));
    let radius = 7.0 * fineness(all.len(), FEW_BRIDGES);
    writeln!(out, "<g class=\"gaps\">")?;
    dots(out, page, "#b87a00", others.iter().map(|gap| &gap.ends[0]))?;
    for gap in titled {
        let [x, y] = place(page, gap.ends[0]);
        let title = escape(&gap_title(sheet, gap));
        writeln!(
            out,
            "<circle cx=\"{x}\" cy=\"{y}\" r=\"{radius:.1}\"><title>{title}</title></circle>"
        )?;
    }
    writeln!(out, "</g>")
}

fn gap_title(sheet: &Sheet, gap: &Gap) -> String {
    let why = match gap.why {
        Why::Cells => "its ends lie in two cells",
        Why::Junction => "its cell has three ends or more",
        Why::Ring => "its ends are those of one chain",
    };
    format!("gap of length {}, still open: {why}", length_and_ends(sheet, gap.lines, gap.ends))
}

/// A length, two lines and two places in words.
fn length_and_ends(sheet: &Sheet, lines: [u32; 2], ends: [Point; 2]) -> String {
    let [a, b] = lines.map(|line| sheet.delivery.label(line));
    let length = sheet.measure.words(sheet.measure.distance(ends[0], ends[1]));
    let [[x, y], [to_x, to_y]] = ends;
    format!("{length}\nfrom line {a} at {x} {y}\nto line {b} at {to_x} {to_y}")
}
