//! The head of the page, the legend and the scale.

use super::arrows::shape;
use super::cells::are_drawn;
use super::drawing::DIAMOND;
use super::loops::ROUND;
use super::page::{Page, HEAD, MARGIN, PANEL, WIDTH};
use super::svg::escape;
use super::{bridges_of, Cells, Sheet};
use crate::delivery::Point;
use crate::numbers::{count, parted, short, to_decimals};
use std::fmt::{Result, Write};

/// The distance of the legend's rows.
const ROW: f64 = 25.0;

/// How wide the words of a row are at most, in pixels, and how many characters fit without being narrowed.
const WORDS: f64 = 262.0;
const MOST_CHARACTERS: usize = 36;

/// Where the panel beside the map begins.
const LEFT: f64 = WIDTH - MARGIN - PANEL + 4.0;

/// Writes the head: what was joined, how, and what came of it.
pub fn head(out: &mut String, sheet: &Sheet) -> Result {
    let name = escape(sheet.name);
    writeln!(out, "<text class=\"name\" x=\"{MARGIN}\" y=\"42\">{name}</text>")?;
    let tally = sheet.tally;
    let [lines, chains] = [count(tally.lines, "line"), count(tally.chains, "chain")];
    let words = escape(&format!("{lines} joined into {chains} · {}", sheet.settings));
    writeln!(out, "<text class=\"words\" x=\"{MARGIN}\" y=\"66\">{words}</text>")
}

/// Draws the legend: the signs, and the longest chains with their colours.
pub fn legend(out: &mut String, sheet: &Sheet, page: &Page, colours: &[&str]) -> Result {
    let mut y = HEAD + 14.0;
    heading(out, &mut y, "Legend")?;
    row(out, &mut y, INPUT, "line of the input, and its ends")?;
    row(out, &mut y, &stroke("chain", colours.first()), "chain of several lines")?;
    row(out, &mut y, &stroke("alone", colours.last()), "chain of one line")?;
    if sheet.arrows {
        arrow(out, &mut y, "along", "line drawn along its chain")?;
        arrow(out, &mut y, "against", "line drawn against it: turned")?;
    }
    if let Some(Cells { side, .. }) = sheet.cells.filter(|_| are_drawn(sheet, page)) {
        let unit = if sheet.measure.degrees { "degrees" } else { &sheet.measure.unit };
        row(out, &mut y, CELLS, &format!("cells of the tolerance, {side} {unit}"))?;
    }
    if sheet.window.is_some() {
        let words = format!("the window: {} written", count(sheet.tally.inside, "chain"));
        row(out, &mut y, WINDOW, &words)?;
    }
    if sheet.tally.junctions > 0 {
        let diamond = format!(
            "<g class=\"junctions\"><path transform=\"translate(21 0)\" d=\"{DIAMOND}\"/></g>"
        );
        row(out, &mut y, &diamond, "junction where a pair was selected")?;
    }
    if sheet.tally.loops > 0 {
        let sign =
            format!("<g class=\"loops\"><path transform=\"translate(21 0)\" d=\"{ROUND}\"/></g>");
        row(out, &mut y, &sign, "loop: it ends where it begins")?;
    }
    if sheet.tally.bridges > 0 {
        let words = format!("bridge, with its length in {}: a", sheet.measure.unit);
        row(out, &mut y, BRIDGE, &words)?;
        words_below(out, &mut y, "segment of no line, by the tolerance")?;
    }
    if !sheet.tally.gaps.is_empty() {
        row(out, &mut y, GAP, "gap below the tolerance, still open")?;
    }
    y += 18.0;
    bridges(out, sheet, page, &mut y)?;
    chains(out, sheet, page, colours, y)
}

/// A row for an arrow of a class.
fn arrow(out: &mut String, y: &mut f64, class: &str, words: &str) -> Result {
    let way = shape([21.0, 0.0], [1.0, 0.0], 1.0);
    row(out, y, &format!("<path class=\"arrow {class}\" d=\"{way}\"/>"), words)
}

const WINDOW: &str = "<path class=\"window\" d=\"M4-8H38V8H4z\"/>";

const CELLS: &str =
    "<path class=\"cells\" d=\"M5-8v16M13-8v16M21-8v16M29-8v16M37-8v16M1-4h40M1 4h40\"/>";

const GAP: &str = "<g class=\"gaps\"><circle cx=\"21\" cy=\"0\" r=\"7\"/></g>";

const INPUT: &str = "<g class=\"input\"><path d=\"M2 0H40\"/></g><g class=\"ends\">\
     <circle cx=\"2\" cy=\"0\" r=\"2.2\"/><circle cx=\"40\" cy=\"0\" r=\"2.2\"/></g>";

const BRIDGE: &str =
    "<g class=\"bridges\"><path d=\"M16 0H26\"/><circle cx=\"21\" cy=\"0\" r=\"10\"/></g>";

fn stroke(kind: &str, colour: Option<&&str>) -> String {
    let colour = colour.copied().unwrap_or("#2f6fb7");
    format!("<g class=\"{kind}\" stroke=\"{colour}\"><path d=\"M2 0H40\"/></g>")
}

/// How many rows there is room for below a heading.
fn room(page: &Page, y: f64) -> usize {
    ((page.height() - MARGIN - y - 2.0 * ROW) / ROW).max(0.0) as usize
}

/// How many bridges are listed at most.
const LISTED: usize = 8;

/// Lists the longest bridges with their places, as many as half the room holds.
fn bridges(out: &mut String, sheet: &Sheet, page: &Page, y: &mut f64) -> Result {
    let room = LISTED.min(room(page, *y) / 2);
    let all = bridges_of(sheet);
    if all.is_empty() || room == 0 {
        return Ok(());
    }
    let heading_words = match all.len() > room {
        true => format!("The longest of {} bridges", parted(all.len())),
        false => "Bridges, longest first".into(),
    };
    heading(out, y, &heading_words)?;
    for (chain, bridge) in all.iter().take(room) {
        let [a, b] = bridge.lines.map(|line| sheet.delivery.label(line));
        let length = short(sheet.measure.distance(bridge.ends[0], bridge.ends[1]));
        let place = place_in_words(sheet, bridge.ends[0]);
        let words = format!("{length} {} at {place}", sheet.measure.unit);
        let title = escape(&format!("from line {a} to line {b} in chain {chain}"));
        let sign = format!("<title>{title}</title>{BRIDGE}");
        row(out, y, &sign, &words)?;
    }
    *y += 14.0;
    Ok(())
}

/// A place in so few digits that it is found again.
fn place_in_words(sheet: &Sheet, at: Point) -> String {
    let decimals = if sheet.measure.degrees { 6 } else { 2 };
    at.map(|x| to_decimals(x, decimals)).join(" ")
}

/// Lists the longest chains, as many as there is room for.
fn chains(out: &mut String, sheet: &Sheet, page: &Page, colours: &[&str], mut y: f64) -> Result {
    let room = room(page, y);
    if sheet.chains.is_empty() || room == 0 {
        return Ok(());
    }
    let mut order: Vec<usize> = (0..sheet.chains.len()).collect();
    order.sort_by(|&a, &b| sheet.lengths[b].total_cmp(&sheet.lengths[a]));
    let all = order.len() <= room;
    heading(out, &mut y, if all { "Chains, longest first" } else { "The longest chains" })?;
    for &position in order.iter().take(room) {
        let chain = &sheet.chains[position];
        let kind = if chain.points.is_some() { "chain" } else { "alone" };
        let sign = stroke(kind, colours.get(position));
        let lines = count(chain.members.len(), "line");
        let length = sheet.measure.words(sheet.lengths[position]);
        let words = format!("chain {position} · {lines} · {length}");
        row(out, &mut y, &sign, &words)?;
    }
    Ok(())
}

fn heading(out: &mut String, y: &mut f64, words: &str) -> Result {
    writeln!(out, "<text class=\"heading\" x=\"{LEFT}\" y=\"{y}\">{words}</text>")?;
    *y += ROW;
    Ok(())
}

fn row(out: &mut String, y: &mut f64, sign: &str, words: &str) -> Result {
    let base = *y + 4.5;
    let narrow = match words.chars().count() > MOST_CHARACTERS {
        true => format!(" textLength=\"{WORDS}\" lengthAdjust=\"spacingAndGlyphs\""),
        false => String::new(),
    };
    let words = escape(words);
    writeln!(out, "<g class=\"legend\" transform=\"translate({LEFT} {y})\">{sign}</g>")?;
    writeln!(
        out,
        "<text class=\"words\" x=\"{}\" y=\"{base}\"{narrow}>{words}</text>",
        LEFT + 54.0
    )?;
    *y += ROW;
    Ok(())
}

fn words_below(out: &mut String, y: &mut f64, words: &str) -> Result {
    let base = *y - 3.5;
    writeln!(out, "<text class=\"words\" x=\"{}\" y=\"{base}\">{words}</text>", LEFT + 54.0)?;
    *y += ROW - 8.0;
    Ok(())
}

/// Draws the scale in the lower left corner of the frame.
pub fn scale(out: &mut String, sheet: &Sheet, page: &Page) -> Result {
    let (pixels, words) = page.scale_bar(sheet.measure);
    let words = escape(&words);
    let [x, y] = [MARGIN + 18.0, HEAD + page.frame_height - 18.0];
    let end = x + pixels;
    writeln!(out, "<path class=\"scale\" d=\"M{x} {}V{y}H{end:.1}v-6\"/>", y - 6.0)?;
    let middle = x + pixels / 2.0;
    writeln!(out, "<text class=\"scale\" x=\"{middle:.1}\" y=\"{}\">{words}</text>", y - 5.0)
}
