//! The map: an SVG of the input, the chains, the junctions, the loops and the bridges.

mod arrows;
mod bridging;
mod cells;
mod colours;
mod detail;
mod drawing;
mod labels;
mod legend;
mod loops;
mod page;
mod svg;

use crate::delivery::Delivery;
use crate::joining::{Chain, Joint};
use crate::measure::Measure;
use crate::tally::Tally;
pub use cells::Cells;
use detail::{Detail, MOST_BYTES};
use lovasuku_chains::Window;
use page::{fineness, Page, FEW_BRIDGES, FEW_LINES, HEAD, MARGIN, WIDTH};
use std::fmt::{Error, Write};

/// What is drawn.
#[derive(Debug)]
pub struct Sheet<'a> {
    /// The name over the map.
    pub name: &'a str,
    /// The settings in words.
    pub settings: &'a str,
    /// The cells that ends met in, where there is a tolerance.
    pub cells: Option<Cells>,
    /// Whether the way is shown that each line was drawn.
    pub arrows: bool,
    /// The window that chains have to meet to be written.
    pub window: Option<Window>,
    pub delivery: &'a Delivery<'a>,
    pub measure: &'a Measure,
    pub chains: &'a [Chain<'a>],
    /// The length of each chain.
    pub lengths: &'a [f64],
    pub tally: &'a Tally,
}

const STYLE: &str = "\
text{font:14px system-ui,'Segoe UI',Helvetica,Arial,sans-serif;fill:#2b2b2b}\
.name{font-size:24px;font-weight:600}\
.words{fill:#4a4a4a}\
.heading{font-weight:600;font-size:15px}\
.frame{fill:#fff;stroke:#d9d5cc}\
.window{fill:none;stroke:#1f5fd0;stroke-width:1.6;stroke-dasharray:7 4;pointer-events:none}\
.cells{fill:none;stroke:#d3cec3;stroke-width:.7}\
.legend .cells{stroke:#aaa498}\
.chains path,.chain path,.alone path{fill:none;stroke-linecap:round;stroke-linejoin:round}\
.alone path{stroke-opacity:.8}\
.input path{fill:none;stroke:#555;stroke-linejoin:round}\
.input,.ends{pointer-events:none}\
.ends circle{fill:#fff;stroke:#555;stroke-width:1}\
.arrow{stroke:#333;stroke-width:1;stroke-linejoin:round;pointer-events:none}\
.along{fill:#333}\
.against{fill:#fff}\
.junctions path{fill:#fff;stroke:#222;stroke-width:1.7;stroke-linejoin:round}\
.loops circle{fill:#fff;fill-opacity:.85;stroke:none}\
.loops path{fill:none;stroke:#00707a;stroke-width:2.2;stroke-linecap:round;stroke-linejoin:round}\
.bridges path{fill:none;stroke:#e0001b;stroke-linecap:round}\
.bridges circle{fill:#e0001b;fill-opacity:.1;stroke:#e0001b}\
.bridges text{fill:#c80018;font-weight:600;paint-order:stroke;stroke:#fff;stroke-width:4px;stroke-linejoin:round}\
.gaps circle{fill:#f2a900;fill-opacity:.15;stroke:#b87a00;stroke-width:1.5;stroke-dasharray:3 2}\
g path.dots{fill:none;stroke-linecap:round;stroke-width:3}\
path.scale{fill:none;stroke:#2b2b2b;stroke-width:1.5}\
text.scale{font-size:13px;text-anchor:middle}";

/// The widths of strokes, finer where there are many. The legend has them in full.
fn widths(tally: &Tally) -> String {
    let fine = fineness(tally.lines, FEW_LINES);
    let bridges = fineness(tally.bridges, FEW_BRIDGES);
    let of = |place: &str, fine: f64, bridges: f64| {
        format!(
            "{place}.chain path{{stroke-width:{:.1}}}{place}.alone path{{stroke-width:{:.1}}}\
             {place}.input path{{stroke-width:{fine:.1}}}{place}.bridges path{{stroke-width:{:.1}}}\
             {place}.bridges circle{{stroke-width:{:.1}}}",
            6.0 * fine,
            3.4 * fine,
            5.0 * bridges,
            2.2 * bridges,
        )
    };
    let hover = 5.0 + 6.0 * fine;
    let hover = format!(".chains g:hover path{{stroke-width:{hover:.1};stroke-opacity:1}}");
    of("", fine, bridges) + &hover + &of(".legend ", 1.0, 1.0)
}

/// Draws the map, with as much detail as its size allows.
pub fn map(sheet: &Sheet) -> Vec<u8> {
    let mut detail = Detail::of(sheet.tally.lines);
    loop {
        let mut out = String::new();
        // Writing to a text never fails.
        draw(&mut out, sheet, detail).unwrap_or_default();
        if out.len() <= MOST_BYTES || detail.titled == 0 {
            return out.into_bytes();
        }
        detail = detail.less();
    }
}

/// The bridges of all chains with the positions of these, the longest first.
fn bridges_of(sheet: &Sheet) -> Vec<(usize, Joint)> {
    let of_chain = |(position, chain): (usize, &'_ Chain)| {
        let bridges = chain.joints.iter().filter(|joint| joint.is_bridge());
        bridges.map(|&bridge| (position, bridge)).collect::<Vec<_>>()
    };
    let mut all: Vec<(usize, Joint)> = sheet.chains.iter().enumerate().flat_map(of_chain).collect();
    let length = |bridge: &Joint| sheet.measure.distance(bridge.ends[0], bridge.ends[1]);
    all.sort_by(|(_, a), (_, b)| length(b).total_cmp(&length(a)));
    all
}

/// Draws the window, as far as it lies in the frame.
fn framed(out: &mut String, sheet: &Sheet, page: &Page) -> Result<(), Error> {
    let Window { least, greatest } = match sheet.window {
        None => return Ok(()),
        Some(window) => window,
    };
    let [[west, south], [east, north]] = [least, greatest].map(|corner| page.place(corner));
    let across = |x: f64| x.clamp(MARGIN, MARGIN + page.frame_width());
    let down = |y: f64| y.clamp(HEAD, HEAD + page.frame_height);
    let [west, east, south, north] = [across(west), across(east), down(south), down(north)];
    writeln!(
        out,
        "<path class=\"window\" d=\"M{west:.1} {north:.1}H{east:.1}V{south:.1}H{west:.1}z\"/>"
    )
}

fn draw(out: &mut String, sheet: &Sheet, detail: Detail) -> Result<(), Error> {
    let page = Page::of(sheet.delivery, sheet.measure, detail);
    let height = page.height();
    writeln!(
        out,
        "<svg xmlns=\"http://www.w3.org/2000/svg\" width=\"{WIDTH}\" height=\"{height}\" \
         viewBox=\"0 0 {WIDTH} {height}\">"
    )?;
    writeln!(out, "<style>{STYLE}{}</style>", widths(sheet.tally))?;
    writeln!(out, "<rect width=\"{WIDTH}\" height=\"{height}\" fill=\"#f7f5f0\"/>")?;
    legend::head(out, sheet)?;
    writeln!(
        out,
        "<rect class=\"frame\" x=\"{MARGIN}\" y=\"{HEAD}\" width=\"{}\" height=\"{}\" rx=\"6\"/>",
        page.frame_width(),
        page.frame_height
    )?;
    cells::grid(out, sheet, &page)?;
    let colours = drawing::chains(out, sheet, &page)?;
    drawing::lines(out, sheet, &page)?;
    framed(out, sheet, &page)?;
    arrows::arrows(out, sheet, &page)?;
    drawing::junctions(out, sheet, &page)?;
    loops::loops(out, sheet, &page)?;
    bridging::gaps(out, sheet, &page)?;
    bridging::bridges(out, sheet, &page)?;
    legend::legend(out, sheet, &page, &colours)?;
    legend::scale(out, sheet, &page)?;
    writeln!(out, "</svg>")
}
