//! What the map shows of the network: chains, the lines of the input, and junctions.

use super::colours::{Colours, COLOURS};
use super::page::{fineness, Page, FEW_LINES};
use super::svg::{escape, place, way, Once};
use super::Sheet;
use crate::delivery::Point;
use crate::joining::{Chain, Joint, JointKind};
use crate::numbers::count;
use crate::tally::runs_of;
use std::collections::HashMap;
use std::fmt::{Error, Write};

/// How many lines have their ends marked at most.
const MARKED: usize = 4_000;

/// What is drawn, or that it cannot be written, which does not happen with a text.
pub type Drawn<T = ()> = Result<T, Error>;

/// Draws the chains and gives back their colours. The longest are drawn by themselves.
pub fn chains(out: &mut String, sheet: &Sheet, page: &Page) -> Drawn<Vec<&'static str>> {
    let mut colours = Colours::default();
    let of = |chain: &Chain| colours.give(&ends(sheet, page, chain));
    let given: Vec<&'static str> = sheet.chains.iter().map(of).collect();
    let titled = titled(sheet, page);
    writeln!(out, "<g class=\"chains\">")?;
    others(out, sheet, page, &given, &titled)?;
    for (position, chain) in sheet.chains.iter().enumerate().filter(|(k, _)| titled[*k]) {
        let (kind, colour) = (kind(chain), given[position]);
        let title = escape(&title(sheet, page, position, chain));
        write!(out, "<g class=\"{kind}\" stroke=\"{colour}\"><title>{title}</title>")?;
        let ways: Vec<String> =
            runs_of(sheet.delivery, chain).into_iter().map(|run| way(page, run)).collect();
        writeln!(out, "<path d=\"{}\"/></g>", ways.concat())?;
    }
    writeln!(out, "</g>")?;
    Ok(given)
}

fn kind(chain: &Chain) -> &'static str {
    match chain.points {
        Some(_) => "chain",
        None => "alone",
    }
}

/// Which chains are drawn by themselves: the longest.
fn titled(sheet: &Sheet, page: &Page) -> Vec<bool> {
    let mut order: Vec<usize> = (0..sheet.chains.len()).collect();
    if order.len() > page.detail.titled {
        order.sort_by(|&a, &b| sheet.lengths[b].total_cmp(&sheet.lengths[a]));
        order.truncate(page.detail.titled);
    }
    let mut titled = vec![false; sheet.chains.len()];
    order.into_iter().for_each(|position| titled[position] = true);
    titled
}

/// Draws the other chains, those of one kind and one colour as one path.
fn others(out: &mut String, sheet: &Sheet, page: &Page, given: &[&str], titled: &[bool]) -> Drawn {
    let mut once = Once::default();
    for (of_kind, colour) in ["chain", "alone"].into_iter().flat_map(|k| COLOURS.map(|c| (k, c))) {
        let others = sheet
            .chains
            .iter()
            .enumerate()
            .filter(|(k, chain)| !titled[*k] && kind(chain) == of_kind && given[*k] == colour);
        let runs = others.flat_map(|(_, chain)| runs_of(sheet.delivery, chain));
        let way = once.way(page, runs);
        if !way.is_empty() {
            writeln!(out, "<g class=\"{of_kind}\" stroke=\"{colour}\"><path d=\"{way}\"/></g>")?;
        }
    }
    Ok(())
}

/// The places on the page where the lines of a chain end.
fn ends(sheet: &Sheet, page: &Page, chain: &Chain) -> Vec<Point> {
    let runs = chain.members.iter().flat_map(|&line| sheet.delivery.shapes().runs(line));
    let ends = runs.flat_map(|run| [run.first(), run.last()]).flatten();
    ends.map(|&end| page.place(end)).collect()
}

fn title(sheet: &Sheet, page: &Page, position: usize, chain: &Chain) -> String {
    let most = page.detail.named;
    let named = chain.members.iter().take(most).map(|&line| sheet.delivery.label(line));
    let mut members = named.collect::<Vec<_>>().join(", ");
    if chain.members.len() > most {
        members += &format!(" and {} more", chain.members.len() - most);
    }
    let length = sheet.measure.words(sheet.lengths[position]);
    let lines = count(chain.members.len(), "line");
    format!("chain {position}: {lines}, {length} long\nmembers: {members}")
}

/// Draws the lines of the input, and marks their ends.
pub fn lines(out: &mut String, sheet: &Sheet, page: &Page) -> Drawn {
    let (delivery, shapes) = (sheet.delivery, sheet.delivery.shapes());
    let runs = || delivery.lines().flat_map(|line| shapes.runs(line));
    writeln!(out, "<g class=\"input\">")?;
    match page.detail.is_full() {
        true => runs().try_for_each(|run| writeln!(out, "<path d=\"{}\"/>", way(page, run)))?,
        false => writeln!(out, "<path d=\"{}\"/>", Once::default().way(page, runs()))?,
    }
    writeln!(out, "</g>")?;
    if delivery.len() > MARKED || !page.detail.is_full() {
        return Ok(());
    }
    let ends = runs().flat_map(|run| [run.first(), run.last()]).flatten();
    let mut places: Vec<[String; 2]> = ends.map(|&end| place(page, end)).collect();
    places.sort_unstable();
    places.dedup();
    let radius = 2.2 * fineness(delivery.len(), FEW_LINES);
    writeln!(out, "<g class=\"ends\">")?;
    for [x, y] in places {
        writeln!(out, "<circle cx=\"{x}\" cy=\"{y}\" r=\"{radius:.1}\"/>")?;
    }
    writeln!(out, "</g>")
}

/// Draws the junctions at which pairs were selected. Ends that were left over at one and then met
/// in round two, with no segment between them, are shown there too.
pub fn junctions(out: &mut String, sheet: &Sheet, page: &Page) -> Drawn {
    writeln!(out, "<g class=\"junctions\">")?;
    let junctions = paired(sheet.chains);
    let (titled, others) = junctions.split_at(junctions.len().min(page.detail.titled));
    for (at, joints) in titled {
        let at = *at;
        let [x, y] = place(page, at);
        let pair = |joint: &&Joint| {
            let [a, b] = joint.lines.map(|line| sheet.delivery.label(line));
            let by = if joint.kind == JointKind::Tolerance { " (by the tolerance)" } else { "" };
            format!("{a} with {b}{by}")
        };
        let pairs = joints.iter().map(pair).collect::<Vec<_>>().join(", ");
        let title = escape(&format!("junction at {} {}\npaired: {pairs}", at[0], at[1]));
        writeln!(
            out,
            "<g transform=\"translate({x} {y}) scale({:.2})\"><title>{title}</title>\
             <path d=\"{DIAMOND}\"/></g>",
            fineness(sheet.tally.lines, FEW_LINES)
        )?;
    }
    dots(out, page, "#222", others.iter().map(|(at, _)| at))?;
    writeln!(out, "</g>")
}

/// Draws points of one colour as dots of one path.
pub fn dots<'p>(
    out: &mut String,
    page: &Page,
    colour: &str,
    points: impl Iterator<Item = &'p Point>,
) -> Drawn {
    let way = Once::default().way(page, points.map(std::slice::from_ref));
    match way.is_empty() {
        true => Ok(()),
        false => writeln!(out, "<path class=\"dots\" stroke=\"{colour}\" d=\"{way}\"/>"),
    }
}

/// The mark of a junction.
pub const DIAMOND: &str = "M0-6.5L6.5 0L0 6.5L-6.5 0z";

/// The junctions, each with its pairs, in order of the chains.
fn paired<'a>(chains: &[Chain<'a>]) -> Vec<(Point, Vec<&'a Joint>)> {
    let mut places: HashMap<[u64; 2], usize> = HashMap::new();
    let mut junctions: Vec<(Point, Vec<&Joint>)> = Vec::new();
    let at_one_point = |joint: &&Joint| match joint.kind {
        JointKind::Node => false,
        JointKind::Junction => true,
        JointKind::Tolerance => !joint.is_bridge(),
    };
    for joint in chains.iter().flat_map(|chain| chain.joints).filter(at_one_point) {
        let at = joint.ends[0];
        let place = *places.entry(at.map(f64::to_bits)).or_insert(junctions.len());
        if place == junctions.len() {
            junctions.push((at, Vec::new()));
        }
        junctions[place].1.push(joint);
    }
    junctions
}
