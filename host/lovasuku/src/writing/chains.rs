//! The chains as features.

use super::{entry, list, number, position, value, FeatureText, Keep};
use crate::delivery::object::Entry;
use crate::delivery::{Delivery, Geometry, Point};
use crate::joining::{Chain, Outlined};
use crate::measure::Measure;
use crate::numbers::parts;
use crate::progress::Progress;
use lovasuku_chains::PathLine;
use rayon::prelude::*;
use std::io;
use std::ops::Range;

/// How the features of chains are written.
#[derive(Debug)]
pub struct Chains<'a> {
    pub delivery: &'a Delivery<'a>,
    pub measure: &'a Measure,
    pub keep: Keep,
    /// The names of the properties that every chain has.
    pub own: Vec<String>,
    /// Lines may be parts of features.
    pub parts: bool,
}

/// How many chains one core writes at a time, and how many are written before they go to their place.
const PART: usize = 256;
const BLOCK: usize = 64 * PART;

/// The names of the properties that every chain has, each behind the prefix. That of the parts is
/// for lines that are parts of features.
pub fn own_names(prefix: &str, parts: bool) -> Vec<String> {
    let names = ["members", "path", "count", "loop", "parts"];
    let names = names.into_iter().filter(|&name| parts || name != "parts");
    names.map(|name| format!("{prefix}{name}")).collect()
}

impl Chains<'_> {
    /// Writes one feature a chain that meets the window, in their order, by its position among all. Gives
    /// how many of them have a member with a property of a chain's own name, which is left out.
    pub fn write(
        &self,
        outlined: &Outlined,
        text: &mut FeatureText,
        progress: &Progress,
    ) -> io::Result<usize> {
        progress.begin("writing", outlined.len());
        let mut clashes = 0;
        let part = |chains: Range<usize>| -> Vec<(Vec<u8>, bool)> {
            let inside = || chains.clone().filter(|&chain| outlined.is_inside(chain));
            let told = outlined.told(inside());
            inside().zip(told.chains()).map(|(id, chain)| self.feature(id, &chain)).collect()
        };
        for block in parts(0..outlined.len(), BLOCK) {
            let chains = block.len();
            let features: Vec<_> = parts(block, PART).into_par_iter().flat_map_iter(part).collect();
            for (feature, clash) in features {
                text.put(&feature)?;
                clashes += usize::from(clash);
            }
            progress.add(chains);
        }
        Ok(clashes)
    }

    /// The name of a line.
    fn name(&self, out: &mut Vec<u8>, line: u32) {
        out.extend_from_slice(self.delivery.name(line).as_bytes());
    }

    /// A line of a path: its name, which part of its feature it is where lines are parts, and whether it
    /// is turned.
    fn step(&self, out: &mut Vec<u8>, PathLine { line, turned }: PathLine) {
        out.extend(b"{\"line\":");
        self.name(out, line);
        if self.parts {
            out.extend(b",\"part\":");
            value(out, &self.delivery.part(line));
        }
        out.extend(b",\"turned\":");
        value(out, &turned);
        out.push(b'}');
    }

    /// The feature of a chain, and whether a member has a property of a chain's own name.
    fn feature(&self, id: usize, chain: &Chain) -> (Vec<u8>, bool) {
        let Chains { delivery, measure, keep, .. } = self;
        let mut out = b"{\"type\":\"Feature\",\"id\":".to_vec();
        value(&mut out, &id);
        out.extend(b",\"properties\":");
        let (properties, clash) = self.properties(chain);
        for (k, (name, text)) in properties.iter().enumerate() {
            out.push(if k == 0 { b'{' } else { b',' });
            entry(&mut out, name, text);
        }
        out.extend(b"},\"geometry\":");
        geometry(&mut out, delivery, chain);
        for (name, text) in keep.foreign(delivery, measure, chain).iter() {
            out.push(b',');
            entry(&mut out, name, text);
        }
        out.push(b'}');
        (out, clash)
    }

    /// The properties of a chain, its own first, and whether a member has one of a chain's own name. They
    /// are those of GeoJSON and the fields of a store alike.
    pub fn properties(&self, chain: &Chain) -> (Vec<Entry<'_>>, bool) {
        let Chains { delivery, measure, keep, own, .. } = self;
        let own_values = (0..).map(|k| self.own_value(k, chain).into());
        let mut properties: Vec<Entry> = own.iter().map(Into::into).zip(own_values).collect();
        let (others, clash) = keep.properties(delivery, measure, chain, own);
        properties.extend(others);
        (properties, clash)
    }

    /// A property that every chain has, by its place among these.
    fn own_value(&self, place: usize, chain: &Chain) -> String {
        let mut out = Vec::new();
        let part = |&line: &u32| self.delivery.part(line);
        match place {
            0 => list(&mut out, chain.members, |out, &line| self.name(out, line)),
            1 => list(&mut out, chain.path, |out, step| self.step(out, *step)),
            2 => value(&mut out, &chain.members.len()),
            3 => value(&mut out, &chain.is_loop),
            _ => list(&mut out, chain.members, |out, line| value(out, &part(line))),
        }
        String::from_utf8(out).unwrap_or_default()
    }
}

/// The geometry of a chain: its points, or those of its only line as they were.
fn geometry(out: &mut Vec<u8>, delivery: &Delivery, chain: &Chain) {
    let alone = chain.members.first().map(|&line| delivery.shapes().get(line));
    match (&chain.points, alone) {
        (Some(points), _) => {
            out.extend(b"{\"type\":\"LineString\",\"coordinates\":");
            run(out, points, &delivery.heights(&chain.extras));
        }
        (None, Some(Geometry::Line(line))) => {
            out.extend(b"{\"type\":\"LineString\",\"coordinates\":");
            run(out, &line.points, &delivery.heights(&line.heights));
        }
        (None, Some(Geometry::Lines(parts))) => {
            out.extend(b"{\"type\":\"MultiLineString\",\"coordinates\":");
            list(out, &parts, |out, part| run(out, &part.points, &delivery.heights(&part.heights)));
        }
        (None, None | Some(Geometry::Other(_))) => return out.extend(b"null"),
    }
    out.push(b'}');
}

/// Writes positions with their heights. One without a height, for which NaN stands, is x and y alone;
/// and so is one whose height is infinite, which JSON has no number for.
fn run(out: &mut Vec<u8>, points: &[Point], heights: &[f64]) {
    list(out, points.iter().enumerate(), |out, (k, &[x, y])| match heights.get(k) {
        Some(&height) if height.is_finite() => list(out, [x, y, height], number),
        _ => position(out, &[x, y]),
    });
}
