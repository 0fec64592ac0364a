//! Chains that were made elsewhere, read from GeoJSON or from a store.

use super::has_heights;
use super::names::Step;
use crate::delivery::{self, Delivery, Feature, Geometry, Reading, Run};
use crate::progress::Progress;
use crate::source::Source;
use anyhow::{anyhow, bail, Result};
use lovasuku_chains::Dimension;
use rayon::prelude::*;
use serde_json::Value;

/// A chain as it was read.
#[derive(Clone, Debug)]
pub struct Read<'a> {
    /// What names it as it is written, if it has an id.
    id: Option<String>,
    /// Its lines in the order of travel.
    pub path: Vec<Step>,
    geometry: Geometry<'a>,
    /// What its positions have.
    pub dimension: Dimension,
}

impl<'a> Read<'a> {
    /// The chain in words, by its position and its id.
    pub fn name(&self, position: usize) -> String {
        match &self.id {
            Some(id) if *id != position.to_string() => format!("chain {position} (id {id})"),
            _ => format!("chain {position}"),
        }
    }

    /// The runs of its positions.
    pub fn runs(&self) -> impl Iterator<Item = &Run<'a>> {
        runs(&self.geometry)
    }

    pub fn has_heights(&self) -> bool {
        has_heights(self.dimension) && self.runs().any(|run| !run.heights.is_empty())
    }
}

/// The runs of a line, or of the parts of one.
pub fn runs<'g, 'a>(geometry: &'g Geometry<'a>) -> impl Iterator<Item = &'g Run<'a>> {
    let (line, parts) = match geometry {
        Geometry::Line(run) => (Some(run), &[][..]),
        Geometry::Lines(parts) => (None, &parts[..]),
        Geometry::Other(_) => (None, &[][..]),
    };
    line.into_iter().chain(parts)
}

/// How many chains one core reads at a time.
const PART: usize = 512;

/// Reads chains, whose lines a property lists.
pub fn read<'a>(
    source: Source,
    text: &'a str,
    (property, reading): (&str, &Reading),
    progress: &Progress,
) -> Result<Vec<Read<'a>>> {
    if let Source::Text = source {
        return of_text(text, (property, reading), progress);
    }
    let (delivery, _) = source.delivery(text, reading, progress)?;
    let of = |line: u32| {
        let (list, id) = (delivery.property(line, property), delivery.id(line));
        let geometry = delivery.shapes().get(line).into_owned();
        chain(list, (id, geometry), property, delivery.dimension())
            .map_err(|fault| anyhow!("feature {line}: {fault}"))
    };
    delivery.lines().map(of).collect()
}

/// Reads the chains of a text.
fn of_text<'a>(
    text: &'a str,
    (property, reading): (&str, &Reading),
    progress: &Progress,
) -> Result<Vec<Read<'a>>> {
    let features = delivery::features(text).map_err(|fault| anyhow!(fault))?;
    progress.begin("reading", features.len());
    let of = |text: &&'a str| {
        let feature = Feature::of(text, reading.heights)?;
        let list = feature.property(property);
        chain(list, (feature.id, feature.geometry), property, Dimension::Xyz)
    };
    let part = |texts: &[&'a str]| -> Vec<Result<Read<'a>, String>> {
        progress.add(texts.len());
        texts.iter().map(of).collect()
    };
    let read: Vec<_> = features.par_chunks(PART).flat_map_iter(part).collect();
    let mut chains = Vec::with_capacity(read.len());
    for (position, chain) in read.into_iter().enumerate() {
        match chain {
            Ok(chain) => chains.push(chain),
            Err(fault) => bail!("{}: {fault}", delivery::place(text, features[position], position)),
        }
    }
    Ok(chains)
}

fn chain<'a>(
    list: Option<&str>,
    (id, geometry): (Option<&str>, Geometry<'a>),
    property: &str,
    dimension: Dimension,
) -> Result<Read<'a>, String> {
    let list = list.ok_or_else(|| {
        format!(
            "it has no property {property:?} that lists its lines (--path PROPERTY names another)"
        )
    })?;
    let wrong = || format!("its property {property:?} is not a list of names of lines");
    let list: Vec<Value> = serde_json::from_str(list).map_err(|_| wrong())?;
    let path = list.iter().map(Step::of).collect::<Option<_>>().ok_or_else(wrong)?;
    let geometry = match geometry {
        Geometry::Other(what) => return Err(format!("its geometry is {what}, not a line")),
        line => line,
    };
    Ok(Read { id: id.map(str::to_owned), path, geometry, dimension })
}

/// The first chain whose geometry is of another kind than its line's or has other parts, or is one of parts
/// and lists several lines. The library, to which a line is one run of positions, does not see that.
pub fn other_shape(delivery: &Delivery, read: &[Read], listed: &[Vec<u32>]) -> Option<usize> {
    let differs = |(chain, lines): (&Read, &Vec<u32>)| {
        let parts = |geometry: &Geometry| match geometry {
            Geometry::Lines(parts) => parts.iter().map(|run| Some(run.points.len())).collect(),
            _ => vec![None],
        };
        match lines[..] {
            [line] => parts(&delivery.shapes().get(line)) != parts(&chain.geometry),
            _ => matches!(chain.geometry, Geometry::Lines(_)),
        }
    };
    read.iter().zip(listed).position(differs)
}
