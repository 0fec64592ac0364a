//! A delivery: the features that a customer hands in, as GeoJSON.

mod feature;
pub mod formats;
mod gathered;
mod naming;
pub mod object;
mod positions;
mod runs;
mod shapes;
mod sorting;
mod split;
mod text;
mod texts;

use crate::progress::Progress;
use anyhow::{anyhow, bail, Result};
pub use feature::{Feature, Geometry, Heights};
use gathered::Gathered;
use lovasuku_chains::Dimension;
use object::Object;
pub use positions::Run;
use rayon::prelude::*;
pub use runs::Runs;
pub use shapes::Shapes;
pub use sorting::{LeftOut, Sorting};
use std::borrow::Cow;
use std::collections::HashMap;
use std::ops::Range;
pub use text::text;
use texts::Texts;
pub use texts::{Properties, Rows, MARK};

/// A point: x and y.
pub type Point = [f64; 2];

/// The lines of a delivery, in its order, by columns: a feature is put together when it is asked for.
#[derive(Debug, Default)]
pub struct Delivery<'a> {
    shapes: Shapes,
    texts: Texts<'a>,
    /// The position of each line's feature, where that is not the line's own.
    positions: Vec<u32>,
    /// Which part of its feature each line is, where lines are parts.
    parts: Vec<u32>,
    /// The value of the property that names each line, where one was asked for.
    names: Vec<&'a str>,
    /// The members of features beside those that GeoJSON asks for, where there are any.
    foreign: HashMap<u32, Object<'a>>,
    /// The members of the collection as they are written, but for its type and its features.
    pub members: Object<'a>,
    /// True where every feature has a name of its own, by which it is then named.
    pub named_by_ids: bool,
    /// What was left out, because it was asked for.
    pub left_out: LeftOut,
    /// What the user has to know about the names of lines.
    pub warnings: Vec<String>,
}

/// How a delivery is read.
#[derive(Clone, Debug, PartialEq)]
pub struct Reading {
    pub heights: Heights,
    /// Parts of MultiLineStrings are lines of their own.
    pub explode: bool,
    /// Lines without length are left out.
    pub drop_empty: bool,
    /// Features that are no lines are left out.
    pub skip_other: bool,
    /// The property that names lines in place of their ids.
    pub id: Option<String>,
}

impl<'a> Delivery<'a> {
    /// How many lines there are.
    pub fn len(&self) -> usize {
        self.shapes.len()
    }

    /// What each position has. Those that a position lacks are NaN.
    pub fn dimension(&self) -> Dimension {
        self.shapes.dimension
    }

    /// The geometry of all lines.
    pub fn shapes(&self) -> &Shapes {
        &self.shapes
    }

    /// The positions of all lines among these.
    pub fn lines(&self) -> Range<u32> {
        0..self.len() as u32
    }

    /// The position of a line's feature among all features of the delivery.
    pub fn position(&self, line: u32) -> u32 {
        self.positions.get(line as usize).copied().unwrap_or(line)
    }

    /// Which part of its feature a line is.
    pub fn part(&self, line: u32) -> u32 {
        self.parts.get(line as usize).copied().unwrap_or_default()
    }

    /// What names a line as it is written, if anything does.
    pub fn id(&self, line: u32) -> Option<&'a str> {
        let own = || self.texts.get(line as usize, self.position(line) as usize).0;
        self.names.get(line as usize).copied().or_else(own)
    }

    /// The properties of a line.
    pub fn properties(&self, line: u32) -> Properties<'_> {
        self.texts.get(line as usize, self.position(line) as usize).1
    }

    /// The value of a property of a line as it is written; a null is no value.
    pub fn property(&self, line: u32, name: &str) -> Option<&str> {
        self.properties(line).get(name).filter(|&value| value != "null")
    }

    /// The members of a line's feature beside those that GeoJSON asks for.
    pub fn foreign(&self, line: u32) -> Object<'a> {
        self.foreign.get(&line).cloned().unwrap_or_default()
    }

    /// Where the rows of a layer begin in its text.
    pub fn begin(&self) -> usize {
        match &self.texts {
            Texts::Written(_) => 0,
            Texts::Rows(_, rows) => rows.begin,
        }
    }

    /// The texts of all rows of a layer as they would be written.
    pub fn rows(&self) -> impl Iterator<Item = String> + '_ {
        self.texts.rows()
    }

    /// Judges whether lines are named by their ids.
    fn judge(&mut self, reading: &Reading) {
        let (named_by_ids, warning) = naming::judge(self, reading.id.as_deref());
        self.named_by_ids = named_by_ids;
        self.warnings.extend(warning);
    }

    /// True where a position has a height that is kept.
    pub fn has_heights(&self) -> bool {
        self.shapes.has_extras()
    }

    /// The heights among the extras of points, one for each point, or none where they have none.
    pub fn heights<'e>(&self, extras: &'e [f64]) -> Cow<'e, [f64]> {
        let stride = self.dimension().extras().max(1);
        match self.dimension() {
            Dimension::Xy | Dimension::Xyz => extras.into(),
            Dimension::Xym => Cow::default(),
            Dimension::Xyzm => extras.iter().step_by(stride).copied().collect(),
        }
    }

    /// The member `crs` of the collection as it is written.
    pub fn crs(&self) -> Option<&'a str> {
        self.members.get("crs").filter(|&crs| crs != "null")
    }

    /// The name of a line as it is written in an output: its id, or the position of its feature.
    pub fn name(&self, line: u32) -> Cow<'a, str> {
        match self.named_by_ids.then(|| self.id(line)).flatten() {
            Some(id) => id.into(),
            None => self.position(line).to_string().into(),
        }
    }

    /// The name of a line for people: its id in plain words, or the position of its feature.
    pub fn label(&self, line: u32) -> String {
        let name = self.name(line);
        serde_json::from_str(&name).unwrap_or_else(|_| name.into_owned())
    }
}

/// How many features one core reads at a time, and how many are read before they are put together.
const PART: usize = 512;
const BLOCK: usize = 64 * PART;

/// Reads the features of a text.
pub fn read<'a>(text: &'a str, reading: &Reading, progress: &Progress) -> Result<Delivery<'a>> {
    let split = split::split(text).map_err(|fault| anyhow!(fault))?;
    progress.begin("reading", split.features.len());
    let part = |texts: &[&'a str]| -> Vec<Result<Feature<'a>, String>> {
        progress.add(texts.len());
        texts.iter().map(|text| feature(text, reading)).collect()
    };
    let mut gathered = Gathered::of(reading);
    for block in split.features.chunks(BLOCK) {
        let read: Vec<Result<Feature, String>> =
            block.par_chunks(PART).flat_map_iter(part).collect();
        for feature in read {
            let position = gathered.position;
            if let Err(fault) = feature.and_then(|feature| gathered.put(feature)) {
                bail!(
                    "{}: {fault}",
                    place(text, split.features[position as usize], position as usize)
                );
            }
        }
    }
    let mut delivery = gathered.delivery();
    delivery.members = split.members;
    delivery.judge(reading);
    Ok(delivery)
}

/// The delivery of the rows of a layer in a text, which were sorted.
pub fn of_rows<'a>(text: &'a str, rows: Rows, sorting: Sorting) -> Result<Delivery<'a>> {
    let Sorting { reading, shapes, positions, parts, left_out } = sorting;
    let members = text.get(..rows.begin).and_then(Object::of).unwrap_or_default();
    let mut names = Vec::new();
    if let Some(property) = &reading.id {
        for line in 0..shapes.len() {
            let row = positions.get(line).map_or(line, |&row| row as usize);
            let name = naming::by_property(rows.value(text, row, property), property);
            names.push(name.map_err(|fault| anyhow!("{}: {fault}", rows.place(text, row)))?);
        }
    }
    let texts = Texts::Rows(text, rows);
    let foreign = HashMap::new();
    let mut delivery = Delivery {
        shapes,
        texts,
        positions,
        parts,
        names,
        foreign,
        members,
        left_out,
        ..Delivery::default()
    };
    delivery.judge(reading);
    Ok(delivery)
}

/// The features of a text, each as it is written.
pub fn features(text: &str) -> Result<Vec<&str>, String> {
    split::split(text).map(|split| split.features)
}

fn feature<'a>(text: &'a str, reading: &Reading) -> Result<Feature<'a>, String> {
    let mut feature = Feature::of(text, reading.heights)?;
    if reading.heights == Heights::Dropped {
        feature.drop_box();
    }
    match &reading.id {
        // What is no line needs no name.
        Some(property) if !matches!(feature.geometry, Geometry::Other(_)) => {
            let id = naming::by_property(feature.property(property), property)?;
            Ok(Feature { id: Some(id), ..feature })
        }
        _ => Ok(feature),
    }
}

/// Where a feature stands: its position among the features, its id and its line in the text.
pub fn place(text: &str, feature: &str, position: usize) -> String {
    let offset = (feature.as_ptr() as usize).saturating_sub(text.as_ptr() as usize);
    let before = text.as_bytes().get(..offset).unwrap_or_default();
    let line = 1 + before.iter().filter(|&&byte| byte == b'\n').count();
    let id = Object::of(feature).and_then(|object| object.get("id"));
    match id {
        Some(id) => format!("feature {position} (id {id}, line {line})"),
        None => format!("feature {position} (line {line})"),
    }
}
