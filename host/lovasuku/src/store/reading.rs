//! A layer of a store as a delivery: its rows in batches, each with its id, its properties as JSON and
//! its geometry.

use super::batches::{by_features, by_stream, Texts, PART};
use super::gdal::{failures, listed, settle, warnings, Dataset, Field, Layer, Reference};
use super::geometry::{shapes, Positions, Shapes, Wkb};
use crate::delivery::{of_rows, Delivery, Point, Reading, Rows as Cuts, Sorting};
use crate::numbers::parts;
use crate::progress::Progress;
use anyhow::{anyhow, bail, Context, Result};
use lovasuku_chains::WkbRooms;
use rayon::prelude::*;

/// What is asked of a store: a layer or a query, which of its rows, and which of its geometries.
#[derive(Clone, Debug, Default, PartialEq)]
pub struct Asked {
    pub layer: Option<String>,
    pub sql: Option<String>,
    pub filter: Option<String>,
    pub geometry: Option<String>,
}

impl Asked {
    /// True where nothing is asked for that a store alone has.
    pub fn is_nothing(&self) -> bool {
        *self == Asked::default()
    }
}

/// What a layer is, beside its rows.
pub struct About {
    /// The name of its column of geometry; empty where it has none.
    pub geometry: String,
    pub fields: Vec<Field>,
    pub reference: Option<Reference>,
}

impl About {
    /// The unit of its coordinates, where they have a reference system and are not beyond it.
    pub fn unit(&self, [[west, south], [east, north]]: [Point; 2]) -> Option<String> {
        let degrees = west >= -180.0 && east <= 180.0 && south >= -90.0 && north <= 90.0;
        match &self.reference.as_ref()?.unit()[..] {
            "degrees" if !degrees => None,
            "metre" | "meter" | "Metre" | "Meter" => Some("m".into()),
            unit => Some(unit.to_owned()),
        }
    }
}

/// The rows of a layer, but for their texts: what the layer is, their geometry, and how their texts are cut.
pub struct Rows<'r> {
    pub about: About,
    pub cuts: Cuts,
    pub sorting: Sorting<'r>,
}

/// Reads what is asked for from a store.
pub fn read<'r>(
    dataset: &Dataset,
    asked: &Asked,
    reading: &'r Reading,
    text: &mut Vec<u8>,
    progress: &Progress,
) -> Result<Rows<'r>> {
    let mut layer = layer(dataset, asked)?;
    if let Some(condition) = &asked.filter {
        layer.filter(condition).with_context(|| format!("--where {condition:?}"))?;
    }
    progress.begin("reading", layer.rows().unwrap_or(0));
    if let (Some(condition), Some(fault)) = (&asked.filter, failures()) {
        return Err(fault).with_context(|| format!("--where {condition:?}"));
    }
    let (column, geometry, reference) = geometry(&layer, asked.geometry.as_deref())?;
    let about = About { geometry, fields: layer.fields(), reference };
    let name = asked.sql.is_none().then(|| layer.name());
    text.extend(members(name, about.reference.as_ref()));
    let names = about.fields.iter().map(|field| field.name.clone()).collect();
    let cuts = Cuts { names, begin: text.len(), ..Cuts::default() };
    let mut rows = Rows { about, cuts, sorting: Sorting::of(reading) };
    settle();
    rows.fill(&mut layer, column, text, progress)?;
    Ok(rows)
}

/// The layer that is asked for: by a query, by its name, or because there is no other.
fn layer<'d>(dataset: &'d Dataset, asked: &Asked) -> Result<Layer<'d>> {
    if let Some(sql) = &asked.sql {
        return dataset.query(sql).with_context(|| format!("--sql {sql:?}"));
    }
    if let Some(name) = &asked.layer {
        return dataset.layer(name);
    }
    match &dataset.layers()[..] {
        [name] => dataset.layer(name),
        [] => bail!("it has no layers"),
        names => bail!("it has {} layers, and --layer names one: {}", names.len(), listed(names)),
    }
}

/// The column of geometry that is asked for, or the only one: its number, its name and its reference
/// system.
fn geometry(layer: &Layer, asked: Option<&str>) -> Result<(usize, String, Option<Reference>)> {
    let mut all = layer.geometries();
    let names: Vec<String> = all.iter().map(|(name, _)| name.clone()).collect();
    let k = match (asked, all.len()) {
        (Some(asked), _) => match names.iter().position(|name| name == asked) {
            Some(k) => k,
            None => bail!("it has no geometry {asked:?}; it has {}", listed(&names)),
        },
        (None, 0) => bail!("its layer {:?} has no geometry", layer.name()),
        (None, 1) => 0,
        (None, count) => {
            bail!("it has {count} geometries, and --geometry names one: {}", listed(&names))
        }
    };
    let (name, reference) = all.swap_remove(k);
    Ok((k, name, reference))
}

/// The members that a collection of GeoJSON has for a layer: its name and its reference system.
fn members(name: Option<String>, reference: Option<&Reference>) -> Vec<u8> {
    let mut members = serde_json::Map::new();
    members.extend(name.map(|name| ("name".into(), name.into())));
    if let Some((authority, code)) = reference.and_then(Reference::authority) {
        let name = match (&authority[..], &code[..]) {
            ("EPSG", "4326") => "urn:ogc:def:crs:OGC:1.3:CRS84".into(),
            _ => format!("urn:ogc:def:crs:{authority}::{code}"),
        };
        members.insert(
            "crs".into(),
            serde_json::json!({"type": "name", "properties": {"name": name}}),
        );
    }
    serde_json::to_vec(&members).unwrap_or_default()
}

impl Rows<'_> {
    /// Reads all rows of a layer, whose geometry is in a column of a number, and puts their texts behind others.
    fn fill(
        &mut self,
        layer: &mut Layer,
        column: usize,
        text: &mut Vec<u8>,
        progress: &Progress,
    ) -> Result<()> {
        let (fields, geometry) = (self.about.fields.clone(), self.about.geometry.clone());
        let each = |read: Vec<Texts>, wkb: Wkb| {
            progress.add(read.iter().map(|(_, cuts)| cuts.len()).sum());
            self.add(read, wkb, text)
        };
        match fields.iter().any(|field| field.kind.is_wrong_in_streams()) {
            true => by_features(layer, &fields, column, each),
            false => by_stream(layer, &fields, &geometry, each),
        }
    }

    /// Adds rows that were read together.
    fn add(&mut self, read: Vec<Texts>, wkb: Wkb, text: &mut Vec<u8>) -> Result<()> {
        let (before, heights) = (self.cuts.ids.len(), self.sorting.reading.heights);
        for (part, cuts) in read {
            text.extend(part);
            for (id, values) in cuts {
                self.cuts.ids.push(id);
                self.cuts.texts.push(usize::from(id) + values);
            }
        }
        let shapes = |rooms: &mut WkbRooms, rows| {
            let mut positions = Positions::default();
            (shapes(wkb, rows, heights, rooms, &mut positions), positions)
        };
        let parts: Vec<(Shapes, Positions)> = parts(0..self.cuts.ids.len() - before, PART)
            .into_par_iter()
            .map_init(WkbRooms::new, shapes)
            .collect();
        let mut row = before;
        for (shapes, positions) in parts {
            let (mut points, mut extras) = (&positions.points[..], &positions.extras[..]);
            for shape in shapes.rows() {
                let put = shape.and_then(|(counts, own)| {
                    let geometry = counts.geometry((&mut points, &mut extras), own);
                    self.sorting.put(row as u32, &geometry, own)
                });
                put.map_err(|fault| anyhow!("{}: {fault}", self.place(text, row)))?;
                row += 1;
            }
        }
        Ok(())
    }

    /// A row in words.
    fn place(&self, text: &[u8], row: usize) -> String {
        self.cuts.place(&String::from_utf8_lossy(text), row)
    }

    /// The rows as a delivery, whose texts are those that were read.
    pub fn delivery(self, text: &str) -> Result<(Delivery<'_>, About)> {
        let Rows { about, cuts, sorting } = self;
        let mut delivery = of_rows(text, cuts, sorting)?;
        delivery.warnings.extend(warnings());
        Ok((delivery, about))
    }
}
