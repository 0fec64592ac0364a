//! The rows of a layer, many at a time: their ids and properties as texts, and their geometry as one run
//! of WKB.
//!
//! They come by GDAL's Arrow streams, whose columns are read where they lie. A layer that has fields which
//! the streams of GDAL 3.6 tell wrong is read feature by feature.

use super::gdal::{
    failures, Batch, Column, Cursor, Field, FieldType, Format, Layer, Offsets, Value,
};
use super::geometry::Wkb;
use super::properties::{row, Property};
use crate::numbers::parts;
use anyhow::{anyhow, bail, Context, Result};
use rayon::prelude::*;
use std::io::Write;
use std::ops::Range;

/// The texts of rows one behind another, and how long the id and the values of each are.
pub type Texts = (Vec<u8>, Vec<(u8, usize)>);

/// Puts the texts of a row behind those of others.
fn put<'b>(texts: &mut Texts, id: Option<i64>, values: impl Iterator<Item = Property<'b>>) {
    let (text, cuts) = texts;
    let begin = text.len();
    if let Some(id) = id {
        // A list of bytes takes all that is written to it.
        write!(text, "{id}").unwrap_or_default();
    }
    let middle = text.len();
    row(text, values);
    // The digits of an id are few.
    cuts.push(((middle - begin) as u8, text.len() - middle));
}

/// How many rows one core reads at a time.
pub const PART: usize = 1024;

fn from_row(row: usize) -> String {
    format!("from feature {row} on its rows cannot be read")
}

/// Where the columns of a batch are what.
struct Columns {
    id: Option<(usize, Format)>,
    geometry: (usize, Format),
    /// The column of each field, its format, and whether its texts are JSON; nothing where there is none.
    fields: Vec<Option<(usize, Format, bool)>>,
}

/// The name that GDAL gives to a column of ids that has none.
const UNNAMED_IDS: &str = "OGC_FID";

/// The name that GDAL gives to a column of geometry that has none.
const UNNAMED_GEOMETRY: &str = "wkb_geometry";

impl Columns {
    fn of(all: Vec<(String, Format)>, ids: &str, geometry: &str, fields: &[Field]) -> Result<Self> {
        let ids = if ids.is_empty() { UNNAMED_IDS } else { ids };
        let shapes = if geometry.is_empty() { UNNAMED_GEOMETRY } else { geometry };
        let (mut id, mut geometry, mut found) = (None, None, vec![None; fields.len()]);
        for (k, (name, format)) in all.into_iter().enumerate() {
            match fields.iter().position(|field| field.name == name) {
                None if name == shapes => geometry = Some((k, format)),
                None if name == ids && format == Format::Int64 => id = Some((k, format)),
                None => (),
                Some(place) => {
                    found[place] = Some((k, format, fields[place].kind == FieldType::JSON));
                }
            }
        }
        let geometry = geometry.ok_or_else(|| anyhow!("its rows have no column {shapes:?}"))?;
        Ok(Columns { id, geometry, fields: found })
    }
}

/// Reads all rows by a stream, and gives each batch of them to a function.
pub fn by_stream(
    layer: &mut Layer,
    fields: &[Field],
    geometry: &str,
    mut each: impl FnMut(Vec<Texts>, Wkb) -> Result<()>,
) -> Result<()> {
    let ids = layer.id_column();
    let mut stream = layer.stream(&[])?;
    let columns = stream.columns().map_err(|fault| anyhow!(fault))?;
    let columns = Columns::of(columns, &ids, geometry, fields)?;
    let mut row = 0;
    loop {
        let batch = stream.batch().map_err(|fault| anyhow!(fault));
        let batch = match (batch, failures()) {
            (_, Some(fault)) | (Err(fault), None) => {
                return Err(fault).with_context(|| from_row(row))
            }
            (Ok(None), None) => return Ok(()),
            (Ok(Some(batch)), None) => batch,
        };
        let (k, format) = &columns.geometry;
        let column = batch.column(*k, format);
        let wkb = column.and_then(Column::run).context("its geometry is not WKB")?;
        let texts = texts(&batch, &columns, fields)?;
        each(texts, Wkb { run: wkb.0, offsets: wkb.1, column })?;
        row += batch.rows();
    }
}

/// The texts of a batch, in parts.
fn texts(batch: &Batch, columns: &Columns, fields: &[Field]) -> Result<Vec<Texts>> {
    let ids = columns.id.as_ref().and_then(|(k, format)| batch.column(*k, format));
    let mut found: Vec<Option<(Column, bool)>> = Vec::new();
    for (place, field) in columns.fields.iter().zip(fields) {
        let column = place.as_ref().map(|place| field_of(batch, place, &field.name));
        found.push(column.transpose()?);
    }
    let part = |rows: Range<usize>| {
        let mut texts = Texts::default();
        for row in rows {
            let id = match ids.map(|ids| ids.value(row)) {
                Some(Value::Whole(id)) => Some(id),
                _ => None,
            };
            let values = found.iter().map(|field| match *field {
                Some((column, json)) => (column.value(row), json),
                None => (Value::Null, false),
            });
            put(&mut texts, id, values);
        }
        texts
    };
    Ok(parts(0..batch.rows(), PART).into_par_iter().map(part).collect())
}

/// The column of a field in a batch, and whether its texts are JSON.
fn field_of<'b>(
    batch: &'b Batch,
    (k, format, json): &'b (usize, Format, bool),
    name: &str,
) -> Result<(Column<'b>, bool)> {
    if let Format::Other(letters) = format {
        bail!("the field {name:?} has values that are not read (Arrow's format {letters})");
    }
    let column = batch.column(*k, format).context("a batch has too few columns")?;
    Ok((column, *json))
}

/// How many features are read one by one before they go on together.
const BATCH: usize = 1 << 16;

/// Reads all rows feature by feature, and gives many of them at a time to a function.
pub fn by_features(
    layer: &mut Layer,
    fields: &[Field],
    geometry: usize,
    mut each: impl FnMut(Vec<Texts>, Wkb) -> Result<()>,
) -> Result<()> {
    let mut cursor = layer.cursor();
    let mut row = 0;
    loop {
        let lent = Lent::of(&mut cursor, fields, geometry).with_context(|| from_row(row))?;
        let Lent { texts, run, offsets } = lent;
        let rows = texts.1.len();
        each(vec![texts], Wkb { run: &run, offsets: Offsets::Wide(&offsets), column: None })?;
        row += rows;
        if rows < BATCH {
            return Ok(());
        }
    }
}

/// Rows that were read feature by feature.
struct Lent {
    texts: Texts,
    run: Vec<u8>,
    offsets: Vec<i64>,
}

impl Lent {
    /// The next rows, fewer than a batch only where they are the last.
    fn of(cursor: &mut Cursor, fields: &[Field], geometry: usize) -> Result<Self> {
        let mut lent = Lent { texts: Texts::default(), run: Vec::new(), offsets: vec![0] };
        for _ in 0..BATCH {
            let found = match cursor.next()? {
                None => break,
                Some(found) => found,
            };
            let values = fields
                .iter()
                .enumerate()
                .map(|(k, field)| (found.value(k, field.kind), field.kind == FieldType::JSON));
            put(&mut lent.texts, Some(found.id()), values);
            found.wkb(geometry, &mut lent.run)?;
            lent.offsets.push(lent.run.len() as i64);
        }
        Ok(lent)
    }
}
