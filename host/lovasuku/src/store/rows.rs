//! Features as rows: their geometry as WKB of the proved writer's, their properties as values of fields.

use super::fields::Fields;
use super::gdal::Datum;
use super::writing::{Drawn, Features};
use crate::delivery::object::Entry;
use crate::delivery::Point;
use crate::measure::extent;
use lovasuku_chains::{ByteOrder, Dimension, LinesBuf, WkbBuf};
use std::ops::Range;

/// Rows that were encoded together.
#[derive(Default)]
pub struct Encoded {
    run: Vec<u8>,
    rows: Vec<Row>,
    /// How many texts were left out because they are too long.
    pub long: usize,
}

/// A row.
struct Row {
    /// The number of its parts, where it is a MultiLineString.
    parts: Option<u32>,
    /// Where its WKB ends in the run.
    end: usize,
    values: Vec<(usize, Datum)>,
    /// The lowest and the highest x and y of its points.
    extent: [Point; 2],
}

impl Encoded {
    /// The number of rows.
    pub fn len(&self) -> usize {
        self.rows.len()
    }

    /// The WKB and the values of each row.
    pub fn rows(&self) -> impl Iterator<Item = (&[u8], &[(usize, Datum)])> {
        let mut begin = 0;
        self.rows.iter().map(move |row| {
            let wkb = self.run.get(begin..row.end).unwrap_or_default();
            begin = row.end;
            (wkb, &row.values[..])
        })
    }

    /// The extent of each row.
    pub fn extents(&self) -> impl Iterator<Item = [Point; 2]> + '_ {
        self.rows.iter().map(|row| row.extent)
    }

    /// Puts the WKB of all rows, whose lines and parts are the given records.
    fn put_run<'r>(&mut self, mut records: impl Iterator<Item = &'r [u8]>, dimension: Dimension) {
        for row in &mut self.rows {
            if let Some(parts) = row.parts {
                self.run.push(ByteOrder::Little.number());
                self.run.extend((dimension.wkb_type() + MULTI).to_le_bytes());
                self.run.extend(parts.to_le_bytes());
            }
            let own = records.by_ref().take(row.parts.unwrap_or(1) as usize);
            own.for_each(|record| self.run.extend(record));
            row.end = self.run.len();
        }
    }
}

/// How far the types of lines and of MultiLineStrings are apart.
const MULTI: u32 = 3;

/// Encodes features whose positions have a dimension, leaving out texts beyond a length.
pub fn encoded(
    features: &dyn Features,
    places: Range<usize>,
    dimension: Dimension,
    fields: &Fields,
    longest: Option<usize>,
) -> Encoded {
    let mut lines = LinesBuf::of(dimension);
    let mut encoded = Encoded::default();
    features.each(places, &mut |feature| {
        let (parts, extent) = match feature.drawn {
            Drawn::Line(points, extras) => {
                lines.push_apart(points, extras, 0);
                (None, extent(points.iter().copied()))
            }
            Drawn::Lines(parts) => {
                parts.iter().for_each(|part| lines.push_apart(&part.points, &part.heights, 0));
                let points = parts.iter().flat_map(|part| &*part.points);
                (Some(parts.len() as u32), extent(points.copied()))
            }
        };
        let values = values(&feature.properties, fields, longest, &mut encoded.long);
        encoded.rows.push(Row { parts, end: 0, values, extent });
    });
    let mut buffer = WkbBuf::new();
    // Lines that were pushed have the coordinates that their counts say, so that none is refused.
    let records = lines.lines().write_wkb(ByteOrder::Little, &mut buffer).into_iter().flatten();
    encoded.put_run(records, dimension);
    encoded
}

/// The values of properties, without texts that are too long, which are counted.
fn values(
    properties: &[Entry],
    fields: &Fields,
    longest: Option<usize>,
    long: &mut usize,
) -> Vec<(usize, Datum)> {
    let mut values = fields.values(properties);
    let all = values.len();
    if let Some(longest) = longest {
        let fits =
            |datum: &Datum| !matches!(datum, Datum::Text(text) if text.as_bytes().len() > longest);
        values.retain(|(_, datum)| fits(datum));
    }
    *long += all - values.len();
    values
}
