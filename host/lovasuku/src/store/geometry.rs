//! The geometry of a layer: a column of WKB, read by the proved reader where it lies.
//!
//! A batch of lines alone, of one type, is one call of the reader, with the run and the offsets as Arrow
//! has them. In any other batch each row is a call: a line is one record, and a MultiLineString is a
//! header and then the records of its parts, one behind another.

use super::gdal::{Column, Offsets};
use crate::delivery::{Geometry, Heights, Point, Run};
use lovasuku_chains::size::{POINT, WKB_HEADER, WKB_NUMBER};
use lovasuku_chains::{read_wkb, read_wkb_offsets, Dimension, WkbLines, WkbRooms};
use std::ops::Range;

/// The geometry of a row, whose positions lie with those of all rows, or what is wrong with it.
pub type Shape = Result<(Counts, Dimension), String>;

/// The geometry of rows that follow each other.
pub enum Shapes {
    /// Lines of one dimension alone: how many positions each has.
    Lines(Vec<u32>, Dimension),
    Any(Vec<Shape>),
}

impl Shapes {
    /// The rows one by one.
    pub fn rows(self) -> impl Iterator<Item = Shape> {
        let (dimension, counts, shapes) = match self {
            Shapes::Lines(counts, dimension) => (dimension, counts, Vec::new()),
            Shapes::Any(shapes) => (Dimension::Xy, Vec::new(), shapes),
        };
        let line = move |count| Ok((Counts::Line(count), dimension));
        counts.into_iter().map(line).chain(shapes)
    }
}

/// The positions of rows, one row behind another.
#[derive(Default)]
pub struct Positions {
    pub points: Vec<Point>,
    /// All extras of those that have such.
    pub extras: Vec<f64>,
}

/// How many positions a row has, in all or of each part, or what it is in words.
pub enum Counts {
    Line(u32),
    Lines(Vec<u32>),
    Other(String),
}

impl Counts {
    /// The geometry, from the first positions of a dimension on, which are taken.
    pub fn geometry<'a>(
        self,
        (points, extras): (&mut &'a [Point], &mut &'a [f64]),
        own: Dimension,
    ) -> Geometry<'a> {
        let mut run = |count: u32| {
            let count = count as usize;
            let extras = taken(extras, own.extras() * count);
            Run { points: taken(points, count).into(), heights: extras.into() }
        };
        match self {
            Counts::Line(count) => Geometry::Line(run(count)),
            Counts::Lines(counts) => Geometry::Lines(counts.into_iter().map(run).collect()),
            Counts::Other(what) => Geometry::Other(what),
        }
    }
}

/// So many of the first items, which are taken from the others.
fn taken<'a, T>(rest: &mut &'a [T], count: usize) -> &'a [T] {
    let (first, behind) = rest.split_at(count.min(rest.len()));
    *rest = behind;
    first
}

/// What is wrong with a coordinate that is not finite.
const NO_PLACE: &str = "a number of its coordinates is NaN or infinite, so that it is no place";

/// The WKB of rows in one run, and the offsets that cut it. A row that has none may have a mark for
/// that in its column.
#[derive(Clone, Copy)]
pub struct Wkb<'b> {
    pub run: &'b [u8],
    pub offsets: Offsets<'b>,
    pub column: Option<Column<'b>>,
}

impl<'b> Wkb<'b> {
    /// The WKB of a row; nothing where it has none.
    fn record(&self, row: usize) -> &'b [u8] {
        let cut = self.offsets.place(row).zip(self.offsets.place(row + 1));
        let null = self.column.map_or(false, |column| column.is_null(row));
        cut.filter(|_| !null).and_then(|(from, to)| self.run.get(from..to)).unwrap_or_default()
    }
}

/// The geometry of some rows, whose positions are put behind others.
pub fn shapes(
    wkb: Wkb,
    rows: Range<usize>,
    heights: Heights,
    rooms: &mut WkbRooms,
    positions: &mut Positions,
) -> Shapes {
    if let Some(lines) = lines_alone(wkb, rows.clone(), rooms) {
        if positions.put(lines, heights) {
            return Shapes::Lines(lines.counts().to_vec(), kept(lines.dimension(), heights));
        }
    }
    let shape = |row: usize| match wkb.record(row) {
        [] => Ok((Counts::Other("null".into()), Dimension::Xy)),
        record => of_record(record, heights, rooms, positions),
    };
    Shapes::Any(rows.map(shape).collect())
}

/// The rows as lines, where they are nothing else.
fn lines_alone<'a>(wkb: Wkb, rows: Range<usize>, rooms: &'a mut WkbRooms) -> Option<WkbLines<'a>> {
    let all = rows.start..rows.end + 1;
    let read = match wkb.offsets {
        _ if wkb.column.map_or(false, Column::may_have_nulls) => return None,
        Offsets::Narrow(offsets) => read_wkb_offsets(wkb.run, offsets.get(all)?, rooms),
        Offsets::Wide(offsets) => read_wkb_offsets(wkb.run, offsets.get(all)?, rooms),
    };
    read.ok()
}

/// What is kept of a dimension: x and y alone where heights are left out.
fn kept(dimension: Dimension, heights: Heights) -> Dimension {
    match heights {
        Heights::Kept => dimension,
        Heights::Dropped => Dimension::Xy,
    }
}

impl Positions {
    /// Puts the positions of lines that were read behind the others, unless one is no place.
    fn put(&mut self, lines: WkbLines, heights: Heights) -> bool {
        let positions = lines.coordinates().chunks_exact(lines.dimension().stride());
        let finite = positions.clone().flat_map(|all| &all[..POINT]).all(|x| x.is_finite());
        if finite {
            self.points.extend(positions.clone().map(|all| [all[0], all[1]]));
            if kept(lines.dimension(), heights) != Dimension::Xy {
                self.extras.extend(positions.flat_map(|all| &all[POINT..]));
            }
        }
        finite
    }
}

/// The types of OGC 06-103r4 as words, by what is left of them by a thousand.
const WORDS: [(u32, &str); 16] = [
    (0, "a Geometry"),
    (1, "a Point"),
    (3, "a Polygon"),
    (4, "a MultiPoint"),
    (6, "a MultiPolygon"),
    (7, "a GeometryCollection"),
    (8, "a CircularString"),
    (9, "a CompoundCurve"),
    (10, "a CurvePolygon"),
    (11, "a MultiCurve"),
    (12, "a MultiSurface"),
    (13, "a Curve"),
    (14, "a Surface"),
    (15, "a PolyhedralSurface"),
    (16, "a TIN"),
    (17, "a Triangle"),
];

/// How far the types of lines and of MultiLineStrings are apart, whatever their positions have.
const MULTI: u32 = 3;

/// How far the types of one geometry with other extras are apart.
const EXTRAS: u32 = 1000;

/// The header of a record: the byte order, the type and the count.
fn header(record: &[u8]) -> Option<(u32, u32)> {
    let number = |at: usize| {
        let bytes = record.get(at..at + 4)?.try_into().ok()?;
        match record.first()? {
            0 => Some(u32::from_be_bytes(bytes)),
            1 => Some(u32::from_le_bytes(bytes)),
            _ => None,
        }
    };
    Some((number(1)?, number(5)?))
}

/// The shape of a record by itself.
fn of_record(
    record: &[u8],
    heights: Heights,
    rooms: &mut WkbRooms,
    positions: &mut Positions,
) -> Shape {
    let (kind, count) = header(record).ok_or("its geometry is not WKB")?;
    if let Some(dimension) = Dimension::of_wkb_type(kind) {
        let counts = of_lines(record, &[record.len() as u64], heights, rooms, positions)?;
        let count = counts.first().copied().unwrap_or_default();
        return Ok((Counts::Line(count), kept(dimension, heights)));
    }
    match kind.checked_sub(MULTI).and_then(Dimension::of_wkb_type) {
        Some(dimension) => {
            let parts = record.get(WKB_HEADER..).unwrap_or_default();
            let lengths = lengths(parts, count, dimension)?;
            let counts = of_lines(parts, &lengths, heights, rooms, positions)?;
            Ok((Counts::Lines(counts), kept(dimension, heights)))
        }
        None => other(kind).map(|what| (Counts::Other(what), Dimension::Xy)),
    }
}

fn other(kind: u32) -> Result<String, String> {
    let named = WORDS.into_iter().find(|(number, _)| *number == kind % EXTRAS);
    match named {
        Some((_, words)) if kind / EXTRAS < 4 => Ok(words.into()),
        _ => Err(format!("its geometry has the type {kind}, which is none of ISO's WKB")),
    }
}

/// How many positions records have that are lines of one dimension.
fn of_lines(
    run: &[u8],
    lengths: &[u64],
    heights: Heights,
    rooms: &mut WkbRooms,
    positions: &mut Positions,
) -> Result<Vec<u32>, String> {
    let lines = read_wkb(run, lengths, rooms)
        .map_err(|refusal| format!("its geometry is not WKB of lines: {refusal}"))?;
    match positions.put(lines, heights) {
        true => Ok(lines.counts().to_vec()),
        false => Err(NO_PLACE.into()),
    }
}

/// The lengths of the parts of a MultiLineString, by their counts.
fn lengths(mut parts: &[u8], count: u32, dimension: Dimension) -> Result<Vec<u64>, String> {
    let mut lengths = Vec::new();
    for part in 0..count {
        let length = header(parts).map(|(_, count)| {
            let numbers = count as usize * dimension.stride();
            WKB_HEADER + WKB_NUMBER * numbers
        });
        let behind = length.and_then(|length| parts.get(length..));
        parts = behind.ok_or_else(|| format!("part {part} of its geometry is cut off"))?;
        lengths.extend(length.map(|length| length as u64));
    }
    Ok(lengths)
}
