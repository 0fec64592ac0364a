//! Lines from the records of a store, as WKB.

use crate::chains::part;
use crate::door::{self, ReadRooms};
use crate::rooms::{first, grow};
use crate::size::{WKB_HEADER, WKB_NUMBER};
use crate::{Dimension, Lines, Points, Refusal};

/// The rooms that runs of records are read into, again and again.
///
/// They grow where a run needs more than any before it, and never shrink: 13 bytes for each record
/// and 8 for each number of a coordinate of the largest run; 8 more for each record of a run that
/// offsets cut.
#[derive(Clone, Debug, Default)]
pub struct WkbRooms {
    pub(crate) lines: LineRooms,
    /// The lengths of records that offsets cut.
    pub(crate) lengths: Vec<u64>,
}

/// The rooms that lines are read into.
#[derive(Clone, Debug, Default)]
pub(crate) struct LineRooms {
    coordinates: Vec<f64>,
    counts: Vec<u32>,
    groups: Vec<u32>,
    kinds: Vec<u8>,
}

/// Reads lines from a run of WKB records (OGC 06-103r4), one behind another, whose lengths stand in
/// a table.
///
/// Each record is a line in either byte order, all of one [`Dimension`], which the lines have then: x
/// and y (type 2), with a height (1002), a measure (2002) or both (3002). No records read as no lines
/// of x and y. Every bit of a double is kept, those of a NaN too. The lines borrow from the rooms and
/// go straight into a building call.
///
/// ```
/// use lovasuku_chains::{read_wkb, Rooms, Settings, WkbRooms};
///
/// # fn main() -> Result<(), lovasuku_chains::Refusal> {
/// // From 0,0 to 1,0 with the least byte first, and from 1,0 to 2,0 with the greatest first.
/// let mut run = vec![1, 2, 0, 0, 0, 2, 0, 0, 0];
/// [0.0f64, 0.0, 1.0, 0.0].iter().for_each(|x| run.extend(x.to_le_bytes()));
/// run.extend([0, 0, 0, 0, 2, 0, 0, 0, 2]);
/// [1.0f64, 0.0, 2.0, 0.0].iter().for_each(|x| run.extend(x.to_be_bytes()));
///
/// let mut store = WkbRooms::default();
/// let roads = read_wkb(&run, &[41, 41], &mut store)?;
/// let mut rooms = Rooms::default();
/// let chains = rooms.build(roads.plain(), Settings::default())?;
/// assert_eq!(chains.merged(), [0.0, 0.0, 1.0, 0.0, 2.0, 0.0]);
/// # Ok(())
/// # }
/// ```
///
/// # Errors
///
/// The first of these that applies. Before any record [`Refusal::BadLength`], where the lengths do
/// not add up to the run. Then, of the first bad record: [`Refusal::BadLength`] where its header
/// does not fit, [`Refusal::BadByteOrder`], [`Refusal::BadType`], [`Refusal::MixedTypes`], and
/// [`Refusal::BadLength`] where its count and its length disagree. What Shapely and GDAL's
/// `ExportToWkb` write for heights by default is not of ISO's types: ask for the ISO flavour, or use
/// `ExportToIsoWkb` or PostGIS's `ST_AsBinary`. Shapely 1.8's empty line is a collection.
pub fn read_wkb<'a>(
    run: &[u8],
    lengths: &[u64],
    rooms: &'a mut WkbRooms,
) -> Result<WkbLines<'a>, Refusal> {
    rooms.lines.read(run, lengths)
}

impl WkbRooms {
    /// Rooms without length, which the first run makes grow.
    pub fn new() -> Self {
        WkbRooms::default()
    }
}

impl LineRooms {
    /// Reads a run of records with their lengths into the rooms.
    pub fn read(&mut self, run: &[u8], lengths: &[u64]) -> Result<WkbLines<'_>, Refusal> {
        self.grow(run.len(), lengths.len());
        let mut wkb_type = [0];
        let LineRooms { coordinates, counts, .. } = self;
        let lent = ReadRooms { coordinates, counts, wkb_type: &mut wkb_type };
        let records = door::result(door::read_wkb(run, lengths, lent))? as usize;
        let [wkb_type] = wkb_type;
        Ok(WkbLines {
            dimension: Dimension::of_wkb_type(wkb_type).ok_or(Refusal::BadType)?,
            coordinates: first(&self.coordinates, numbers(run.len(), records)),
            counts: first(&self.counts, records),
            groups: first(&self.groups, records),
            kinds: first(&self.kinds, records),
        })
    }

    /// Makes room for a run of so many bytes in so many records. A run that has fewer bytes than
    /// its records have headers is refused, so that no more room is made than the run is long.
    fn grow(&mut self, bytes: usize, records: usize) {
        let records = records.min(bytes / WKB_HEADER);
        grow(&mut self.coordinates, numbers(bytes, records));
        grow(&mut self.counts, records);
        grow(&mut self.groups, records);
        grow(&mut self.kinds, records);
    }
}

/// How many numbers so many records in a run of so many bytes have.
fn numbers(bytes: usize, records: usize) -> usize {
    bytes.saturating_sub(WKB_HEADER.saturating_mul(records)) / WKB_NUMBER
}

/// The lines of a run of records, borrowed from the rooms that they were read into.
#[derive(Clone, Copy, Debug, PartialEq)]
pub struct WkbLines<'a> {
    dimension: Dimension,
    coordinates: &'a [f64],
    counts: &'a [u32],
    groups: &'a [u32],
    kinds: &'a [u8],
}

impl<'a> WkbLines<'a> {
    /// The number of lines, which is that of the records.
    pub fn len(&self) -> usize {
        self.counts.len()
    }

    /// True where there is no line.
    pub fn is_empty(&self) -> bool {
        self.counts.is_empty()
    }

    /// What each coordinate has; x and y where there is no line.
    pub fn dimension(&self) -> Dimension {
        self.dimension
    }

    /// x, y, x, y .. of all lines, with each coordinate's extras behind its y.
    pub fn coordinates(&self) -> &'a [f64] {
        self.coordinates
    }

    /// The number of coordinates of each line.
    pub fn counts(&self) -> &'a [u32] {
        self.counts
    }

    /// The points of each line, x and y of each, in the order of the records.
    pub fn points(&self) -> impl Iterator<Item = Points<'a>> {
        let WkbLines { coordinates, dimension, .. } = *self;
        let line = move |rest: &mut &'a [f64], &count: &u32| {
            let line = part(rest, 0, count, dimension.stride());
            *rest = rest.get(line.len()..).unwrap_or_default();
            Some(Points::of(line, dimension))
        };
        self.counts.iter().scan(coordinates, line)
    }

    /// The lines for a building call, all plain and of one group.
    pub fn plain(&self) -> Lines<'a> {
        self.with(self.groups, self.kinds)
    }

    /// The lines for a building call, with a group and a kind for each.
    pub fn with(&self, groups: &'a [u32], kinds: &'a [u8]) -> Lines<'a> {
        let WkbLines { dimension, coordinates, counts, .. } = *self;
        Lines { dimension, coordinates, counts, groups, kinds }
    }
}
