//! Chains as the records of a web map, as WKB.

use crate::door::{self, WriteRooms};
use crate::rooms::{first, grow};
use crate::size::{RECORD, WKB_HEADER, WKB_NUMBER};
use crate::{Chains, Lines, Refusal};
use std::slice::Iter;

/// The byte order of a record.
#[derive(Clone, Copy, Debug, PartialEq, Eq, Hash)]
pub enum ByteOrder {
    /// The greatest byte first: 0, XDR.
    Big,
    /// The least byte first: 1, NDR.
    Little,
}

impl ByteOrder {
    /// Its number in a record.
    pub fn number(self) -> u8 {
        match self {
            ByteOrder::Big => 0,
            ByteOrder::Little => 1,
        }
    }
}

/// The bytes and lengths that chains are written into, again and again.
///
/// They grow where chains need more than any before them, and never shrink.
#[derive(Clone, Debug, Default)]
pub struct WkbBuf {
    run: Vec<u8>,
    lengths: Vec<u64>,
    /// The records of lines that are written as chains of one line each.
    table: Vec<u32>,
}

impl WkbBuf {
    /// A buffer without length, which the first chains make grow.
    pub fn new() -> Self {
        WkbBuf::default()
    }
}

impl Chains<'_> {
    /// The bytes that the chains have as WKB records.
    pub fn wkb_length(&self) -> usize {
        self.iter().map(|chain| WKB_HEADER + WKB_NUMBER * chain.coordinates().len()).sum()
    }

    /// Writes each chain as a WKB record (OGC 06-103r4) into a buffer, which grows where it has to. The
    /// records' type is that of the lines' [`Dimension`](crate::Dimension).
    ///
    /// Every bit of a coordinate is kept: [`read_wkb`](crate::read_wkb) gives the same ones. A line
    /// of one coordinate, which GEOS and PostGIS do not take, is written as it is.
    ///
    /// ```
    /// use lovasuku_chains::{ByteOrder, LinesBuf, Rooms, Settings, WkbBuf};
    ///
    /// # fn main() -> Result<(), lovasuku_chains::Refusal> {
    /// let mut lines = LinesBuf::default();
    /// lines.push([[0.0, 0.0], [1.0, 0.0]], 0);
    /// lines.push([[1.0, 0.0], [2.0, 0.0]], 0);
    /// let mut rooms = Rooms::default();
    /// let chains = rooms.build(lines.lines(), Settings::default())?;
    ///
    /// let mut buffer = WkbBuf::default();
    /// let records = chains.write_wkb(ByteOrder::Little, &mut buffer)?;
    /// assert_eq!(records.lengths(), [57]);
    /// for record in records {
    ///     assert_eq!(record[..9], [1, 2, 0, 0, 0, 3, 0, 0, 0]);
    /// }
    /// # Ok(())
    /// # }
    /// ```
    ///
    /// # Errors
    ///
    /// None for chains of a building call.
    pub fn write_wkb<'b>(
        &self,
        order: ByteOrder,
        buffer: &'b mut WkbBuf,
    ) -> Result<WkbRecords<'b>, Refusal> {
        grow(&mut buffer.run, self.wkb_length());
        grow(&mut buffer.lengths, self.len());
        self.write_wkb_into(order, &mut buffer.run, &mut buffer.lengths)
    }

    /// Writes each chain as a WKB record into lent slices: [`wkb_length`](Chains::wkb_length) bytes,
    /// and a length for each chain. What lies beyond them is as before.
    ///
    /// # Errors
    ///
    /// [`Refusal::RecordRoomTooShort`] where a slice is shorter than that; nothing is written then.
    pub fn write_wkb_into<'b>(
        &self,
        order: ByteOrder,
        run: &'b mut [u8],
        lengths: &'b mut [u64],
    ) -> Result<WkbRecords<'b>, Refusal> {
        let (lines, k) = (self.lines(), self.len());
        let rooms = WriteRooms { run: &mut *run, lengths: &mut *lengths };
        let answer = door::write_wkb(
            lines.dimension.wkb_type(),
            lines.coordinates,
            self.merged(),
            self.table(),
            k as u64,
            order.number(),
            rooms,
        );
        let bytes = door::result(answer)? as usize;
        Ok(WkbRecords { run: first(run, bytes), lengths: first(lengths, k) })
    }
}

impl Lines<'_> {
    /// Writes each line as a WKB record into a buffer, as [`Chains::write_wkb`] writes chains: a chain
    /// of one line is that line, untouched.
    ///
    /// ```
    /// use lovasuku_chains::{ByteOrder, Dimension, LinesBuf, WkbBuf};
    ///
    /// # fn main() -> Result<(), lovasuku_chains::Refusal> {
    /// let mut lines = LinesBuf::of(Dimension::Xyz);
    /// lines.push([[0.0, 0.0, 7.0], [1.0, 0.0, 8.0]], 0);
    /// lines.push([[5.0, 0.0, 9.0]], 0);
    /// let mut buffer = WkbBuf::default();
    /// let records = lines.lines().write_wkb(ByteOrder::Little, &mut buffer)?;
    /// assert_eq!(records.lengths(), [57, 33]);
    /// # Ok(())
    /// # }
    /// ```
    ///
    /// # Errors
    ///
    /// [`Refusal::NoSuchChain`] where the counts reach beyond the coordinates, or where a line begins
    /// beyond what a `u32` counts.
    pub fn write_wkb<'b>(
        &self,
        order: ByteOrder,
        buffer: &'b mut WkbBuf,
    ) -> Result<WkbRecords<'b>, Refusal> {
        let (k, table) = (self.len(), &mut buffer.table);
        let end = single_lines(self.counts, table).ok_or(Refusal::NoSuchChain)?;
        let numbers = self.dimension.stride().saturating_mul(end as usize);
        grow(&mut buffer.run, WKB_HEADER * k + WKB_NUMBER * numbers.min(self.coordinates.len()));
        grow(&mut buffer.lengths, k);
        let rooms = WriteRooms { run: &mut buffer.run, lengths: &mut buffer.lengths };
        let wkb_type = self.dimension.wkb_type();
        let (k, order) = (k as u64, order.number());
        let answer = door::write_wkb(wkb_type, self.coordinates, &[], table, k, order, rooms);
        let bytes = door::result(answer)? as usize;
        Ok(WkbRecords {
            run: first(&buffer.run, bytes),
            lengths: first(&buffer.lengths, self.len()),
        })
    }
}

/// The table of the chains of one line each, and how many coordinates they have together.
fn single_lines(counts: &[u32], table: &mut Vec<u32>) -> Option<u32> {
    table.clear();
    let mut end = 0u32;
    for &count in counts {
        let mut record = [0; RECORD];
        let [_, members, _, first, coordinates, ..] = &mut record;
        (*members, *first, *coordinates) = (1, end, count);
        table.extend(record);
        end = end.checked_add(count)?;
    }
    Some(end)
}

/// WKB records one behind another, with their lengths, borrowed from where they were written.
#[derive(Clone, Copy, Debug, PartialEq, Eq)]
pub struct WkbRecords<'a> {
    run: &'a [u8],
    lengths: &'a [u64],
}

impl<'a> WkbRecords<'a> {
    /// The number of records.
    pub fn len(&self) -> usize {
        self.lengths.len()
    }

    /// True where there is no record.
    pub fn is_empty(&self) -> bool {
        self.lengths.is_empty()
    }

    /// All bytes.
    pub fn run(&self) -> &'a [u8] {
        self.run
    }

    /// The length of each record in bytes.
    pub fn lengths(&self) -> &'a [u64] {
        self.lengths
    }

    /// The records in their order, none of them copied.
    pub fn iter(&self) -> WkbRecordsIter<'a> {
        WkbRecordsIter { rest: self.run, lengths: self.lengths.iter() }
    }
}

impl<'a> IntoIterator for WkbRecords<'a> {
    type Item = &'a [u8];
    type IntoIter = WkbRecordsIter<'a>;

    fn into_iter(self) -> WkbRecordsIter<'a> {
        self.iter()
    }
}

impl<'a> IntoIterator for &WkbRecords<'a> {
    type Item = &'a [u8];
    type IntoIter = WkbRecordsIter<'a>;

    fn into_iter(self) -> WkbRecordsIter<'a> {
        self.iter()
    }
}

/// WKB records in their order.
#[derive(Clone, Debug)]
pub struct WkbRecordsIter<'a> {
    rest: &'a [u8],
    lengths: Iter<'a, u64>,
}

impl<'a> Iterator for WkbRecordsIter<'a> {
    type Item = &'a [u8];

    fn next(&mut self) -> Option<&'a [u8]> {
        let length = usize::try_from(*self.lengths.next()?).ok()?;
        let record = self.rest.get(..length)?;
        self.rest = self.rest.get(length..)?;
        Some(record)
    }

    fn size_hint(&self) -> (usize, Option<usize>) {
        self.lengths.size_hint()
    }
}

impl ExactSizeIterator for WkbRecordsIter<'_> {}
