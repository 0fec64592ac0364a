//! Lines as WKB records, read and written as OGC 06-103r4 and the rules say: the judge of the
//! library's reader and writer.

use crate::call::{stride_of, RECORD};

/// The type, coordinates and counts of a run of records; coordinates by their bits.
#[derive(Clone, Debug, PartialEq, Eq)]
pub struct Records {
    /// The type of all records, 2 where there is none.
    pub wkb_type: u32,
    /// x, y and the extras of each coordinate of all records.
    pub coordinates: Vec<u64>,
    /// How many coordinates each record has.
    pub counts: Vec<u32>,
}

/// The type of a line of x and y.
pub const LINE: u32 = 2;

/// Byte order, type and count.
const HEADER: usize = 9;

/// What a run of records with a table of lengths reads as into rooms for so many numbers, so many
/// counts and so many types, or the number of its refusal.
pub fn read(run: &[u8], lengths: &[u64], rooms: [usize; 3]) -> Result<Records, i64> {
    let sum: u128 = lengths.iter().map(|&length| u128::from(length)).sum();
    if sum != run.len() as u128 {
        return Err(13);
    }
    let mut records = Records { wkb_type: LINE, coordinates: vec![], counts: vec![] };
    let mut rest = run;
    for &length in lengths {
        let (record, behind) = rest.split_at(length as usize);
        records.add(record)?;
        rest = behind;
    }
    let [numbers, counts, types] = rooms;
    let fits = records.coordinates.len() <= numbers && records.counts.len() <= counts && types > 0;
    match fits {
        true => Ok(records),
        false => Err(14),
    }
}

impl Records {
    /// Adds a record, or gives the number of its refusal. The first one's type is that of all.
    fn add(&mut self, record: &[u8]) -> Result<(), i64> {
        if record.len() < HEADER {
            return Err(13);
        }
        let (header, body) = record.split_at(HEADER);
        let big = match header[0] {
            0 => true,
            1 => false,
            _ => return Err(11),
        };
        let wkb_type = number(&header[1..5], big) as u32;
        let stride = stride_of(wkb_type).ok_or(12)?;
        if self.counts.is_empty() {
            self.wkb_type = wkb_type;
        }
        if wkb_type != self.wkb_type {
            return Err(25);
        }
        let count = number(&header[5..], big);
        if body.len() as u64 != 8 * stride as u64 * count {
            return Err(13);
        }
        self.counts.push(count as u32);
        self.coordinates.extend(body.chunks(8).map(|double| number(double, big)));
        Ok(())
    }
}

/// The number that bytes stand for, one digit to base 256 after another.
fn number(bytes: &[u8], big: bool) -> u64 {
    let digit = |number: u64, &byte: &u8| number << 8 | u64::from(byte);
    match big {
        true => bytes.iter().fold(0, digit),
        false => bytes.iter().rev().fold(0, digit),
    }
}

/// A record of a line of x and y in a byte order, 0 with the greatest byte first.
pub fn record(order: u8, coordinates: &[u64]) -> Vec<u8> {
    record_of(LINE, order, coordinates)
}

/// A record of a line of a type in a byte order. The coordinates of a number that is no type are
/// written as if they were x and y.
pub fn record_of(wkb_type: u32, order: u8, coordinates: &[u64]) -> Vec<u8> {
    let bytes = |number: u64, width: usize| {
        let mut bytes = number.to_be_bytes()[8 - width..].to_vec();
        if order != 0 {
            bytes.reverse();
        }
        bytes
    };
    let stride = stride_of(wkb_type).unwrap_or(2);
    let mut record = vec![order];
    record.extend(bytes(u64::from(wkb_type), 4));
    record.extend(bytes((coordinates.len() / stride) as u64, 4));
    record.extend(coordinates.iter().flat_map(|&number| bytes(number, 8)));
    record
}

/// What a writing call lends beside its rooms; coordinates by their bits.
#[derive(Clone, Debug, PartialEq, Eq)]
pub struct Chains {
    /// The type of all chains.
    pub wkb_type: u32,
    /// The caller's coordinates, source 0.
    pub coordinates: Vec<u64>,
    /// The merged coordinates, source 1.
    pub merged: Vec<u64>,
    /// Six numbers for each chain, of which the last is not looked at.
    pub table: Vec<u32>,
    /// How many chains are written.
    pub k: u64,
    /// The byte order of all records.
    pub order: u8,
}

impl Default for Chains {
    /// No chains, of x and y.
    fn default() -> Self {
        let (coordinates, merged, table) = (vec![], vec![], vec![]);
        Chains { wkb_type: LINE, coordinates, merged, table, k: 0, order: 0 }
    }
}

/// The first k chains as records one behind another with their lengths, in rooms for so many bytes
/// and so many lengths, or the number of the refusal.
pub fn write(chains: &Chains, rooms: [usize; 2]) -> Result<(Vec<u8>, Vec<u64>), i64> {
    let stride = stride_of(chains.wkb_type).ok_or(12)?;
    if chains.order > 1 {
        return Err(16);
    }
    let rows: Vec<&[u32]> = chains.table.chunks_exact(RECORD).collect();
    let rows = usize::try_from(chains.k).ok().and_then(|k| rows.get(..k)).ok_or(10)?;
    let lines: Option<Vec<&[u64]>> = rows.iter().map(|row| chains.line(row, stride)).collect();
    let lines = lines.ok_or(10)?;
    let bytes: u128 = lines.iter().map(|line| 9 + 8 * line.len() as u128).sum();
    let [most, lengths] = rooms;
    if bytes > most as u128 || rows.len() > lengths {
        return Err(14);
    }
    let bytes = |line: &&[u64]| record_of(chains.wkb_type, chains.order, line);
    let records: Vec<Vec<u8>> = lines.iter().map(bytes).collect();
    let lengths = records.iter().map(|record| record.len() as u64).collect();
    Ok((records.concat(), lengths))
}

impl Chains {
    /// The numbers of the coordinates that a row of the table names, if they are there.
    fn line(&self, row: &[u32], stride: usize) -> Option<&[u64]> {
        let from = match row[2] {
            0 => &self.coordinates,
            1 => &self.merged,
            _ => return None,
        };
        let (first, count) = (stride * row[3] as usize, stride * row[4] as usize);
        from.get(first..first + count)
    }
}
