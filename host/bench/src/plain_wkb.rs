//! A reader and a writer of WKB in plain Rust, with the answers of the library's: what these are
//! held to.

use lovasuku_chains::size::RECORD;
use std::convert::TryInto;

/// Byte order, type and count.
const HEADER: usize = 9;

/// The numbers of a coordinate of a type, if it is a line's.
fn stride_of(wkb_type: u32) -> Option<usize> {
    match wkb_type {
        2 => Some(2),
        1002 | 2002 => Some(3),
        3002 => Some(4),
        _ => None,
    }
}

/// Reads lines from a run of records, whose lengths stand in a table, with their type, or gives the
/// number of the refusal. Nothing is stored before all records have been looked at.
pub fn read(
    run: &[u8],
    lengths: &[u64],
    coordinates: &mut [f64],
    counts: &mut [u32],
    wkb_type: &mut [u32],
) -> Result<usize, u8> {
    let sum = lengths.iter().try_fold(0u64, |sum, &length| sum.checked_add(length));
    if sum != Some(run.len() as u64) {
        return Err(13);
    }
    let (mut rest, mut numbers, mut first) = (run, 0, None);
    for &length in lengths {
        let (record, behind) = rest.split_at(length as usize);
        numbers += numbers_of(record, &mut first)?;
        rest = behind;
    }
    if coordinates.len() < numbers || counts.len() < lengths.len() || wkb_type.is_empty() {
        return Err(14);
    }
    wkb_type[0] = first.unwrap_or(2);
    let (mut rest, mut room) = (run, coordinates);
    for (&length, row) in lengths.iter().zip(counts) {
        let (record, behind) = rest.split_at(length as usize);
        let (header, body) = record.split_at(HEADER);
        let (line, free) = room.split_at_mut(body.len() / 8);
        let doubles = line.iter_mut().zip(body.chunks_exact(8));
        match header[0] {
            0 => {
                doubles.for_each(|(to, from)| *to = f64::from_bits(u64::from_be_bytes(eight(from))))
            }
            _ => {
                doubles.for_each(|(to, from)| *to = f64::from_bits(u64::from_le_bytes(eight(from))))
            }
        }
        *row = word(header, 5);
        (rest, room) = (behind, free);
    }
    Ok(lengths.len())
}

/// How many numbers a record has, if it is a line of the first one's type.
fn numbers_of(record: &[u8], first: &mut Option<u32>) -> Result<usize, u8> {
    if record.len() < HEADER {
        return Err(13);
    }
    if record[0] > 1 {
        return Err(11);
    }
    let wkb_type = word(record, 1);
    let stride = stride_of(wkb_type).ok_or(12)?;
    if *first.get_or_insert(wkb_type) != wkb_type {
        return Err(25);
    }
    let numbers = stride * word(record, 5) as usize;
    match record.len() == HEADER + 8 * numbers {
        true => Ok(numbers),
        false => Err(13),
    }
}

/// Four bytes of a record, in its own order.
fn word(record: &[u8], at: usize) -> u32 {
    let four = record[at..at + 4].try_into().unwrap_or_default();
    match record[0] {
        0 => u32::from_be_bytes(four),
        _ => u32::from_le_bytes(four),
    }
}

fn eight(bytes: &[u8]) -> [u8; 8] {
    bytes.try_into().unwrap_or_default()
}

/// Writes the first k chains of a table as records of a type in a byte order, with their lengths, or
/// gives the number of the refusal. Nothing is stored before all rows have been looked at.
#[allow(clippy::too_many_arguments)]
pub fn write(
    wkb_type: u32,
    coordinates: &[f64],
    merged: &[f64],
    table: &[u32],
    k: u64,
    order: u8,
    run: &mut [u8],
    lengths: &mut [u64],
) -> Result<usize, u8> {
    let stride = stride_of(wkb_type).ok_or(12)?;
    if order > 1 {
        return Err(16);
    }
    let rows =
        usize::try_from(k).ok().and_then(|k| table.get(..k.checked_mul(RECORD)?)).ok_or(10)?;
    let mut bytes = 0u64;
    for row in rows.chunks_exact(RECORD) {
        let numbers = line(coordinates, merged, row, stride).ok_or(10)?.len();
        bytes = bytes.checked_add(HEADER as u64 + 8 * numbers as u64).ok_or(14)?;
    }
    if bytes > run.len() as u64 || lengths.len() < rows.len() / RECORD {
        return Err(14);
    }
    let mut rest = run;
    for (row, length) in rows.chunks_exact(RECORD).zip(lengths) {
        let numbers = line(coordinates, merged, row, stride).ok_or(10)?;
        let (record, behind) = rest.split_at_mut(HEADER + 8 * numbers.len());
        let (header, body) = record.split_at_mut(HEADER);
        let doubles = body.chunks_exact_mut(8).zip(numbers);
        header[0] = order;
        match order {
            0 => {
                header[1..5].copy_from_slice(&wkb_type.to_be_bytes());
                header[5..].copy_from_slice(&row[4].to_be_bytes());
                doubles.for_each(|(to, from)| to.copy_from_slice(&from.to_bits().to_be_bytes()));
            }
            _ => {
                header[1..5].copy_from_slice(&wkb_type.to_le_bytes());
                header[5..].copy_from_slice(&row[4].to_le_bytes());
                doubles.for_each(|(to, from)| to.copy_from_slice(&from.to_bits().to_le_bytes()));
            }
        }
        *length = record.len() as u64;
        rest = behind;
    }
    Ok(bytes as usize)
}

/// The numbers of the coordinates that a row of a table names, if they are there.
fn line<'a>(
    coordinates: &'a [f64],
    merged: &'a [f64],
    row: &[u32],
    stride: usize,
) -> Option<&'a [f64]> {
    let from = match row[2] {
        0 => coordinates,
        1 => merged,
        _ => return None,
    };
    let first = stride * row[3] as usize;
    from.get(first..first + stride * row[4] as usize)
}
