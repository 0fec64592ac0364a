//! Pieces of lines, as a first call leaves them and a second takes them.

use crate::call::{BuildCall, Refusal};
use std::fmt;

/// The numbers of a piece's record.
pub const PIECE: usize = 5;

/// The refusal of pieces that are not those of the lines.
pub const BAD_PIECES: Refusal = Refusal(19);

/// Pieces as they are lent. Coordinates are bits.
#[derive(Clone, Debug, Default, PartialEq, Eq)]
pub struct Pieces {
    /// Five numbers a piece: first member, member count, source, first coordinate, coordinate count.
    pub records: Vec<u32>,
    /// Positions of lines.
    pub members: Vec<u32>,
    /// The turned mark of each member.
    pub marks: Vec<u8>,
    /// Positions of lines, in each piece in the order in which its coordinates pass them.
    pub listing: Vec<u32>,
    /// The coordinates of source 1.
    pub merged: Vec<u64>,
    /// How many pieces there are.
    pub k: u64,
}

/// A call that finishes pieces. The lines have the settings too.
#[derive(Clone, Debug, Default, PartialEq, Eq)]
pub struct FinishCall {
    /// The lines, with tolerance, origin, switch and limit.
    pub lines: BuildCall,
    /// The pieces.
    pub pieces: Pieces,
}

impl FinishCall {
    /// The numbers of the coordinates that a record names, if its source is one and has them.
    pub fn numbers(&self, record: &[u32]) -> Option<&[u64]> {
        let from = match record[2] {
            0 => &self.lines.coordinates,
            1 => &self.pieces.merged,
            _ => return None,
        };
        let (stride, first) = (self.lines.stride(), record[3] as usize);
        from.get(stride * first..stride * (first + record[4] as usize))
    }
}

/// The part of a list that a record's first two numbers name, if the list has it.
pub fn part<'a, T>(of: &'a [T], record: &[u32]) -> Option<&'a [T]> {
    let first = record[0] as usize;
    of.get(first..first + record[1] as usize)
}

impl fmt::Display for FinishCall {
    fn fmt(&self, f: &mut fmt::Formatter<'_>) -> fmt::Result {
        let Pieces { records, members, marks, listing, merged, k } = &self.pieces;
        write!(f, "{}", self.lines)?;
        writeln!(f, "{k} pieces, members {members:?}, marks {marks:?}, listing {listing:?}")?;
        for (number, record) in records.chunks(PIECE).enumerate() {
            writeln!(f, "piece {number}: {record:?}")?;
        }
        for (at, numbers) in merged.chunks(self.lines.stride()).enumerate() {
            let word = |&bits: &u64| format!("{bits:016x} ({:?})", f64::from_bits(bits));
            let words: Vec<String> = numbers.iter().map(word).collect();
            writeln!(f, "merged {at}: {}", words.join(" "))?;
        }
        Ok(())
    }
}
