//! Chains made elsewhere, as a call lends them.

use crate::call::{BuildCall, Refusal, RECORD};
use std::fmt;

/// The refusal of a record that names no chain, reaches outside the listing or lists what is no line.
pub const BAD_RECORD: Refusal = Refusal(23);

/// The refusal of chains that are not acceptable otherwise.
pub const NOT_ACCEPTABLE: Refusal = Refusal(24);

/// A call that judges chains made elsewhere. Coordinates are bits.
#[derive(Clone, Debug, Default, PartialEq, Eq)]
pub struct CheckCall {
    /// The lines, with the tolerance and the origin by which they may meet. Switch and limit are not
    /// lent.
    pub lines: BuildCall,
    /// Six numbers a chain; the last is not looked at.
    pub table: Vec<u32>,
    /// How many chains there are.
    pub k: u64,
    /// Positions of lines, in each chain in the order of travel.
    pub listing: Vec<u32>,
    /// The coordinates of source 1.
    pub merged: Vec<u64>,
}

impl CheckCall {
    /// The six numbers of record k, if it is wholly in the table.
    pub fn record(&self, k: u64) -> Option<&[u32]> {
        self.table.chunks_exact(RECORD).nth(usize::try_from(k).ok()?)
    }

    /// The lines that a record names, if it stays within the listing and names lines alone.
    pub fn listed(&self, record: &[u32]) -> Option<&[u32]> {
        let first = record[0] as usize;
        let listed = self.listing.get(first..first + record[1] as usize)?;
        listed.iter().all(|&line| (line as usize) < self.lines.lines()).then_some(listed)
    }

    /// The numbers of the coordinates that a record names, if it names a source and stays within it.
    pub fn numbers(&self, record: &[u32]) -> Option<&[u64]> {
        let from = match record[2] {
            0 => &self.lines.coordinates,
            1 => &self.merged,
            _ => return None,
        };
        let (stride, first) = (self.lines.stride(), record[3] as usize);
        from.get(stride * first..stride * (first + record[4] as usize))
    }
}

impl fmt::Display for CheckCall {
    fn fmt(&self, f: &mut fmt::Formatter<'_>) -> fmt::Result {
        write!(f, "{}", self.lines)?;
        writeln!(f, "{} chains, listing {:?}", self.k, self.listing)?;
        for (k, record) in self.table.chunks(RECORD).enumerate() {
            writeln!(f, "record {k}: {record:?}")?;
        }
        for (at, numbers) in self.merged.chunks(self.lines.stride()).enumerate() {
            let word = |&bits: &u64| format!("{bits:016x} ({:?})", f64::from_bits(bits));
            let words: Vec<String> = numbers.iter().map(word).collect();
            writeln!(f, "merged {at}: {}", words.join(" "))?;
        }
        Ok(())
    }
}
