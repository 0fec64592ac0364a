//! Where chains made elsewhere are not acceptable: the first chain and line, and why.
//!
//! The library answers for the verdict. What is told here is worked out beside it, by a search of its own
//! that goes through each chain's lines in the order of travel and keeps every direction of the last one
//! and every place in the coordinates that a choice of directions can have come to.

mod search;

use crate::{Delivered, Lines, Settings};
use search::Search;
use std::fmt;

/// Where chains are not acceptable, and why.
#[derive(Clone, Copy, Debug, PartialEq, Eq)]
pub struct Finding {
    /// The position of the chain, but for a line that stands in none.
    pub chain: Option<usize>,
    /// The position of the line, but for a chain that is at fault as a whole.
    pub line: Option<u32>,
    /// Why it is not acceptable.
    pub why: Unacceptable,
}

/// Why a chain, or a line of it, is not acceptable.
#[derive(Clone, Copy, Debug, PartialEq, Eq)]
pub enum Unacceptable {
    /// The record names no chain, reaches outside the listing, or lists a position that is none of a
    /// line's: refusal 23. All others are 24.
    Record,
    /// The line stands in this chain already, the same or an earlier one.
    Again {
        /// The position of that chain.
        chain: usize,
    },
    /// The line stands in no chain.
    Missing,
    /// The chain has no line, and coordinates.
    NoLine,
    /// The line stands alone, and its coordinates are not the chain's, bit for bit.
    Touched {
        /// The first coordinate that differs, or that one of the two lacks.
        at: usize,
    },
    /// The line passes through, and does not stand alone.
    Passing,
    /// The line is of another group than the chain's first.
    Group {
        /// The chain's first line.
        first: u32,
    },
    /// The line does not meet the one that is listed before it, whichever ways the lines up to here are
    /// travelled that are the chain's coordinates so far.
    Apart {
        /// The line that is listed before it.
        before: u32,
    },
    /// The line is not the chain's coordinates, whichever way it is travelled.
    Differs {
        /// The first coordinate of the chain that no choice of directions comes to.
        at: usize,
    },
    /// The chain has more coordinates than its lines, laid end to end without repeats.
    Longer {
        /// The first coordinate of the chain that is too many.
        at: usize,
    },
}

impl fmt::Display for Finding {
    fn fmt(&self, f: &mut fmt::Formatter<'_>) -> fmt::Result {
        match (self.chain, self.line) {
            (Some(chain), Some(line)) => write!(f, "chain {chain}, line {line}: {}", self.why),
            (Some(chain), None) => write!(f, "chain {chain}: {}", self.why),
            (None, Some(line)) => write!(f, "line {line}: {}", self.why),
            (None, None) => self.why.fmt(f),
        }
    }
}

impl fmt::Display for Unacceptable {
    fn fmt(&self, f: &mut fmt::Formatter<'_>) -> fmt::Result {
        match self {
            Unacceptable::Record => {
                f.write_str("its record names no chain, or lists what is no line")
            }
            Unacceptable::Again { chain } => write!(f, "it stands in chain {chain} already"),
            Unacceptable::Missing => f.write_str("it stands in no chain"),
            Unacceptable::NoLine => f.write_str("it has coordinates and no line"),
            Unacceptable::Touched { at } => {
                write!(f, "it stands alone, and coordinate {at} is not its own, bit for bit")
            }
            Unacceptable::Passing => f.write_str("it passes through, and does not stand alone"),
            Unacceptable::Group { first } => write!(f, "it is of another group than line {first}"),
            Unacceptable::Apart { before } => {
                write!(f, "it does not meet line {before}, which is listed before it")
            }
            Unacceptable::Differs { at } => {
                write!(f, "coordinate {at} of the chain is not its, whichever way it is travelled")
            }
            Unacceptable::Longer { at } => {
                write!(f, "from coordinate {at} on the chain is longer than its lines end to end")
            }
        }
    }
}

/// Finds the first chain, and in it the first line, that is not acceptable; and where there is none, the
/// first line that stands in no chain. Nothing is found exactly where [`Rooms::check`](crate::Rooms::check)
/// answers with neither [`BadRecord`](crate::Refusal::BadRecord) nor
/// [`NotAcceptable`](crate::Refusal::NotAcceptable). Lines and chains may be more than a call holds.
pub fn find(lines: Lines<'_>, chains: Delivered<'_>, settings: Settings) -> Option<Finding> {
    let mut search = Search::of(lines, chains, settings);
    let found = (0..chains.len()).find_map(|chain| {
        let (line, why) = search.chain(chain)?;
        Some(Finding { chain: Some(chain), line, why })
    });
    let missing = || {
        let line = Some(search.missing()?);
        Some(Finding { chain: None, line, why: Unacceptable::Missing })
    };
    found.or_else(missing)
}
