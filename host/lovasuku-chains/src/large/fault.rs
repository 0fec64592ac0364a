//! Why lines were not joined.

use super::Point;
use crate::size::MOST_ENDS;
use crate::Refusal;
use std::error::Error;
use std::fmt;

/// Why lines were not joined.
#[derive(Clone, Copy, Debug, PartialEq)]
pub enum Fault {
    /// What the library refuses of a call is refused of all lines together.
    Refused(Refusal),
    /// More ends meet than a pairing call holds.
    Crowded {
        /// How many.
        ends: usize,
        /// The point of one of them.
        place: Point,
        /// Their group.
        group: u32,
    },
    /// A chain came out of a call otherwise than it was outlined.
    Differs {
        /// One of its lines.
        line: u32,
    },
    /// There are more lines or coordinates than can be numbered.
    TooMany,
}

impl fmt::Display for Fault {
    fn fmt(&self, f: &mut fmt::Formatter<'_>) -> fmt::Result {
        match self {
            Fault::Refused(refusal) => refusal.fmt(f),
            Fault::Crowded { ends, place: [x, y], .. } => {
                write!(f, "{ends} ends meet at {x} {y}, and no more than {MOST_ENDS} can be paired")
            }
            Fault::Differs { line } => {
                write!(f, "the chain of line {line} came out otherwise than it was outlined")
            }
            Fault::TooMany => write!(f, "there are 2^30 lines or 2^32 coordinates, or more"),
        }
    }
}

impl Error for Fault {}

impl From<Refusal> for Fault {
    fn from(refusal: Refusal) -> Self {
        Fault::Refused(refusal)
    }
}
