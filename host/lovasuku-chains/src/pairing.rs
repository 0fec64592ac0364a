//! The ends of a pairing call, the routes to the selected pairs, and why two ends are joined or not.

use crate::size::{MOST_ENDS, POINT};
use crate::Refusal;
use std::fmt;

/// The ends that meet at one node, as three slices of the caller's.
#[derive(Clone, Copy, Debug, Default, PartialEq)]
pub struct Ends<'a> {
    /// Per end 1 where it has a direction, else 0.
    pub present: &'a [u8],
    /// x, y of each end's direction, into its piece. Not looked at where the end has none.
    pub directions: &'a [f64],
    /// The piece of each end. No number may stand more than twice.
    pub pieces: &'a [u32],
}

impl Ends<'_> {
    /// The number of ends.
    pub fn len(&self) -> usize {
        self.pieces.len()
    }

    /// True where there is no end.
    pub fn is_empty(&self) -> bool {
        self.pieces.is_empty()
    }

    /// Refusals 1 and 2, which speak of the tables' lengths alone.
    pub(crate) fn test_lengths(&self) -> Result<(), Refusal> {
        let d = self.len();
        if d > MOST_ENDS {
            Err(Refusal::TooMany)
        } else if self.present.len() != d || self.directions.len() != POINT * d {
            Err(Refusal::TablesDiffer)
        } else {
            Ok(())
        }
    }
}

/// The three ways to the selected pairs. Where more than one accepts a call they give the same.
#[derive(Clone, Copy, Debug, PartialEq, Eq, Hash)]
pub enum Route {
    /// Over all pairs of ends.
    Plain,
    /// By an index over the directions, fast for many ends. Refused where a present direction is
    /// not finite.
    Indexed,
    /// The plain route below 32 ends or where a direction is not finite, else the indexed one.
    Chosen,
}

/// Why two ends are joined or not: the first of these that applies.
#[derive(Clone, Copy, Debug, PartialEq, Eq, Hash)]
pub enum Reason {
    /// Their pair is selected.
    Selected,
    /// They are the two ends of one piece.
    SamePiece,
    /// One of them has no direction.
    AbsentDirection,
    /// Their measure is above the limit, or it is NaN.
    NotQualifying,
    /// A selected pair that comes before theirs has one of them.
    Blocked {
        /// Its place in the order of selection, from 0. No earlier pair has one of the two ends.
        place: usize,
        /// Its ends, the lower one first.
        pair: [u32; 2],
    },
}

impl Reason {
    /// The reason of a number of the rules, where the selected pairs are these. `None` for a number
    /// that says none.
    pub(crate) fn of_number(number: u64, pairs: &[[u32; 2]]) -> Option<Self> {
        match number {
            0 => Some(Reason::Selected),
            1 => Some(Reason::SamePiece),
            2 => Some(Reason::AbsentDirection),
            3 => Some(Reason::NotQualifying),
            blocked => {
                let place = usize::try_from(blocked - 4).ok()?;
                pairs.get(place).map(|&pair| Reason::Blocked { place, pair })
            }
        }
    }

    /// Its number in the rules.
    pub fn number(self) -> u64 {
        match self {
            Reason::Selected => 0,
            Reason::SamePiece => 1,
            Reason::AbsentDirection => 2,
            Reason::NotQualifying => 3,
            Reason::Blocked { place, .. } => 4 + place as u64,
        }
    }
}

impl fmt::Display for Reason {
    fn fmt(&self, f: &mut fmt::Formatter<'_>) -> fmt::Result {
        match self {
            Reason::Selected => write!(f, "the two ends are joined"),
            Reason::SamePiece => write!(f, "the two ends are of one piece"),
            Reason::AbsentDirection => write!(f, "an end has no direction"),
            Reason::NotQualifying => write!(f, "the bend is sharper than the limit"),
            Reason::Blocked { pair: [i, j], .. } => {
                write!(f, "ends {i} and {j}, which come first, are joined")
            }
        }
    }
}
