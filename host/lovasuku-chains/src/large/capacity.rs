//! How much a call is given.

use crate::size::{MOST_DISTRICT_LINES, MOST_DISTRICT_POINTS};

/// How much one call may be given. The chains are the same for any.
#[derive(Clone, Copy, Debug, PartialEq, Eq)]
pub struct Capacity {
    /// The most lines.
    pub lines: usize,
    /// The most coordinates.
    pub points: usize,
}

impl Default for Capacity {
    /// What the library takes of a district.
    fn default() -> Self {
        Capacity { lines: MOST_DISTRICT_LINES, points: MOST_DISTRICT_POINTS }
    }
}
