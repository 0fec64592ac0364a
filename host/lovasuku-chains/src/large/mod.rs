//! Joining beyond one call: lines in, chains out, of any number.
//!
//! What a node joins depends on the ends at that node alone, so that a delivery need not be cut where
//! lines do not hang together. First all ends are grouped by their keys, and joined: two ends of two
//! lines, and of three or more those that the library's pairing selects. Joined ends make the
//! outlines of the chains. Then each chain of several lines is built by the library, from its own lines
//! in ascending order, many chains by one call; a chain that does not come out as it was outlined is a
//! fault, not an answer. With a tolerance a second round does the same with the pieces that the first
//! left. The chains are those of one call, if one could hold all lines: their order, members, marks,
//! listing, coordinates and boxes.
//!
//! A line that nothing is joined with is a chain by itself, untouched, whatever its size. A chain of
//! more lines or coordinates than a call holds is laid here, without one, and [`Joined::laid`] tells
//! which.
//!
//! ```
//! use lovasuku_chains::large::Rooms;
//! use lovasuku_chains::{LinesBuf, Settings};
//!
//! # fn main() -> Result<(), lovasuku_chains::large::Fault> {
//! // A coast of 5,000 lines, more than any call holds.
//! let mut coast = LinesBuf::default();
//! for k in 0..5_000 {
//!     let at = |k: i32| [f64::from(k), f64::from(k % 7)];
//!     coast.push([at(k), at(k + 1)], 0);
//! }
//! let mut rooms = Rooms::default();
//! let joined = rooms.build(coast.lines(), Settings::default())?;
//! assert_eq!(joined.chains().len(), 1);
//! assert_eq!(joined.laid(), [0]);
//! # Ok(())
//! # }
//! ```
//!
//! [`join`] takes lines that stand anywhere, and keeps the chains with what each was joined by;
//! [`join_zooms`] does so for several tolerances, with one round one for all. [`join_lines`] takes lines that
//! lie one behind another, without a copy of them, and lays the coordinates of chains when they are asked
//! for; [`gaps`] tells what stayed open. [`check`] checks
//! chains made elsewhere, of any number and size; a host that works on several cores cuts them by
//! [`check_batches`], and gives each core a [`Checker`].

mod arranging;
mod assembling;
mod batching;
mod boxing;
mod calling;
mod capacity;
mod checks;
mod cores;
mod fault;
mod first_round;
mod fitting;
mod gaps;
mod gathering;
mod joined;
mod joints;
mod judging;
mod junctions;
mod keys;
mod laying;
mod making;
mod nodes;
mod outlined;
mod outlines;
mod pieces;
mod rooms;
mod rounds;
mod second_round;
mod sorting;
mod spots;
mod told;
mod touching;

pub use capacity::Capacity;
pub use checks::{check, check_batches, CheckBatch, CheckBatches, Checker};
pub use cores::Cores;
pub use fault::Fault;
pub use gaps::{gaps, Gap, Why};
pub use joined::Joined;
pub use joints::{blocking, distance, Joint, JointKind};
pub(crate) use keys::{exact_key, key, Key};
pub use outlined::Outlined;
pub use rooms::{Rooms, Way};
pub use told::{join, join_lines, join_zooms, Chain, Told};

/// A point: x and y.
pub type Point = [f64; 2];

/// Stands for no number.
const NONE: u32 = u32::MAX;

/// A line to be joined, or one that passes through.
#[derive(Clone, Copy, Debug, Default)]
pub struct Line<'a> {
    /// The points of a line that may be joined. Other geometry has none here.
    pub points: Option<&'a [Point]>,
    /// The extras of its points, as many for each as the dimension has; those that are not there are
    /// NaN.
    pub extras: &'a [f64],
    /// The number of its class. Lines of different classes are never joined. Classes below
    /// [`BORDER`](crate::size::BORDER) are the first district's and the others the second's.
    pub group: u32,
}

impl<'a> Line<'a> {
    /// The first and the last point of a line that may be joined. A line of fewer than two points
    /// passes through.
    pub(crate) fn ends(&self) -> Option<[Point; 2]> {
        match *self.points? {
            [first, .., last] => Some([first, last]),
            _ => None,
        }
    }

    /// True for a line whose points are one point.
    fn has_no_length(&self) -> bool {
        let points = self.points.unwrap_or_default();
        points.windows(2).all(|two| two[0] == two[1])
    }
}

/// The line at a position. Beyond the last there is one that passes through.
fn at<'l>(lines: &[Line<'l>], position: u32) -> Line<'l> {
    lines.get(position as usize).copied().unwrap_or_default()
}
