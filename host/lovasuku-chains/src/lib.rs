//! Joins lines into chains by rules that are written down and proved.
//!
//! A building call takes lines and gives chains: each line stands in exactly one of them, and
//! their members, order and coordinates are those of the rules, bit for bit. The work is done by
//! the verified library behind the [`door`]; this crate lends it rooms, gives names to its numbers
//! and adds nothing to what it decides.
//!
//! ```
//! use lovasuku_chains::{LinesBuf, Rooms, Settings};
//!
//! # fn main() -> Result<(), lovasuku_chains::Refusal> {
//! // Three roads, the second drawn toward the first, with a gap between 1.25 and 1.75.
//! let mut roads = LinesBuf::default();
//! roads.push([[0.0, 0.0], [1.25, 0.0]], 0);
//! roads.push([[4.5, 0.0], [3.5, 0.0]], 0);
//! roads.push([[3.5, 0.0], [1.75, 0.0]], 0);
//!
//! let mut rooms = Rooms::default();
//! let settings = Settings::default().with_tolerance(1.0);
//! for chain in rooms.build(roads.lines(), settings)? {
//!     assert_eq!(chain.members(), [0, 1, 2]);
//!     assert_eq!(chain.coordinates(), [0.0, 0.0, 1.25, 0.0, 1.75, 0.0, 3.5, 0.0, 4.5, 0.0]);
//! }
//! # Ok(())
//! # }
//! ```
//!
//! | To | use |
//! |---|---|
//! | join lines | [`Rooms::build`], which gives [`Chains`] |
//! | join for many zooms, with one exact round | [`Rooms::first`], then [`Rooms::finish`] for each tolerance |
//! | follow a chain through its lines, and see which way each was drawn | [`Chain::path`] |
//! | find the chains in a window | [`Chains::window`], [`window_question`] for stored boxes |
//! | check chains made elsewhere | [`Rooms::check`] of [`Delivered`] chains, [`find`] for what is wrong with them |
//! | pair the ends at one node | [`Rooms::pairs`] |
//! | ask why two ends are joined or not | [`Rooms::why`], which gives a [`Reason`] |
//! | state a bend as an offset per metre | [`Offset`], whose limit any call takes |
//! | look up a chain in a stored table | [`chain_question`], [`chain_coordinates`] |
//! | read lines from the records of a store | [`read_wkb`], which gives [`WkbLines`] |
//! | read lines from a batch of Arrow's | [`read_wkb_offsets`], which takes its run and its offsets |
//! | write chains as records for a map | [`Chains::write_wkb`], which gives [`WkbRecords`] |
//! | carry heights and measures along | [`Dimension`], in [`Lines`] and [`LinesBuf::of`] |
//! | keep the chains, as tylertoo does | [`build_chains`] |
//! | join more lines than a call holds, with what joined them and the gaps left | [`large`] |
//! | tell why each two lines of a chain are joined, and why others are not | [`explain`] |
//! | look for ends near one another | [`Nearest`] |
//! | lend rooms of one's own | [`door`] |
//!
//! No function panics, and none asks its caller for unsafe code. Rooms are lent again and again:
//! once they have grown, building and pairing allocate nothing.

#![deny(missing_docs)]
#![deny(unsafe_code)]

mod arrow;
mod chains;
mod checking;
mod declared;
mod dimension;
pub mod door;
pub mod explain;
mod finding;
pub mod large;
mod lines;
mod nearest;
mod offset;
mod owned;
mod pairing;
mod points;
mod question;
mod records;
mod refusal;
mod rooms;
mod settings;
pub mod size;
mod two;
mod window;
mod wkb;
mod zooms;

pub use arrow::{read_wkb_offsets, RunOffset};
pub use chains::{Chain, Chains, Iter, PathLine};
pub use checking::{Delivered, DeliveredBuf};
pub use dimension::Dimension;
pub use finding::{find, Finding, Unacceptable};
pub use lines::{Lines, LinesBuf, PASSING, PLAIN};
pub use nearest::Nearest;
pub use offset::Offset;
pub use owned::{build_chains, LineInput, OwnedChain};
pub use pairing::{Ends, Reason, Route};
pub use points::Points;
pub use question::{chain_coordinates, chain_question};
pub use records::{ByteOrder, WkbBuf, WkbRecords, WkbRecordsIter};
pub use refusal::Refusal;
pub use rooms::Rooms;
pub use settings::{limit_of_bend, Settings};
pub use window::{window_question, InWindow, Window, WindowBuf};
pub use wkb::{read_wkb, WkbLines, WkbRooms};
pub use zooms::{First, FirstBuf, Pieces};
