//! Calls of the chain builder, their recorded answers, and a plain model of the rules.
//!
//! - [`call`]: what a call lends and what it answers, all floats as their 64 bits, and the
//!   trait [`Port`] that everything which answers calls implements.
//! - [`delivered`]: chains made elsewhere, as a call lends them.
//! - [`format`]: the recorded files, reading and writing.
//! - [`model`]: the rules, written down in plain Rust.
//! - [`offset`]: the limit of an offset, in whole numbers.
//! - [`check`]: what holds of every recorded answer by its form alone.
//! - [`pieces`]: pieces of lines, as a first call leaves them and a second takes them.
//! - [`replay`]: every recorded call, put to a [`Port`].
//! - [`wkb`]: lines as WKB records, read as the standard says.
//! - [`random`] and [`styles`]: inputs, the same for the same seed on every machine.
//!
//! Nothing here needs the Rust original.

pub mod call;
pub mod check;
pub mod delivered;
pub mod format;
pub mod model;
pub mod offset;
pub mod pieces;
pub mod random;
pub mod replay;
mod shown;
pub mod styles;
pub mod wkb;

pub use call::{stride_of, Record, RECORD, TYPES};
pub use call::{BuildCall, Built, Pair, PairingCall, Port, Refusal, Route, WhyCall, WindowCall};
pub use call::{BAD_ORIGIN, DISTRICT_OVER_COORDINATES, DISTRICT_OVER_LINES, NO_PLACE, NO_TYPE};
pub use call::{BORDER, MOST_DISTRICT_LINES, MOST_DISTRICT_POINTS};
pub use delivered::{CheckCall, BAD_RECORD, NOT_ACCEPTABLE};
pub use pieces::{FinishCall, Pieces, BAD_PIECES, PIECE};
