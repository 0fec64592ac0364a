//! Puts the same calls to the verified library and to the Rust original, and compares everything.
//!
//! `cargo run --release -p compare -- --calls N --seed S` makes N calls of every style, from empty
//! ones to 4,096 lines, 65,536 points and 8,192 ends, and holds the library to the live oracle, or
//! to the model where the original is not at hand. A call whose limit is that of an offset is put to
//! the calls with an offset too. Compared are the answer and every lent room:
//! what is written, what is cleared, and that all else is as before, guards beyond the rooms
//! included. Rooms are dirty before the call. A difference is made small and printed as bits.
//!
//! - [`calls`]: the calls of a run.
//! - [`judge`]: who says what the answer is.
//! - [`room`]: rooms that show what was written into them.
//! - [`building`], [`pairing`], [`why`], [`windows`], [`checks`], [`zooms`]: one call, compared, or building in
//!   two.
//! - [`large`]: one call, put as a delivery of any size.
//! - [`network`]: the lines of a file, put so by many settings and in many ways.
//! - [`extras`]: what holds of heights and measures, judged apart from the model.
//! - [`laying`]: that lines laid by listing and marks are their chain, judged apart from it too.
//! - [`shrink`]: a call that differs, made small.
//! - [`run`]: a whole run, on all cores.

#![deny(missing_docs)]
#![forbid(unsafe_code)]

pub mod building;
pub mod calls;
pub mod checks;
pub mod door;
pub mod extras;
pub mod judge;
pub mod large;
pub mod laying;
pub mod lent;
pub mod network;
pub mod pairing;
pub mod room;
pub mod run;
pub mod shrink;
pub mod why;
pub mod windows;
pub mod zooms;

pub use door::{ByOffset, Door, Library};
pub use judge::Judge;
