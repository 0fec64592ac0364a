//! The time of the verified library as a part of the Rust original's, workload by workload.
//!
//! - [`workloads`] and [`ends`]: what is built, and what is paired.
//! - [`building`] and [`pairing`]: both sides of a comparison, seen to answer alike and then timed.
//! - [`wkb`]: WKB records read and written, and the same in plain Rust, [`plain_wkb`].
//! - [`checking`]: chains made elsewhere, checked.
//! - [`zooms`]: five tolerances with one round one.
//! - [`large`]: deliveries of many lines, on one core and on two.
//! - [`windows`]: what lies in a window, and the same by a look at all boxes in plain Rust.
//! - [`geos`]: GEOS's LineMerger, WKBReader and WKBWriter as a third side, where it is installed, and
//!   [`geos_tree`], its tree of boxes.
//! - [`clock`] and [`times`]: the best of many calls, with the sides taken in turn.
//! - [`heap`]: memory that the Rust's calls free is kept for the next.
//! - [`table`], [`summary`], [`about`] and [`report`]: what is printed.

pub mod about;
pub mod building;
pub mod checking;
pub mod clock;
pub mod ends;
pub mod geos;
pub mod geos_tree;
pub mod heap;
pub mod large;
pub mod options;
pub mod pairing;
pub mod plain_wkb;
pub mod report;
mod report_checking;
mod report_large;
mod report_windows;
mod report_zooms;
pub mod summary;
pub mod table;
pub mod times;
pub mod windows;
pub mod wkb;
pub mod workloads;
pub mod zooms;
