//! The command `lovasuku`: joins the lines of a delivery, draws the chains, and shows what was
//! bridged. The joining itself is done by the verified library, by way of `lovasuku-chains`.

pub mod arguments;
pub mod checking;
mod classes;
pub mod command;
pub mod delivery;
pub mod districts;
pub mod joining;
mod lending;
pub mod manual;
mod map;
mod measure;
mod numbers;
mod outcome;
mod page;
pub mod progress;
mod source;
mod store;
mod storing;
mod summary;
mod tally;
pub mod why;
mod writing;
