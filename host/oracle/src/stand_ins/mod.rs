//! Small stand-ins for the types that the original imports.
//!
//! Chain building uses only [`geo`]. The rest is there so that the original compiles whole; its
//! functions belong to the parts that are not ported and are never called.

pub mod assign;
pub mod geo;
pub mod level;
