//! The proved float leaves against the processor's own operations.
//!
//! The proofs say what root, floor and cell are; this says that the processor's sqrt, floor and
//! cast are the same functions, pattern by pattern, and how long a call of either takes.

pub mod compare;
pub mod leaves;
pub mod patterns;
pub mod speed;
