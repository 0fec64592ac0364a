//! Deliveries of any size have the chains of one call of the Rust, in every number and every bit.

mod made_up;
mod regions;
