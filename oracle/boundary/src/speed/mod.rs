//! The proved store against the original Rust: one driver makes the same calls on both, in the same stores, in turn.

pub mod count;
mod sides;
mod stores;
pub mod tables;
mod timing;
