//! The proved store through its C interface: the hostile caller that compares it with the reference, and its speed beside the
//! original's.

pub mod ask;
pub mod c;
pub mod hostile;
pub mod speed;

pub use c::CALLS;
