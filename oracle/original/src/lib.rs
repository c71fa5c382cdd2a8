//! The original's text over stand-ins for what it imports, and the comparison of the proved library with it.

mod original;
pub use original::{core, error, factors};

pub mod calls;
pub mod case;
pub mod jobs;
pub mod sample;
