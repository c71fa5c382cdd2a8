//! What the comparisons, and the benchmarks beside them, are made of.

#![warn(missing_docs)]

pub mod beside;
pub mod builds;
pub mod bundled;
pub mod called;
pub mod counts;
pub mod draws;
pub mod generator;
pub mod groups;
pub mod lent;
pub mod matched;
pub mod model;
pub mod patterns;
pub mod probe;
pub mod report;
pub mod scenes;
pub mod targets;
