//! A job as a maker of backpack scanners does it: a room scanned on a walk, the poses adjusted until its walls are thin,
//! and what happens to a wall when its sums are saved the wrong way.
//!
//! | module | part of the job |
//! |---|---|
//! | [`job`] | poses and points, from a file |
//! | [`room`] | the same, made of a seed |
//! | [`adjust`] | Gauss-Newton over the planes |
//! | [`equations`] | what a plane adds to a step, by moments or point by point |
//! | [`height`] | steps that keep the height of each pose |
//! | [`saves`] | the story of the wall |
//! | [`picture`] | the plan view |
//! | [`speed`] | ten thousand planes against the clock |
//!
//! All sums, fits and blocks are the proved library's, by the crate `maghnelt`; decompositions and steps are [`lapack`]'s.

#![warn(missing_docs)]

pub mod adjust;
pub mod equations;
pub mod height;
pub mod job;
pub mod lapack;
pub mod options;
pub mod picture;
pub mod pose;
pub mod random;
pub mod room;
pub mod saves;
pub mod speed;
