//! The groups of comparisons, a file each.
//!
//! A group's `run` compares the library. Its `compare` takes the functions to compare, so that the group's tests can
//! show which wrong functions it finds.

pub mod bundle_fit;
pub mod bundle_linearize;
pub mod cards;
pub mod frames_accumulate;
pub mod frames_accumulate_transformed;
pub mod frames_build;
pub mod frames_build_strict;
pub mod frames_fit;
pub mod frames_linearize;
pub mod lists;
pub mod match_linearize;
pub mod matches_accumulate;
pub mod matches_accumulate_transformed;
pub mod matches_linearize;
pub mod moments;
pub mod moments_plane;
pub mod number;
pub mod order;
pub mod plane_new;
pub mod push_merge;
pub mod remap;
pub mod root_steps;
pub mod scatter;
pub mod sigma;
pub mod sqrt;
pub mod transform;
