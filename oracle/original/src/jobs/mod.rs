//! What both are tried on. A job is drawn from a seed of its own, has the original answer some calls, and hands back each
//! with its answer.

mod bundles;
mod counts;
mod draw;
mod frames;
mod maps;
mod matches;
mod moments;
mod one_match;
mod planes;
mod refused;
mod target;
mod transforms;
mod tried;

pub use transforms::{stepped, Step};
pub use tried::few_states;

use crate::case::Case;
use oracle::generator::Generator;

/// A kind of job.
pub struct Job {
    /// Its name.
    pub name: &'static str,
    /// Draws one and has the original answer it.
    pub run: fn(&mut Generator, &mut Vec<Case>),
}

/// All kinds of jobs.
pub static JOBS: &[Job] = &[
    Job {
        name: "moments",
        run: moments::run,
    },
    Job {
        name: "planes",
        run: planes::run,
    },
    Job {
        name: "maps",
        run: maps::run,
    },
    Job {
        name: "frames",
        run: frames::run,
    },
    Job {
        name: "matches",
        run: matches::run,
    },
    Job {
        name: "one_match",
        run: one_match::run,
    },
    Job {
        name: "bundles",
        run: bundles::run,
    },
    Job {
        name: "transforms",
        run: transforms::run,
    },
    Job {
        name: "counts",
        run: counts::run,
    },
];
