//! Safe Rust functions over Maghnelt: numerical software for lidar plane factors, proved bit for bit.
//!
//! Each function here calls one function of the static library `libmaghnelt.a`, which is proved against
//! its contract in Rattle and declared for C in `include/maghnelt.h`. No function here asks anything of its caller
//! beyond the types of its arguments.
//!
//! | function | answer |
//! |---|---|
//! | [`Moments::from_points`], [`push`](Moments::push), [`merge`](Moments::merge) | count, sum and summed outer products of points |
//! | [`Moments::transformed`] | the moments of the points moved by an affine map |
//! | [`Moments::mean_and_scatter`], [`Moments::plane`] | mean and scatter of the points, and the plane that fits them |
//! | [`card_write`], [`card_read`] | lists of moments in the order of a card, where counts come first, and back |
//! | [`Plane::new`] | a plane with a unit normal |
//! | [`point_to_plane_sigma`] | the standard deviation of a point's distance from a plane |
//! | [`BlockMap`], [`BlockMap::remapped`] | where the frames of a factor go in the Hessian |
//! | [`Transforms`], [`Transforms::transformed`] | how a frame's parameters follow from fewer, as where a height is locked |
//! | [`FrameFactor`] | one plane over several frames, built once and then evaluated at many states |
//! | [`FrameFactor::build_strict`] | the same, but a fixed set of a negative count is refused, as the survey rule asks |
//! | [`frames_fit`] | the mean and the scatter that a plane is fitted to over several frames |
//! | [`Bundle`] | one plane over several frames, point by point: centroid and scatter, a residual for each point |
//! | [`MatchList`] | matches of points with planes on one pose: cost, normal equations, residuals |
//! | [`FrameFactor::accumulate_transformed`], [`MatchList::accumulate_transformed`] | normal equations with transforms beside the map |
//! | [`NormalEquations`] | the Hessian and the gradient that factors add to |
//! | [`PlaneMatch::linearize`] | the residual of one match below its chain, and its derivatives |
//! | [`sqrt`] | the correctly rounded square root, IEEE 754's squareRoot |
//! | [`total_order_key`] | an integer that orders bit patterns as IEEE 754's totalOrder |
//!
//! The same calls on slices, as C makes them, are in [`slices`].
//!
//! # Matrices
//!
//! A matrix is an array of its columns: the entry of row r and column c of `m` is `m[c][r]`. nalgebra's matrices turn into
//! such arrays, and back, by `into()`.
//!
//! # Refusals
//!
//! A call that can't be answered is refused by a numbered reason, a [`Refusal`], and has then written nothing. Where there
//! is simply no answer, as for the mean of no points, it is `None`.
//!
//! # Linking
//!
//! The build script takes the library from the folder that the environment variable `MAGHNELT_LIB_DIR` names (an
//! absolute path) or, without it, from `target/staticlib` of the repository, where `scripts/library maghnelt` puts
//! it.
//!
//! # NaN
//!
//! A NaN that is returned may have any sign and payload, but [`card_write`] and [`card_read`] keep the bits of
//! every number. Elsewhere a NaN's own sign and payload matter only where a function takes bit patterns (`u64`), and for the
//! eigenvalues of a [`Decomposition`].

#![warn(missing_docs)]

mod block_map;
mod bundle;
mod cards;
mod ffi;
mod frame_factor;
mod frames;
mod linearized;
mod matches;
mod moments;
mod normal_equations;
mod plane;
mod refusal;
mod sizes;
pub mod slices;
mod square_root;
mod total_order;
mod transforms;

pub use block_map::{BlockMap, UNMAPPED};
pub use bundle::{Bundle, BundleFit};
pub use cards::{card_read, card_write};
pub use frame_factor::FrameFactor;
pub use frames::{frames_fit, Action, Centred, FitSums};
pub use linearized::Linearized;
pub use matches::{MatchList, MatchRow, PlaneMatch};
pub use moments::{Decomposition, FittedPlane, MeanAndScatter, Moments};
pub use normal_equations::NormalEquations;
pub use plane::{point_to_plane_sigma, Plane};
pub use refusal::Refusal;
pub use sizes::{
    ACTION, CENTRED, DECOMPOSITION, GROUP, MATCH, MAX_COUNT, MAX_DOF, MAX_FRAMES, MAX_MATCHES,
    MAX_ORDER, MAX_POINTS, MAX_RECORDS, MAX_WORDS, MOMENTS, PLANE, TRANSFORM,
};
pub use square_root::sqrt;
pub use total_order::total_order_key;
pub use transforms::{Transform, Transforms, NO_TRANSFORM};
