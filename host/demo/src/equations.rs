//! What one plane adds to the normal equations: by the moments of its frames, or point by point.

use crate::height::Height;
use crate::lapack;
use crate::pose::{Pose, Vector};
use maghnelt::{
    Action, BlockMap, Bundle, FrameFactor, Linearized, NormalEquations, Refusal, MAX_POINTS,
};
use std::fmt;

/// How a plane's equations are made.
#[derive(Clone, Copy, Debug, PartialEq, Eq)]
pub enum Way {
    /// Each frame's moments stand for its points.
    Moments,
    /// Each point has a row.
    Points,
}

/// A plane that is asked for its equations.
#[derive(Clone, Debug)]
pub enum Equations {
    /// By the library's factor of the frames' moments.
    Moments(FrameFactor),
    /// By the library's bundle of the points.
    Points(RawPlane),
}

/// Why a plane has no equations.
#[derive(Clone, Copy, Debug, PartialEq, Eq)]
pub enum Trouble {
    /// The library refused it.
    Refused(Refusal),
    /// LAPACK found no eigenvalues.
    NoDecomposition,
    /// It has so many points that they do not go into one bundle.
    TooManyPoints(usize),
}

impl From<Refusal> for Trouble {
    fn from(refusal: Refusal) -> Trouble {
        Trouble::Refused(refusal)
    }
}

impl fmt::Display for Trouble {
    fn fmt(&self, f: &mut fmt::Formatter<'_>) -> fmt::Result {
        match self {
            Trouble::Refused(refusal) => refusal.fmt(f),
            Trouble::NoDecomposition => f.write_str("its scatter has no eigenvalues"),
            Trouble::TooManyPoints(points) => write!(
                f,
                "its {points} points are more than the {MAX_POINTS} that a plane takes point by point; \
                 without --bundle moments stand for them"
            ),
        }
    }
}

impl std::error::Error for Trouble {}

impl Equations {
    /// Adds to the normal equations what the plane adds with its frames at these poses, one for each of its frames, and gives
    /// its cost. Each frame has as many rows as its pose has unknowns.
    ///
    /// # Errors
    ///
    /// If the library refuses the plane or LAPACK finds no eigenvalues.
    ///
    /// # Panics
    ///
    /// If a block does not go into the Hessian, where the library, which adds by moments, refuses.
    pub fn add(
        &self,
        poses: &[Pose],
        height: Height,
        map: &BlockMap,
        normal: &mut NormalEquations,
    ) -> Result<f64, Trouble> {
        match self {
            Equations::Moments(factor) => by_moments(factor, poses, height, map, normal),
            Equations::Points(plane) => match height {
                Height::Free => plane.add(poses, Pose::columns, map, normal),
                // A bundle takes the derivatives as the host has them, and so by the five unknowns: it needs no transform.
                Height::Locked => plane.add(poses, Pose::level_columns, map, normal),
            },
        }
    }

    /// The number of points, of the frames and known.
    #[must_use]
    pub fn points(&self) -> f64 {
        match self {
            Equations::Moments(factor) => factor.points(),
            Equations::Points(plane) => plane.points() as f64,
        }
    }
}

/// The fit's mean and scatter, LAPACK's decomposition of it, and what the library adds.
fn by_moments(
    factor: &FrameFactor,
    poses: &[Pose],
    height: Height,
    map: &BlockMap,
    normal: &mut NormalEquations,
) -> Result<f64, Trouble> {
    let actions: Vec<Action> = poses.iter().map(Pose::action).collect();
    let sums = factor.fit(&actions)?;
    let found = lapack::decomposition(&sums.scatter).ok_or(Trouble::NoDecomposition)?;
    let transforms = height.transforms(poses)?;
    Ok(factor.accumulate_transformed(&actions, &found, map, &transforms, normal)?)
}

/// A plane's points as each frame saw them, and those that are known in the site.
#[derive(Clone, Debug, PartialEq)]
pub struct RawPlane {
    frames: Vec<Vec<Vector>>,
    known: Vec<Vector>,
    sigma: f64,
}

impl RawPlane {
    /// The plane of these points, `sigma` being the standard deviation of a point's distance from it.
    ///
    /// # Errors
    ///
    /// [`Trouble::TooManyPoints`], since a plane is fitted to all its points in one call: planes fitted to parts of them would
    /// be other planes.
    pub fn new(
        frames: Vec<Vec<Vector>>,
        known: Vec<Vector>,
        sigma: f64,
    ) -> Result<RawPlane, Trouble> {
        let plane = RawPlane {
            frames,
            known,
            sigma,
        };
        match plane.points() {
            points if points > MAX_POINTS => Err(Trouble::TooManyPoints(points)),
            _ => Ok(plane),
        }
    }

    fn points(&self) -> usize {
        self.frames.iter().map(Vec::len).sum::<usize>() + self.known.len()
    }

    /// The points as they lie in the site with the frames at these poses, and their derivatives by a step of the pose, which
    /// `columns` gives of a point as the frame saw it.
    #[must_use]
    pub fn carried<const N: usize>(
        &self,
        poses: &[Pose],
        columns: impl Fn(&Pose, &Vector) -> [Vector; N],
    ) -> Bundle<N> {
        let mut bundle = Bundle::new();
        for (pose, frame) in poses.iter().zip(&self.frames) {
            bundle.add_frame(frame.iter().map(|p| (pose.to_site(p), columns(pose, p))));
        }
        bundle.add_fixed(self.known.iter().copied());
        bundle
    }

    /// The points in the site, the fit's scatter, LAPACK's decomposition of it, the library's rows, and what they sum to.
    fn add<const N: usize>(
        &self,
        poses: &[Pose],
        columns: impl Fn(&Pose, &Vector) -> [Vector; N],
        map: &BlockMap,
        normal: &mut NormalEquations,
    ) -> Result<f64, Trouble> {
        let bundle = self.carried(poses, columns);
        let fit = bundle.fit()?;
        let found = lapack::decomposition(&fit.scatter).ok_or(Trouble::NoDecomposition)?;
        let rows = bundle.linearize(self.sigma, &found)?;
        add_products(&bundle, &rows, map, normal);
        Ok(product(rows.residual(), rows.residual()))
    }
}

/// Adds JᵀJ to the Hessian and Jᵀr to the gradient. A row has numbers in the columns of its own frame alone, so that there are
/// only the frames' own blocks, and each needs the frame's own rows alone.
fn add_products<const N: usize>(
    bundle: &Bundle<N>,
    rows: &Linearized,
    map: &BlockMap,
    normal: &mut NormalEquations,
) {
    for (frame, own) in bundle.frame_rows().enumerate() {
        if let Some(offset) = map.offset(frame) {
            let column = |c: usize| &rows.column(frame * N + c)[own.clone()];
            let columns: [&[f64]; N] = std::array::from_fn(column);
            add_block(
                &columns,
                &rows.residual()[own.clone()],
                offset as usize,
                normal,
            );
        }
    }
}

/// Adds what a frame's rows sum to at its offset.
fn add_block<const N: usize>(
    columns: &[&[f64]; N],
    residual: &[f64],
    offset: usize,
    normal: &mut NormalEquations,
) {
    let order = normal.order();
    let (hessian, gradient) = normal.parts_mut();
    for (j, right) in columns.iter().enumerate() {
        gradient[offset + j] += product(right, residual);
        let from = (offset + j) * order + offset;
        for (cell, left) in hessian[from..from + N].iter_mut().zip(columns) {
            *cell += product(left, right);
        }
    }
}

/// The sum of products.
fn product(a: &[f64], b: &[f64]) -> f64 {
    a.iter().zip(b).map(|(x, y)| x * y).sum()
}
