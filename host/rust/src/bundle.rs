//! One plane over several frames, point by point.

use crate::{slices, Decomposition, Linearized, Refusal, MAX_DOF, MAX_FRAMES, MAX_POINTS};
use std::ops::Range;

/// One plane over several frames, point by point: the points of each frame as they lie in the site, each with its derivatives
/// by the `DOF` parameters of the frame's state, and points that are fixed there. Each point has a row: first those of the
/// frames, in the order in which they were added, and then the fixed ones.
///
/// A bundle is of one state of the frames. When they have moved, [clear](Bundle::clear) it and add the points as they lie then;
/// where moments may stand for the points, a [`FrameFactor`](crate::FrameFactor) is built once for all states.
///
/// # Examples
///
/// ```
/// use maghnelt::{Bundle, Decomposition};
///
/// # fn main() -> Result<(), maghnelt::Refusal> {
/// // Two frames that may only be lifted see the floor, the first a metre too high and the second a metre too low.
/// let up = [[0.0, 0.0, 1.0]];
/// let mut floor = Bundle::<1>::new();
/// floor.add_frame([[2.0, 0.0, 1.0], [-2.0, 0.0, 1.0]].map(|point| (point, up)));
/// floor.add_frame([[0.0, 2.0, -1.0], [0.0, -2.0, -1.0]].map(|point| (point, up)));
/// floor.add_fixed([[0.0, 0.0, 0.0]]);
///
/// let fit = floor.fit()?;
/// assert_eq!(fit.centroid, [0.0, 0.0, 0.0]);
/// assert_eq!(fit.scatter, [[1.6, 0.0, 0.0], [0.0, 1.6, 0.0], [0.0, 0.0, 0.8]]);
///
/// // The decomposition of the scatter is the host's, from nalgebra's `SymmetricEigen`, say.
/// let upright = [[1.0, 0.0, 0.0], [0.0, 1.0, 0.0], [0.0, 0.0, 1.0]];
/// let decomposition = Decomposition { eigenvalues: [1.6, 1.6, 0.8], vectors: upright };
///
/// let rows = floor.linearize(0.5, &decomposition)?;
/// assert_eq!(rows.residual(), [2.0, 2.0, -2.0, -2.0, 0.0]);
/// assert_eq!(rows.column(0), [2.0, 2.0, 0.0, 0.0, 0.0]);
/// assert_eq!(rows.column(1), [0.0, 0.0, 2.0, 2.0, 0.0]);
/// # Ok(())
/// # }
/// ```
#[derive(Clone, Debug, Default, PartialEq)]
pub struct Bundle<const DOF: usize> {
    counts: Vec<u32>,
    points: Vec<[f64; 3]>,
    d_state: Vec<[[f64; 3]; DOF]>,
    fixed: Vec<[f64; 3]>,
}

/// What [`Bundle::fit`] gives.
#[derive(Clone, Copy, Debug, PartialEq)]
pub struct BundleFit {
    /// The mean of all points, the fixed ones too.
    pub centroid: [f64; 3],
    /// `Σ (p − centroid)·(p − centroid)ᵀ` over the number of points, three columns; it is symmetric to the bit.
    pub scatter: [[f64; 3]; 3],
}

impl<const DOF: usize> Bundle<DOF> {
    /// A bundle without a frame.
    #[must_use]
    pub fn new() -> Bundle<DOF> {
        Bundle::default()
    }

    /// Adds a frame: each of its points as it lies in the site, and the point's derivatives by the parameters of the frame's
    /// state, three numbers each. Nothing is tested here: every call tests the whole bundle.
    ///
    /// # Examples
    ///
    /// ```
    /// use maghnelt::Bundle;
    ///
    /// // A frame that is shifted in its own axes, which are the site's: the derivatives are the axes.
    /// let axes = [[1.0, 0.0, 0.0], [0.0, 1.0, 0.0], [0.0, 0.0, 1.0]];
    /// let seen = [[1.0, 0.0, 0.0], [0.0, 1.0, 0.0]];
    /// let shift = [0.0, 0.0, 5.0];
    /// let in_site = |p: &[f64; 3]| std::array::from_fn(|r| p[r] + shift[r]);
    ///
    /// let mut bundle = Bundle::<3>::new();
    /// bundle.add_frame(seen.iter().map(|p| (in_site(p), axes)));
    /// assert_eq!(bundle.points(), [[1.0, 0.0, 5.0], [0.0, 1.0, 5.0]]);
    /// assert_eq!(bundle.counts(), [2]);
    /// ```
    pub fn add_frame(&mut self, points: impl IntoIterator<Item = ([f64; 3], [[f64; 3]; DOF])>) {
        let before = self.points.len();
        for (point, columns) in points {
            self.points.push(point);
            self.d_state.push(columns);
        }
        // A frame of more points than a count can say is refused all the same: they are not as many as the counts say.
        let count = u32::try_from(self.points.len() - before).unwrap_or(u32::MAX);
        self.counts.push(count);
    }

    /// Adds points that are known in the site: the plane is fitted to them too, and no state moves them.
    ///
    /// # Examples
    ///
    /// ```
    /// use maghnelt::Bundle;
    ///
    /// let mut bundle = Bundle::<6>::new();
    /// bundle.add_fixed([[0.0, 0.0, 0.0], [1.0, 0.0, 0.0]]);
    /// bundle.add_fixed([[0.0, 1.0, 0.0]]);
    /// assert_eq!(bundle.fixed()[2], [0.0, 1.0, 0.0]);
    /// assert_eq!(bundle.rows(), 3);
    /// ```
    pub fn add_fixed(&mut self, points: impl IntoIterator<Item = [f64; 3]>) {
        self.fixed.extend(points);
    }

    /// Takes all frames and points out again and keeps their memory for others.
    ///
    /// # Examples
    ///
    /// ```
    /// use maghnelt::Bundle;
    ///
    /// let mut bundle = Bundle::<0>::new();
    /// bundle.add_frame([([1.0, 2.0, 3.0], [])]);
    /// bundle.clear();
    /// assert_eq!(bundle, Bundle::new());
    /// ```
    pub fn clear(&mut self) {
        self.counts.clear();
        self.points.clear();
        self.d_state.clear();
        self.fixed.clear();
    }

    /// The centroid of all points and their scatter about it, for the decomposition that the host makes of the scatter.
    ///
    /// # Errors
    ///
    /// [`Refusal::EmptyList`] without a frame; [`Refusal::Length`] with more than [`MAX_FRAMES`] frames, or more than
    /// [`MAX_POINTS`] points with the fixed ones; [`Refusal::FrameCount`] if a frame has no points; [`Refusal::TotalCount`] if
    /// there are fewer than three points with the fixed ones; [`Refusal::NotFinite`] if a coordinate is not finite.
    ///
    /// # Examples
    ///
    /// ```
    /// use maghnelt::{Bundle, Refusal};
    ///
    /// # fn main() -> Result<(), Refusal> {
    /// let mut bundle = Bundle::<0>::new();
    /// let corners = [[0.0, 0.0, 0.0], [2.0, 0.0, 0.0], [0.0, 2.0, 0.0], [2.0, 2.0, 0.0]];
    /// bundle.add_frame(corners.map(|corner| (corner, [])));
    /// bundle.add_fixed([[1.0, 1.0, 5.0]]);
    /// let fit = bundle.fit()?;
    /// assert_eq!(fit.centroid, [1.0, 1.0, 1.0]);
    /// assert_eq!(fit.scatter, [[0.8, 0.0, 0.0], [0.0, 0.8, 0.0], [0.0, 0.0, 4.0]]);
    ///
    /// assert_eq!(Bundle::<0>::new().fit(), Err(Refusal::EmptyList));
    /// # Ok(())
    /// # }
    /// ```
    pub fn fit(&self) -> Result<BundleFit, Refusal> {
        let mut out = [[0.0; 3]; 4];
        slices::bundle_fit(
            &self.counts,
            self.points.as_flattened(),
            self.fixed.as_flattened(),
            out.as_flattened_mut(),
        )?;
        let [centroid, scatter @ ..] = out;
        Ok(BundleFit { centroid, scatter })
    }

    /// The residual of each point, its distance from the fitted plane over `sigma`, and the Jacobian, of `DOF` columns for each
    /// frame. A row has numbers in the columns of its own frame; all its others, and the rows of fixed points, are zeros.
    /// `decomposition` is that of the scatter that [`fit`](Bundle::fit) gave of these points, and `sigma` the standard deviation
    /// of a point's distance.
    ///
    /// There is no plane where the second eigenvalue lies less than 1e-12 above the first; a NaN gap is not turned down. Without
    /// a plane all are zeros.
    ///
    /// # Errors
    ///
    /// [`Refusal::Dof`] for a `DOF` above 9; then as [`fit`](Bundle::fit); [`Refusal::Sigma`] if `sigma` is not finite and
    /// positive.
    ///
    /// # Examples
    ///
    /// Normal equations are the host's to make, `JᵀJ` and `Jᵀr`. As no row has two frames' columns, each frame has a block of
    /// its own, of its own rows:
    ///
    /// ```
    /// use maghnelt::{Bundle, Decomposition};
    ///
    /// # fn main() -> Result<(), maghnelt::Refusal> {
    /// let up = [[0.0, 0.0, 1.0]];
    /// let mut floor = Bundle::<1>::new();
    /// floor.add_frame([[2.0, 0.0, 1.0], [-2.0, 0.0, 1.0]].map(|point| (point, up)));
    /// floor.add_frame([[0.0, 2.0, -1.0], [0.0, -2.0, -1.0]].map(|point| (point, up)));
    /// let upright = [[1.0, 0.0, 0.0], [0.0, 1.0, 0.0], [0.0, 0.0, 1.0]];
    /// let decomposition = Decomposition { eigenvalues: [2.0, 2.0, 1.0], vectors: upright };
    ///
    /// let rows = floor.linearize(1.0, &decomposition)?;
    /// for (frame, own) in floor.frame_rows().enumerate() {
    ///     let lift = &rows.column(frame)[own.clone()];
    ///     let products = lift.iter().zip(&rows.residual()[own]).map(|(j, r)| j * r);
    ///     let (block, vector): (f64, f64) = (lift.iter().map(|j| j * j).sum(), products.sum());
    ///     // Two points, each a metre off: the frame is to be moved by a metre.
    ///     assert_eq!(-vector / block, [-1.0, 1.0][frame]);
    /// }
    /// # Ok(())
    /// # }
    /// ```
    pub fn linearize(
        &self,
        sigma: f64,
        decomposition: &Decomposition,
    ) -> Result<Linearized, Refusal> {
        let mut out = Linearized::zeros(self.rows_to_write(), self.counts.len() * DOF);
        let (residual, jacobian) = out.parts_mut();
        self.write(sigma, decomposition, residual, jacobian)?;
        Ok(out)
    }

    /// The residuals alone, as [`linearize`](Bundle::linearize) has them.
    ///
    /// # Errors
    ///
    /// As [`linearize`](Bundle::linearize).
    ///
    /// # Examples
    ///
    /// ```
    /// use maghnelt::{Bundle, Decomposition, Refusal};
    ///
    /// # fn main() -> Result<(), Refusal> {
    /// // No derivatives are needed.
    /// let mut wall = Bundle::<0>::new();
    /// wall.add_frame([[7.0, 0.0, 0.0], [9.0, 0.0, 0.0], [8.0, 3.0, 0.0]].map(|p| (p, [])));
    /// wall.add_fixed([[8.0, -3.0, 0.0]]);
    /// let upright = [[1.0, 0.0, 0.0], [0.0, 1.0, 0.0], [0.0, 0.0, 1.0]];
    /// let across = Decomposition { eigenvalues: [0.5, 4.5, 9.0], vectors: upright };
    /// assert_eq!(wall.residual(0.5, &across)?, [-2.0, 2.0, 0.0, 0.0]);
    /// assert_eq!(wall.residual(0.0, &across), Err(Refusal::Sigma));
    /// # Ok(())
    /// # }
    /// ```
    pub fn residual(&self, sigma: f64, decomposition: &Decomposition) -> Result<Vec<f64>, Refusal> {
        let mut residual = vec![0.0; self.rows_to_write()];
        self.write(sigma, decomposition, &mut residual, &mut [])?;
        Ok(residual)
    }

    fn write(
        &self,
        sigma: f64,
        decomposition: &Decomposition,
        residual: &mut [f64],
        jacobian: &mut [f64],
    ) -> Result<(), Refusal> {
        slices::bundle_linearize(
            u32::try_from(DOF).unwrap_or(u32::MAX),
            &self.counts,
            self.points.as_flattened(),
            self.d_state.as_flattened().as_flattened(),
            self.fixed.as_flattened(),
            sigma,
            &decomposition.record(),
            residual,
            jacobian,
        )
    }

    /// The rows; none where a limit is passed, since that is refused whatever is lent and might ask for more memory than there is.
    fn rows_to_write(&self) -> usize {
        let refused = DOF > MAX_DOF || self.counts.len() > MAX_FRAMES || self.rows() > MAX_POINTS;
        if refused {
            0
        } else {
            self.rows()
        }
    }

    /// The number of points of each frame.
    #[must_use]
    pub fn counts(&self) -> &[u32] {
        &self.counts
    }

    /// The points of the frames in the site, frame after frame.
    #[must_use]
    pub fn points(&self) -> &[[f64; 3]] {
        &self.points
    }

    /// The fixed points.
    #[must_use]
    pub fn fixed(&self) -> &[[f64; 3]] {
        &self.fixed
    }

    /// The number of rows: one for each point, of the frames and fixed.
    #[must_use]
    pub fn rows(&self) -> usize {
        self.points.len() + self.fixed.len()
    }

    /// The rows of each frame, one frame after the other. Those of the fixed points come after them.
    ///
    /// # Examples
    ///
    /// ```
    /// use maghnelt::Bundle;
    ///
    /// let mut bundle = Bundle::<0>::new();
    /// for points in [2, 3] {
    ///     bundle.add_frame(vec![([0.0; 3], []); points]);
    /// }
    /// assert!(bundle.frame_rows().eq([0..2, 2..5]));
    /// ```
    pub fn frame_rows(&self) -> impl Iterator<Item = Range<usize>> + '_ {
        let mut next = 0;
        self.counts.iter().map(move |&count| {
            let first = next;
            next += count as usize;
            first..next
        })
    }
}
