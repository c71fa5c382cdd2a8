//! The factor of one plane over several frames.

use crate::{
    frames_fit, slices, Action, BlockMap, Centred, Decomposition, FitSums, Linearized, Moments,
    NormalEquations, Refusal, Transforms, CENTRED, DECOMPOSITION, MOMENTS,
};

/// One plane over several frames: the moments that each frame saw of it, tested and centred once, and evaluated at many
/// states of the frames. A fixed set of points that lie in the site already may anchor it.
///
/// # Examples
///
/// ```
/// use maghnelt::{Action, BlockMap, Decomposition, FrameFactor, Moments, NormalEquations};
///
/// # fn main() -> Result<(), maghnelt::Refusal> {
/// let corners = [[0.0, 0.0, 0.0], [2.0, 0.0, 0.0], [0.0, 2.0, 0.0], [2.0, 2.0, 0.0]];
/// let seen = Moments::from_points(&corners)?;
/// let factor = FrameFactor::new(6, &[seen, seen], None, 0.01)?;
/// assert_eq!(factor.points(), 8.0);
/// assert_eq!(factor.frames()[0].mean(), [1.0, 1.0, 0.0]);
///
/// // The second frame stands two metres further.
/// let upright = [[1.0, 0.0, 0.0], [0.0, 1.0, 0.0], [0.0, 0.0, 1.0]];
/// let states = [[0.0; 3], [2.0, 0.0, 0.0]].map(|shift| Action::rigid(&upright, &shift));
/// let sums = factor.fit(&states)?;
/// assert_eq!(sums.mean, [2.0, 1.0, 0.0]);
///
/// // The decomposition of the scatter is the host's, from nalgebra's `SymmetricEigen`, say.
/// assert_eq!(sums.scatter, [[16.0, 0.0, 0.0], [0.0, 8.0, 0.0], [0.0, 0.0, 0.0]]);
/// let decomposition = Decomposition { eigenvalues: [16.0, 8.0, 0.0], vectors: upright };
///
/// // Six rows for each frame.
/// let map = BlockMap::new([Some(0), Some(6)])?;
/// let mut normal = NormalEquations::zeros(12);
/// let cost = factor.accumulate(&states, &decomposition, &map, &mut normal)?;
/// assert_eq!(cost, 0.0);
/// // Four points, each pulling straight down with the weight 1 / 0.01².
/// assert_eq!(normal.hessian(2, 2), 4.0 / (0.01 * 0.01));
/// assert_eq!(normal.gradient(), [0.0; 12]);
/// # Ok(())
/// # }
/// ```
#[derive(Clone, Debug, PartialEq)]
pub struct FrameFactor {
    dof: u32,
    frames: Vec<Centred>,
    fixed: Option<Centred>,
    sigma: f64,
    points: f64,
    fixed_dropped: bool,
}

/// One of the two calls that build a factor.
type Build =
    fn(u32, &[f64], &[f64], f64, &mut [f64], &mut [f64], &mut f64, &mut u32) -> Result<(), Refusal>;

impl FrameFactor {
    /// A plane that the frames with these moments see, anchored by the `fixed` set; `dof` is the number of the parameters of
    /// each frame's state, and `sigma` the standard deviation of a point's distance from the plane.
    ///
    /// A fixed set of a count at or below 0 counts in the test of the total, and is dropped then. Where a count below 0 has to
    /// be refused, use [`build_strict`](FrameFactor::build_strict).
    ///
    /// # Errors
    ///
    /// [`Refusal::Dof`] above 9; [`Refusal::EmptyList`] without a frame; [`Refusal::Length`] with more than
    /// [`MAX_FRAMES`](crate::MAX_FRAMES); [`Refusal::FrameCount`] if a frame has no points; [`Refusal::TotalCount`] if there
    /// are fewer than three in all; [`Refusal::NotFinite`] if a moment is not finite; [`Refusal::Sigma`] if `sigma` is not
    /// finite and positive.
    ///
    /// # Examples
    ///
    /// ```
    /// use maghnelt::{FrameFactor, Moments, Refusal};
    ///
    /// # fn main() -> Result<(), Refusal> {
    /// let points = Moments::from_points(&[[1.0, 2.0, 3.0]; 2])?;
    /// assert_eq!(FrameFactor::new(6, &[points], None, 0.01).unwrap_err(), Refusal::TotalCount);
    /// assert_eq!(FrameFactor::new(6, &[points], Some(&points), 0.01)?.points(), 4.0);
    /// # Ok(())
    /// # }
    /// ```
    pub fn new(
        dof: u32,
        frames: &[Moments],
        fixed: Option<&Moments>,
        sigma: f64,
    ) -> Result<FrameFactor, Refusal> {
        FrameFactor::built_by(slices::frames_build, dof, frames, fixed, sigma)
    }

    /// The factor that [`new`](FrameFactor::new) builds, by the survey rule: a fixed set of a count below 0 is refused, and
    /// the test of the total counts only sets that are kept.
    ///
    /// Use it for surveys, whose handbook forbids a negative fixed count. `new` drops such a set without telling it from one
    /// of no points or, where the set lowers the total too far, refuses a plane of enough points by
    /// [`Refusal::TotalCount`]. A fixed set of no points is dropped here too. Unless the answer is
    /// [`Refusal::FixedCount`], it is that of `new`.
    ///
    /// # Errors
    ///
    /// In this order: [`Refusal::Dof`] above 9; [`Refusal::EmptyList`] without a frame; [`Refusal::Length`] with more than
    /// [`MAX_FRAMES`](crate::MAX_FRAMES); [`Refusal::FixedCount`] if the fixed set's count is below 0;
    /// [`Refusal::FrameCount`] if a frame has no points; [`Refusal::TotalCount`] if there are fewer than three in the frames
    /// and the fixed set; [`Refusal::NotFinite`] if a moment is not finite; [`Refusal::Sigma`] if `sigma` is not finite and
    /// positive.
    ///
    /// # Examples
    ///
    /// ```
    /// use maghnelt::{FrameFactor, Moments, Refusal, MOMENTS};
    ///
    /// # fn main() -> Result<(), Refusal> {
    /// let seen = [Moments::from_points(&[[1.0, 2.0, 3.0]; 5])?];
    ///
    /// // A record that was stored wrongly.
    /// let mut record = [0.0; MOMENTS];
    /// record[0] = -1.0;
    /// let negative = Moments::from(record);
    /// let strict = FrameFactor::build_strict(6, &seen, Some(&negative), 0.01);
    /// assert_eq!(strict.unwrap_err(), Refusal::FixedCount);
    /// assert!(FrameFactor::new(6, &seen, Some(&negative), 0.01)?.fixed_dropped());
    ///
    /// // No points are no mistake.
    /// let factor = FrameFactor::build_strict(6, &seen, Some(&Moments::EMPTY), 0.01)?;
    /// assert!(factor.fixed_dropped());
    /// assert_eq!(factor.points(), 5.0);
    /// # Ok(())
    /// # }
    /// ```
    pub fn build_strict(
        dof: u32,
        frames: &[Moments],
        fixed: Option<&Moments>,
        sigma: f64,
    ) -> Result<FrameFactor, Refusal> {
        FrameFactor::built_by(slices::frames_build_strict, dof, frames, fixed, sigma)
    }

    fn built_by(
        build: Build,
        dof: u32,
        frames: &[Moments],
        fixed: Option<&Moments>,
        sigma: f64,
    ) -> Result<FrameFactor, Refusal> {
        let moments: Vec<[f64; MOMENTS]> = frames.iter().map(|frame| *frame.as_array()).collect();
        let fixed_moments: &[f64] = fixed.map_or(&[], |fixed| fixed.as_array());
        let mut centred_frames = vec![[0.0; CENTRED]; frames.len()];
        let mut centred_fixed = [0.0; CENTRED];
        let of_fixed = if fixed.is_some() { CENTRED } else { 0 };
        let mut points = 0.0;
        let mut dropped = 0;
        build(
            dof,
            moments.as_flattened(),
            fixed_moments,
            sigma,
            centred_frames.as_flattened_mut(),
            &mut centred_fixed[..of_fixed],
            &mut points,
            &mut dropped,
        )?;
        let fixed_dropped = dropped == 1;
        let kept = fixed.is_some() && !fixed_dropped;
        Ok(FrameFactor {
            dof,
            frames: centred_frames.into_iter().map(Centred::from).collect(),
            fixed: kept.then(|| Centred::from(centred_fixed)),
            sigma,
            points,
            fixed_dropped,
        })
    }

    /// The mean and the scatter that the plane is fitted to when the frames are carried by these actions, for the
    /// decomposition that the host makes of the scatter.
    ///
    /// # Errors
    ///
    /// [`Refusal::Actions`] if they are not as many as the frames.
    ///
    /// # Examples
    ///
    /// ```
    /// use maghnelt::{FrameFactor, Moments, Refusal};
    ///
    /// # fn main() -> Result<(), Refusal> {
    /// let seen = Moments::from_points(&[[0.0, 0.0, 0.0], [2.0, 0.0, 0.0], [0.0, 2.0, 0.0]])?;
    /// let factor = FrameFactor::new(6, &[seen], None, 0.01)?;
    /// assert_eq!(factor.fit(&[]).unwrap_err(), Refusal::Actions);
    /// # Ok(())
    /// # }
    /// ```
    pub fn fit(&self, actions: &[Action]) -> Result<FitSums, Refusal> {
        frames_fit(self.dof, &self.frames, self.fixed.as_ref(), actions)
    }

    /// Adds the normal equations of the frames, carried by these actions, to the segments that the map gives them, and gives
    /// the cost: the squared distances of all points from the fitted plane over sigma squared. `decomposition` is that of
    /// what [`fit`](FrameFactor::fit) gave for the same actions. A frame that is not mapped still costs.
    ///
    /// Without a plane, as where the two least eigenvalues are equal, the cost is 0 and nothing is added.
    ///
    /// # Errors
    ///
    /// [`Refusal::Length`] for an order above [`MAX_ORDER`](crate::MAX_ORDER); [`Refusal::Actions`] if the actions are not as
    /// many as the frames; [`Refusal::Segment`] if a frame's offset plus the dof exceeds the order. The normal equations are
    /// then as they were.
    ///
    /// # Examples
    ///
    /// ```
    /// use maghnelt::{Action, BlockMap, Decomposition, FrameFactor, Moments, NormalEquations, Refusal};
    ///
    /// # fn main() -> Result<(), Refusal> {
    /// let corners = [[0.0, 0.0, 0.0], [2.0, 0.0, 0.0], [0.0, 2.0, 0.0], [2.0, 2.0, 0.0]];
    /// let factor = FrameFactor::new(6, &[Moments::from_points(&corners)?], None, 0.5)?;
    /// let upright = [[1.0, 0.0, 0.0], [0.0, 1.0, 0.0], [0.0, 0.0, 1.0]];
    /// let state = [Action::rigid(&upright, &[0.0; 3])];
    /// let floor = Decomposition { eigenvalues: [4.0, 4.0, 0.0], vectors: upright };
    ///
    /// let mut normal = NormalEquations::zeros(6);
    /// factor.accumulate(&state, &floor, &BlockMap::new([Some(0)])?, &mut normal)?;
    /// assert_eq!(normal.hessian(2, 2), 16.0);
    ///
    /// // Six rows from row 1 on are one too many.
    /// let past = factor.accumulate(&state, &floor, &BlockMap::new([Some(1)])?, &mut normal);
    /// assert_eq!(past.unwrap_err(), Refusal::Segment);
    /// # Ok(())
    /// # }
    /// ```
    pub fn accumulate(
        &self,
        actions: &[Action],
        decomposition: &Decomposition,
        map: &BlockMap,
        normal: &mut NormalEquations,
    ) -> Result<f64, Refusal> {
        let mut cost = 0.0;
        let (hessian, gradient) = normal.parts_mut();
        slices::frames_accumulate(
            self.dof,
            Centred::flattened(&self.frames),
            Centred::optional(self.fixed.as_ref()),
            self.sigma,
            Action::flattened(actions),
            &decomposition.record(),
            map.words(),
            hessian,
            gradient,
            &mut cost,
        )?;
        Ok(cost)
    }

    /// [`accumulate`](FrameFactor::accumulate) with transforms beside the map: a frame that has a transform T adds Tᵀ·M·T and
    /// Tᵀ·v in place of its block M and its vector v. Its segment is then as wide as T, and T has a row for each derivative
    /// column of the frame's action, in the same axes. With [`Transforms::NONE`] this is `accumulate`, to the bit.
    ///
    /// # Errors
    ///
    /// [`Refusal::Length`] for an order above [`MAX_ORDER`](crate::MAX_ORDER), or if the transforms are neither
    /// [`Transforms::NONE`] nor one or none for each word of the map; [`Refusal::Actions`] if the actions are not as many as
    /// the frames; [`Refusal::Transform`] if some word's transform has not dof rows, also one of no frame;
    /// [`Refusal::Segment`] if a frame's offset plus its width exceeds the order. The normal equations are then as they were.
    ///
    /// # Examples
    ///
    /// ```
    /// use maghnelt::{
    ///     Action, BlockMap, Decomposition, FrameFactor, Moments, NormalEquations, Transform, Transforms,
    /// };
    ///
    /// # fn main() -> Result<(), maghnelt::Refusal> {
    /// // The floor from two poses, the height of the first of which is locked: it has five rows, the second begins at row 5.
    /// let corners = [[0.0, 0.0, 0.0], [2.0, 0.0, 0.0], [0.0, 2.0, 0.0], [2.0, 2.0, 0.0]];
    /// let seen = Moments::from_points(&corners)?;
    /// let factor = FrameFactor::new(6, &[seen, seen], None, 0.5)?;
    /// let upright = [[1.0, 0.0, 0.0], [0.0, 1.0, 0.0], [0.0, 0.0, 1.0]];
    /// let states = [Action::rigid(&upright, &[0.0; 3]); 2];
    /// let floor = Decomposition { eigenvalues: [8.0, 8.0, 0.0], vectors: upright };
    ///
    /// let transforms = Transforms::new([Some(Transform::locked_height(&upright)), None])?;
    /// let map = BlockMap::new([Some(0), Some(5)])?;
    /// let mut normal = NormalEquations::zeros(11);
    /// let cost = factor.accumulate_transformed(&states, &floor, &map, &transforms, &mut normal)?;
    /// assert_eq!(cost, 0.0);
    ///
    /// // Of the first pose the turn about x is row 2, of the second row 8, with the height in row 7.
    /// assert_eq!(normal.hessian(2, 2), 32.0);
    /// assert_eq!(normal.hessian(8, 8), 32.0);
    /// assert_eq!(normal.hessian(7, 7), 16.0);
    /// # Ok(())
    /// # }
    /// ```
    pub fn accumulate_transformed(
        &self,
        actions: &[Action],
        decomposition: &Decomposition,
        map: &BlockMap,
        transforms: &Transforms,
        normal: &mut NormalEquations,
    ) -> Result<f64, Refusal> {
        let mut cost = 0.0;
        let (hessian, gradient) = normal.parts_mut();
        slices::frames_accumulate_transformed(
            self.dof,
            Centred::flattened(&self.frames),
            Centred::optional(self.fixed.as_ref()),
            self.sigma,
            Action::flattened(actions),
            &decomposition.record(),
            map.words(),
            transforms.shapes(),
            transforms.numbers(),
            hessian,
            gradient,
            &mut cost,
        )?;
        Ok(cost)
    }

    /// The cost alone.
    ///
    /// # Errors
    ///
    /// [`Refusal::Actions`] if the actions are not as many as the frames.
    pub fn cost(&self, actions: &[Action], decomposition: &Decomposition) -> Result<f64, Refusal> {
        let mut none = NormalEquations::zeros(0);
        self.accumulate(actions, decomposition, &BlockMap::NOT_WANTED, &mut none)
    }

    /// Four residuals for each frame and four for the fixed set, zeros without one, and the Jacobian, of dof columns for each
    /// frame: the rows whose squares and products [`accumulate`](FrameFactor::accumulate) sums up. Beside the decomposition
    /// of what [`fit`](FrameFactor::fit) gave come those of each frame's [scatter](Centred::scatter) and of the fixed set's.
    /// Without a plane all are zeros.
    ///
    /// # Errors
    ///
    /// [`Refusal::Length`] if `of_frames` has not one for each frame, or there is a fixed set and no `of_fixed`, or the other
    /// way round; [`Refusal::Actions`] if the actions are not as many as the frames.
    ///
    /// # Examples
    ///
    /// ```
    /// use maghnelt::{Action, Decomposition, FrameFactor, Moments};
    ///
    /// # fn main() -> Result<(), maghnelt::Refusal> {
    /// let corners = [[0.0, 0.0, 0.0], [2.0, 0.0, 0.0], [0.0, 2.0, 0.0], [2.0, 2.0, 0.0]];
    /// let factor = FrameFactor::new(6, &[Moments::from_points(&corners)?], None, 0.5)?;
    /// let upright = [[1.0, 0.0, 0.0], [0.0, 1.0, 0.0], [0.0, 0.0, 1.0]];
    /// let state = [Action::rigid(&upright, &[0.0; 3])];
    ///
    /// // The scatter of one frame that stays where it is serves for the fit and for the frame.
    /// let floor = Decomposition { eigenvalues: [4.0, 4.0, 0.0], vectors: upright };
    /// let rows = factor.linearize(&state, &floor, &[floor], None)?;
    /// assert_eq!(rows.residual(), [0.0; 8]);
    /// // A metre up moves four points by a metre: the root of 4, over sigma.
    /// assert_eq!(rows.jacobian(3, 2), 4.0);
    /// # Ok(())
    /// # }
    /// ```
    pub fn linearize(
        &self,
        actions: &[Action],
        of_fit: &Decomposition,
        of_frames: &[Decomposition],
        of_fixed: Option<&Decomposition>,
    ) -> Result<Linearized, Refusal> {
        let all = [of_fit].into_iter().chain(of_frames).chain(of_fixed);
        let decompositions: Vec<[f64; DECOMPOSITION]> = all.map(Decomposition::record).collect();
        let rows = 4 * self.frames.len() + 4;
        let mut out = Linearized::zeros(rows, self.frames.len() * self.dof as usize);
        let (residual, jacobian) = out.parts_mut();
        slices::frames_linearize(
            self.dof,
            Centred::flattened(&self.frames),
            Centred::optional(self.fixed.as_ref()),
            self.sigma,
            Action::flattened(actions),
            decompositions.as_flattened(),
            residual,
            jacobian,
        )?;
        Ok(out)
    }

    /// The number of the parameters of each frame's state.
    #[must_use]
    pub fn dof(&self) -> u32 {
        self.dof
    }

    /// The frames, centred.
    #[must_use]
    pub fn frames(&self) -> &[Centred] {
        &self.frames
    }

    /// The fixed set, centred; none if there was none or it was dropped.
    #[must_use]
    pub fn fixed(&self) -> Option<&Centred> {
        self.fixed.as_ref()
    }

    /// Whether a fixed set was handed in and dropped, as its count was at or below 0.
    #[must_use]
    pub fn fixed_dropped(&self) -> bool {
        self.fixed_dropped
    }

    /// The standard deviation of a point's distance from the plane.
    #[must_use]
    pub fn sigma(&self) -> f64 {
        self.sigma
    }

    /// The number of points, of the frames and of the fixed set.
    #[must_use]
    pub fn points(&self) -> f64 {
        self.points
    }
}
