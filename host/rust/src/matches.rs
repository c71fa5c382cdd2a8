//! Matches of points with planes of a map: a list of them on one pose, and one below its chain.

use crate::{
    slices, Action, BlockMap, Linearized, NormalEquations, Plane, Refusal, Transforms, MATCH,
};

/// A point as the scanner saw it, the plane of the map that it is held against, and the standard deviation of its distance.
#[derive(Clone, Copy, Debug, PartialEq)]
pub struct PlaneMatch {
    /// The point.
    pub point: [f64; 3],
    /// The plane, taken as it comes.
    pub plane: Plane,
    /// The standard deviation of the point's distance from the plane.
    pub sigma: f64,
}

impl PlaneMatch {
    /// The record as it is handed to the library.
    #[inline]
    #[must_use]
    pub fn record(&self) -> [f64; MATCH] {
        let [x, y, z] = self.point;
        let [a, b, c] = self.plane.normal;
        [x, y, z, a, b, c, self.plane.offset, self.sigma]
    }

    /// The residual of this match, its point being carried to `world` by a chain of a state and an extrinsic, and the row of
    /// the residual's derivatives: by the state's parameters, of which `d_state` has the world point's derivatives, and by
    /// the six of the extrinsic.
    ///
    /// # Errors
    ///
    /// [`Refusal::Dof`] for more than nine columns of `d_state`, [`Refusal::NotFinite`] if a coordinate of the match's own
    /// point is not finite, [`Refusal::Sigma`] if its sigma is not finite and positive.
    ///
    /// # Examples
    ///
    /// ```
    /// use maghnelt::{Plane, PlaneMatch};
    ///
    /// # fn main() -> Result<(), maghnelt::Refusal> {
    /// let floor = Plane { normal: [0.0, 0.0, 1.0], offset: 0.0 };
    /// let seen = PlaneMatch { point: [1.0, 2.0, -3.0], plane: floor, sigma: 0.5 };
    /// // Half a metre above the floor, and lifted by the one parameter.
    /// let lifted = seen.linearize(&[1.0, 2.0, 0.5], &[[0.0, 0.0, 1.0]], &[[0.0; 3]; 6])?;
    /// assert_eq!(lifted.residual, 1.0);
    /// assert_eq!(lifted.state, [2.0]);
    /// assert_eq!(lifted.extrinsic, [0.0; 6]);
    /// # Ok(())
    /// # }
    /// ```
    pub fn linearize(
        &self,
        world: &[f64; 3],
        d_state: &[[f64; 3]],
        d_extrinsic: &[[f64; 3]; 6],
    ) -> Result<MatchRow, Refusal> {
        let mut residual = 0.0;
        let mut row = vec![0.0; d_state.len() + 6];
        slices::match_linearize(
            u32::try_from(d_state.len()).unwrap_or(u32::MAX),
            &self.record(),
            world,
            d_state.as_flattened(),
            d_extrinsic.as_flattened(),
            &mut residual,
            &mut row,
        )?;
        let extrinsic = std::array::from_fn(|c| row[d_state.len() + c]);
        row.truncate(d_state.len());
        Ok(MatchRow {
            residual,
            state: row,
            extrinsic,
        })
    }
}

/// What [`PlaneMatch::linearize`] gives.
#[derive(Clone, Debug, PartialEq)]
pub struct MatchRow {
    /// The residual.
    pub residual: f64,
    /// Its derivatives by the state's parameters.
    pub state: Vec<f64>,
    /// Its derivatives by the extrinsic's.
    pub extrinsic: [f64; 6],
}

/// Matches of points that one pose carries into the site.
///
/// # Examples
///
/// ```
/// use maghnelt::{Action, BlockMap, MatchList, NormalEquations, Plane, PlaneMatch};
///
/// # fn main() -> Result<(), maghnelt::Refusal> {
/// let floor = Plane { normal: [0.0, 0.0, 1.0], offset: 0.0 };
/// let seen = |point| PlaneMatch { point, plane: floor, sigma: 0.5 };
/// let matches = MatchList::new(6, [seen([0.0, 0.0, 1.0]), seen([4.0, 0.0, -1.0])]);
///
/// // The pose stands a metre too high, so that the residuals are 4 and 0.
/// let upright = [[1.0, 0.0, 0.0], [0.0, 1.0, 0.0], [0.0, 0.0, 1.0]];
/// let pose = Action::rigid(&upright, &[0.0, 0.0, 1.0]);
/// assert_eq!(matches.linearize(&pose)?.residual(), [4.0, 0.0]);
/// assert_eq!(matches.cost(&pose)?, 16.0);
///
/// let mut normal = NormalEquations::zeros(6);
/// let cost = matches.accumulate(&pose, &BlockMap::new([Some(0)])?, &mut normal)?;
/// assert_eq!(cost, 16.0);
/// // Both residuals grow by 2 with each metre up, and the second falls by 8 for a turn about y.
/// assert_eq!(normal.hessian(2, 2), 8.0);
/// assert_eq!(normal.hessian(4, 4), 64.0);
/// assert_eq!(normal.gradient(), [0.0, 0.0, 8.0, 0.0, 0.0, 0.0]);
/// # Ok(())
/// # }
/// ```
#[derive(Clone, Debug, PartialEq)]
pub struct MatchList {
    dof: u32,
    records: Vec<[f64; MATCH]>,
}

impl MatchList {
    /// A list of matches on a pose of `dof` parameters. Nothing is tested here: every call tests the whole list.
    pub fn new(dof: u32, matches: impl IntoIterator<Item = PlaneMatch>) -> MatchList {
        let records = matches.into_iter().map(|one| one.record()).collect();
        MatchList { dof, records }
    }

    /// The number of matches.
    #[must_use]
    pub fn len(&self) -> usize {
        self.records.len()
    }

    /// Whether there are none.
    #[must_use]
    pub fn is_empty(&self) -> bool {
        self.records.is_empty()
    }

    /// Adds the normal equations of the matches under a pose, at the offset that the map gives for its frame 0, and gives
    /// the cost. A list that is not mapped still costs.
    ///
    /// # Errors
    ///
    /// [`Refusal::Dof`] above 9; [`Refusal::EmptyList`]; [`Refusal::Length`] with more than
    /// [`MAX_MATCHES`](crate::MAX_MATCHES) or an order above [`MAX_ORDER`](crate::MAX_ORDER); [`Refusal::NotFinite`] or
    /// [`Refusal::Sigma`] by the first match whose point is not finite or whose sigma is not finite and positive;
    /// [`Refusal::Segment`] if the offset plus the dof exceeds the order. The normal equations are then as they were.
    ///
    /// # Examples
    ///
    /// ```
    /// use maghnelt::{Action, BlockMap, MatchList, NormalEquations, Plane, PlaneMatch};
    ///
    /// # fn main() -> Result<(), maghnelt::Refusal> {
    /// let floor = Plane { normal: [0.0, 0.0, 1.0], offset: 0.0 };
    /// let matches = MatchList::new(6, [PlaneMatch { point: [0.0, 0.0, 3.0], plane: floor, sigma: 1.0 }]);
    /// let upright = [[1.0, 0.0, 0.0], [0.0, 1.0, 0.0], [0.0, 0.0, 1.0]];
    /// let pose = Action::rigid(&upright, &[0.0; 3]);
    ///
    /// // The list's rows are 6 to 11.
    /// let mut normal = NormalEquations::zeros(12);
    /// assert_eq!(matches.accumulate(&pose, &BlockMap::new([Some(6)])?, &mut normal)?, 9.0);
    /// assert_eq!(normal.gradient()[8], 3.0);
    /// assert_eq!(normal.gradient()[..6], [0.0; 6]);
    /// # Ok(())
    /// # }
    /// ```
    pub fn accumulate(
        &self,
        pose: &Action,
        map: &BlockMap,
        normal: &mut NormalEquations,
    ) -> Result<f64, Refusal> {
        let mut cost = 0.0;
        let (hessian, gradient) = normal.parts_mut();
        slices::matches_accumulate(
            self.dof,
            self.records.as_flattened(),
            pose.as_array(),
            map.words(),
            hessian,
            gradient,
            &mut cost,
        )?;
        Ok(cost)
    }

    /// [`accumulate`](MatchList::accumulate) with transforms beside the map: if frame 0 has a transform T, the list adds Tᵀ·M·T
    /// and Tᵀ·v in place of its block M and its vector v. Its segment is then as wide as T, and T has a row for each
    /// derivative column of the pose, in the same axes. With [`Transforms::NONE`] this is `accumulate`, to the bit.
    ///
    /// # Errors
    ///
    /// As [`accumulate`](MatchList::accumulate), the offset plus the segment's width counting in [`Refusal::Segment`];
    /// [`Refusal::Length`] also if the transforms are neither [`Transforms::NONE`] nor one or none for each word of the map;
    /// before [`Refusal::Segment`] comes [`Refusal::Transform`] if some word's transform has not dof rows.
    ///
    /// # Examples
    ///
    /// ```
    /// use maghnelt::{Action, BlockMap, MatchList, NormalEquations, Plane, PlaneMatch, Transform, Transforms};
    ///
    /// # fn main() -> Result<(), maghnelt::Refusal> {
    /// let wall = Plane { normal: [1.0, 0.0, 0.0], offset: 0.0 };
    /// let floor = Plane { normal: [0.0, 0.0, 1.0], offset: 0.0 };
    /// let seen = |plane| PlaneMatch { point: [0.0; 3], plane, sigma: 0.5 };
    /// let matches = MatchList::new(6, [seen(wall), seen(floor)]);
    ///
    /// // The scanner stands three metres from the wall and one above the floor. Its height is locked.
    /// let upright = [[1.0, 0.0, 0.0], [0.0, 1.0, 0.0], [0.0, 0.0, 1.0]];
    /// let pose = Action::rigid(&upright, &[3.0, 0.0, 1.0]);
    /// let locked = Transform::locked_height(&upright);
    /// let transforms = Transforms::new([Some(locked)])?;
    ///
    /// // Five rows are enough, and the floor costs but pulls no more.
    /// let mut normal = NormalEquations::zeros(5);
    /// let map = BlockMap::new([Some(0)])?;
    /// let cost = matches.accumulate_transformed(&pose, &map, &transforms, &mut normal)?;
    /// assert_eq!(cost, 36.0 + 4.0);
    /// assert_eq!(normal.gradient(), [12.0, 0.0, 0.0, 0.0, 0.0]);
    ///
    /// // The step of the pose's six parameters: to the wall, at the same height.
    /// let along_x = -normal.gradient()[0] / normal.hessian(0, 0);
    /// let step = locked.step(&[along_x, 0.0, 0.0, 0.0, 0.0])?;
    /// assert_eq!(step, [-3.0, 0.0, 0.0, 0.0, 0.0, 0.0]);
    /// # Ok(())
    /// # }
    /// ```
    pub fn accumulate_transformed(
        &self,
        pose: &Action,
        map: &BlockMap,
        transforms: &Transforms,
        normal: &mut NormalEquations,
    ) -> Result<f64, Refusal> {
        let mut cost = 0.0;
        let (hessian, gradient) = normal.parts_mut();
        slices::matches_accumulate_transformed(
            self.dof,
            self.records.as_flattened(),
            pose.as_array(),
            map.words(),
            transforms.shapes(),
            transforms.numbers(),
            hessian,
            gradient,
            &mut cost,
        )?;
        Ok(cost)
    }

    /// The cost of the matches under a pose: the sum of the squared residuals, in groups of 512.
    ///
    /// # Errors
    ///
    /// As [`accumulate`](MatchList::accumulate), but for what is said of an order and an offset.
    pub fn cost(&self, pose: &Action) -> Result<f64, Refusal> {
        let mut none = NormalEquations::zeros(0);
        self.accumulate(pose, &BlockMap::NOT_WANTED, &mut none)
    }

    /// The residual of each match under a pose, and the Jacobian.
    ///
    /// # Errors
    ///
    /// As [`cost`](MatchList::cost).
    ///
    /// # Examples
    ///
    /// ```
    /// use maghnelt::{Action, MatchList, Plane, PlaneMatch};
    ///
    /// # fn main() -> Result<(), maghnelt::Refusal> {
    /// let floor = Plane { normal: [0.0, 0.0, 1.0], offset: 0.0 };
    /// let matches = MatchList::new(6, [PlaneMatch { point: [0.0, 0.0, 3.0], plane: floor, sigma: 0.5 }]);
    /// let upright = [[1.0, 0.0, 0.0], [0.0, 1.0, 0.0], [0.0, 0.0, 1.0]];
    /// let rows = matches.linearize(&Action::rigid(&upright, &[0.0; 3]))?;
    /// assert_eq!(rows.residual(), [6.0]);
    /// assert_eq!(rows.jacobian(0, 2), 2.0);
    /// # Ok(())
    /// # }
    /// ```
    pub fn linearize(&self, pose: &Action) -> Result<Linearized, Refusal> {
        let columns = self.dof.min(9) as usize;
        let mut out = Linearized::zeros(self.len(), columns);
        let (residual, jacobian) = out.parts_mut();
        let matches = self.records.as_flattened();
        slices::matches_linearize(self.dof, matches, pose.as_array(), residual, jacobian)?;
        Ok(out)
    }
}
