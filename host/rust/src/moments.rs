//! Moments of a set of points: count, sum and summed outer products.

use crate::{slices, Plane, Refusal, DECOMPOSITION, MOMENTS};

/// The places of the record; no other code here knows them.
const COUNT: usize = 0;
const SUM: usize = 1;
const OUTER: usize = 4;

/// The moments of a set of points: how many, their sum, and the sum of their outer products `p·pᵀ`.
///
/// All that a plane's fit needs of the points, in one record of [`MOMENTS`] numbers. Keep the moments of each frame as the
/// scanner saw it and [move](Moments::transformed) a copy whenever the pose is known better: moments that are moved,
/// stored and moved again drift.
///
/// # Examples
///
/// ```
/// use maghnelt::{Decomposition, Moments};
///
/// # fn main() -> Result<(), maghnelt::Refusal> {
/// let corners = [[0.0, 0.0, 5.0], [2.0, 0.0, 5.0], [0.0, 2.0, 5.0], [2.0, 2.0, 5.0]];
/// let moments = Moments::from_points(&corners)?;
/// let found = moments.mean_and_scatter().expect("there are points");
/// assert_eq!(found.mean, [1.0, 1.0, 5.0]);
/// assert_eq!(found.scatter, [[1.0, 0.0, 0.0], [0.0, 1.0, 0.0], [0.0, 0.0, 0.0]]);
///
/// // The decomposition of the scatter is the host's, from nalgebra's `SymmetricEigen`, say.
/// let decomposition = Decomposition {
///     eigenvalues: [1.0, 1.0, 0.0],
///     vectors: [[1.0, 0.0, 0.0], [0.0, 1.0, 0.0], [0.0, 0.0, 1.0]],
/// };
/// let fitted = moments.plane(&decomposition).expect("the corners lie in one plane");
/// assert_eq!(fitted.plane.normal, [0.0, 0.0, 1.0]);
/// assert_eq!(fitted.plane.offset, -5.0);
/// # Ok(())
/// # }
/// ```
#[derive(Clone, Copy, Debug, PartialEq)]
#[repr(transparent)]
pub struct Moments([f64; MOMENTS]);

/// What [`Moments::mean_and_scatter`] finds.
#[derive(Clone, Copy, Debug, PartialEq)]
pub struct MeanAndScatter {
    /// The mean of the points.
    pub mean: [f64; 3],
    /// `Σ (p − mean)·(p − mean)ᵀ / count`, three columns; it is symmetric to the bit.
    pub scatter: [[f64; 3]; 3],
}

/// The eigenvalues and vectors of a symmetric matrix, in any order, as the host's decomposition gives them.
///
/// They are used as they come. Eigenvalues are compared by their bit patterns, so that the sign and the payload of a NaN
/// count here.
#[derive(Clone, Copy, Debug, PartialEq)]
pub struct Decomposition {
    /// The three eigenvalues.
    pub eigenvalues: [f64; 3],
    /// Their vectors: `vectors[k]` belongs to `eigenvalues[k]`.
    pub vectors: [[f64; 3]; 3],
}

impl Decomposition {
    /// The numbers as they are handed to the library.
    #[inline]
    #[must_use]
    pub fn record(&self) -> [f64; DECOMPOSITION] {
        let [[a, b, c], [d, e, f], [g, h, i]] = self.vectors;
        let [x, y, z] = self.eigenvalues;
        [x, y, z, a, b, c, d, e, f, g, h, i]
    }
}

/// What [`Moments::plane`] finds.
#[derive(Clone, Copy, Debug, PartialEq)]
pub struct FittedPlane {
    /// The plane; its normal is the vector of the least eigenvalue, as it was handed in.
    pub plane: Plane,
    /// The eigenvalues in rising total order, equal ones in the order of their places.
    pub eigenvalues: [f64; 3],
}

impl Moments {
    /// The moments of no points: zeros.
    pub const EMPTY: Moments = Moments([0.0; MOMENTS]);

    /// The moments of `points`, pushed one after the other into the empty set.
    ///
    /// # Errors
    ///
    /// [`Refusal::Length`] for more than [`MAX_POINTS`](crate::MAX_POINTS). Cut longer lists into parts and
    /// [`merge`](Moments::merge) their moments.
    ///
    /// # Examples
    ///
    /// ```
    /// use maghnelt::Moments;
    ///
    /// # fn main() -> Result<(), maghnelt::Refusal> {
    /// let moments = Moments::from_points(&[[1.0, 2.0, 3.0]])?;
    /// assert_eq!(moments.count(), 1.0);
    /// assert_eq!(moments.sum(), [1.0, 2.0, 3.0]);
    /// assert_eq!(moments.outer(), [[1.0, 2.0, 3.0], [2.0, 4.0, 6.0], [3.0, 6.0, 9.0]]);
    ///
    /// assert_eq!(Moments::from_points(&[])?, Moments::EMPTY);
    /// # Ok(())
    /// # }
    /// ```
    #[inline]
    pub fn from_points(points: &[[f64; 3]]) -> Result<Moments, Refusal> {
        let mut moments = Moments::EMPTY;
        slices::moments_from_points(points.as_flattened(), &mut moments.0)?;
        Ok(moments)
    }

    /// Adds one point.
    ///
    /// # Errors
    ///
    /// [`Refusal::Saturated`] for a count at or above [`MAX_COUNT`](crate::MAX_COUNT), +infinity too, and the moments are as
    /// they were. A NaN count is not refused.
    ///
    /// # Examples
    ///
    /// ```
    /// use maghnelt::Moments;
    ///
    /// # fn main() -> Result<(), maghnelt::Refusal> {
    /// let mut moments = Moments::EMPTY;
    /// moments.push(&[1.0, 2.0, 3.0])?;
    /// moments.push(&[1.0, 0.0, 0.0])?;
    /// assert_eq!(moments.count(), 2.0);
    /// assert_eq!(moments.sum(), [2.0, 2.0, 3.0]);
    /// # Ok(())
    /// # }
    /// ```
    ///
    /// A set that is full is kept as it is, and the points that follow go into a new one:
    ///
    /// ```
    /// use maghnelt::{Moments, Refusal, MAX_COUNT};
    ///
    /// # fn main() -> Result<(), Refusal> {
    /// // One point, doubled 53 times.
    /// let mut moments = Moments::from_points(&[[1.0, 2.0, 3.0]])?;
    /// for _ in 0..53 {
    ///     let same = moments;
    ///     moments.merge(&same)?;
    /// }
    /// assert_eq!(moments.count(), MAX_COUNT);
    ///
    /// let full = moments;
    /// assert_eq!(moments.push(&[1.0, 0.0, 0.0]), Err(Refusal::Saturated));
    /// assert_eq!(moments, full);
    ///
    /// let mut next = Moments::EMPTY;
    /// next.push(&[1.0, 0.0, 0.0])?;
    /// # Ok(())
    /// # }
    /// ```
    #[inline]
    pub fn push(&mut self, point: &[f64; 3]) -> Result<(), Refusal> {
        slices::moments_push(&mut self.0, point)
    }

    /// Adds another set: the moments become those of the points of both.
    ///
    /// # Errors
    ///
    /// [`Refusal::Saturated`] if the exact sum of the two counts is above [`MAX_COUNT`](crate::MAX_COUNT), also where the
    /// rounded sum is not, and the moments are as they were. An infinite count is above or below every number by its sign;
    /// two opposite infinities are not refused, and no NaN is.
    ///
    /// # Examples
    ///
    /// ```
    /// use maghnelt::Moments;
    ///
    /// # fn main() -> Result<(), maghnelt::Refusal> {
    /// let mut moments = Moments::from_points(&[[1.0, 2.0, 3.0]])?;
    /// moments.merge(&Moments::from_points(&[[1.0, 0.0, 0.0]])?)?;
    /// assert_eq!(moments, Moments::from_points(&[[1.0, 2.0, 3.0], [1.0, 0.0, 0.0]])?);
    /// # Ok(())
    /// # }
    /// ```
    ///
    /// A set takes as many points as it can count, and no more:
    ///
    /// ```
    /// use maghnelt::{Moments, Refusal, MAX_COUNT, MOMENTS};
    ///
    /// # fn main() -> Result<(), Refusal> {
    /// // So many points at the origin.
    /// let mut record = [0.0; MOMENTS];
    /// record[0] = MAX_COUNT - 2.0;
    /// let mut moments = Moments::from(record);
    ///
    /// let two = Moments::from_points(&[[1.0, 2.0, 3.0], [1.0, 0.0, 0.0]])?;
    /// moments.merge(&two)?;
    /// assert_eq!(moments.count(), MAX_COUNT);
    ///
    /// let full = moments;
    /// assert_eq!(moments.merge(&two), Err(Refusal::Saturated));
    /// assert_eq!(moments, full);
    /// # Ok(())
    /// # }
    /// ```
    #[inline]
    pub fn merge(&mut self, other: &Moments) -> Result<(), Refusal> {
        slices::moments_merge(&mut self.0, &other.0)
    }

    /// The moments of the points moved by `p ↦ a·p + b`, where `a` is three columns.
    ///
    /// # Examples
    ///
    /// ```
    /// use maghnelt::Moments;
    ///
    /// # fn main() -> Result<(), maghnelt::Refusal> {
    /// // A quarter turn about z, which takes x to y and y to -x, then one metre up.
    /// let turn = [[0.0, 1.0, 0.0], [-1.0, 0.0, 0.0], [0.0, 0.0, 1.0]];
    /// let moved = Moments::from_points(&[[2.0, 0.0, 0.0]])?.transformed(&turn, &[0.0, 0.0, 1.0]);
    /// assert_eq!(moved, Moments::from_points(&[[0.0, 2.0, 1.0]])?);
    /// # Ok(())
    /// # }
    /// ```
    #[inline]
    #[must_use]
    pub fn transformed(&self, a: &[[f64; 3]; 3], b: &[f64; 3]) -> Moments {
        let mut moved = Moments::EMPTY;
        slices::moments_transformed(&self.0, a.as_flattened(), b, &mut moved.0)
            .expect("the types give each slice its length");
        moved
    }

    /// The mean of the points and their scatter; none if the count is at or below 0. A NaN count gives NaNs.
    ///
    /// # Examples
    ///
    /// ```
    /// use maghnelt::Moments;
    ///
    /// # fn main() -> Result<(), maghnelt::Refusal> {
    /// let found = Moments::from_points(&[[1.0, 0.0, 0.0], [3.0, 0.0, 0.0]])?.mean_and_scatter();
    /// let found = found.expect("there are points");
    /// assert_eq!(found.mean, [2.0, 0.0, 0.0]);
    /// assert_eq!(found.scatter[0][0], 1.0);
    ///
    /// assert_eq!(Moments::EMPTY.mean_and_scatter(), None);
    /// # Ok(())
    /// # }
    /// ```
    #[inline]
    #[must_use]
    pub fn mean_and_scatter(&self) -> Option<MeanAndScatter> {
        let mut out = [[0.0; 3]; 4];
        let mut found = 0;
        slices::moments_mean_and_scatter(&self.0, out.as_flattened_mut(), &mut found)
            .expect("the types give each slice its length");
        let [mean, scatter @ ..] = out;
        (found == 1).then_some(MeanAndScatter { mean, scatter })
    }

    /// The plane that fits the points best, given the decomposition of their scatter; none with fewer than three points
    /// and none where the second eigenvalue lies less than 1e-14 above the first, so that no axis of least scatter stands
    /// out. A NaN count or a NaN gap is not turned down.
    ///
    /// # Examples
    ///
    /// ```
    /// use maghnelt::{Decomposition, Moments};
    ///
    /// # fn main() -> Result<(), maghnelt::Refusal> {
    /// let points = [[1.0, 0.0, 7.0], [-1.0, 0.0, 7.0], [0.0, 3.0, 7.0], [0.0, -3.0, 7.0]];
    /// let moments = Moments::from_points(&points)?;
    /// let vectors = [[1.0, 0.0, 0.0], [0.0, 1.0, 0.0], [0.0, 0.0, 1.0]];
    /// let fitted = moments.plane(&Decomposition { eigenvalues: [0.5, 4.5, 0.0], vectors });
    /// let fitted = fitted.expect("there is one least eigenvalue");
    /// assert_eq!(fitted.plane.normal, [0.0, 0.0, 1.0]);
    /// assert_eq!(fitted.plane.offset, -7.0);
    /// assert_eq!(fitted.eigenvalues, [0.0, 0.5, 4.5]);
    ///
    /// // Points of a line lie in many planes.
    /// assert_eq!(moments.plane(&Decomposition { eigenvalues: [0.0, 4.5, 0.0], vectors }), None);
    /// # Ok(())
    /// # }
    /// ```
    #[inline]
    #[must_use]
    pub fn plane(&self, decomposition: &Decomposition) -> Option<FittedPlane> {
        let mut out = [0.0; 7];
        let mut found = 0;
        slices::moments_plane(&self.0, &decomposition.record(), &mut out, &mut found)
            .expect("the types give each slice its length");
        let [x, y, z, offset, eigenvalues @ ..] = out;
        let normal = [x, y, z];
        (found == 1).then_some(FittedPlane {
            plane: Plane { normal, offset },
            eigenvalues,
        })
    }

    /// The number of points.
    #[inline]
    #[must_use]
    pub fn count(&self) -> f64 {
        self.0[COUNT]
    }

    /// The sum of the points.
    #[inline]
    #[must_use]
    pub fn sum(&self) -> [f64; 3] {
        std::array::from_fn(|r| self.0[SUM + r])
    }

    /// The sum of the points' outer products, three columns.
    #[inline]
    #[must_use]
    pub fn outer(&self) -> [[f64; 3]; 3] {
        std::array::from_fn(|c| std::array::from_fn(|r| self.0[OUTER + 3 * c + r]))
    }

    /// The record as it is stored.
    #[inline]
    #[must_use]
    pub const fn as_array(&self) -> &[f64; MOMENTS] {
        &self.0
    }

    /// The numbers of sets that follow each other.
    #[inline]
    pub(crate) fn flattened(sets: &[Moments]) -> &[f64] {
        // SAFETY: a `Moments` is laid out as its array, so that as many numbers lie there, and they live as long.
        unsafe { std::slice::from_raw_parts(sets.as_ptr().cast(), sets.len() * MOMENTS) }
    }
}

/// The empty set.
impl Default for Moments {
    fn default() -> Self {
        Moments::EMPTY
    }
}

/// A record that was stored, taken as it comes.
impl From<[f64; MOMENTS]> for Moments {
    fn from(record: [f64; MOMENTS]) -> Self {
        Moments(record)
    }
}

impl From<Moments> for [f64; MOMENTS] {
    fn from(moments: Moments) -> Self {
        moments.0
    }
}
