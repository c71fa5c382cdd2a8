//! Frames of one plane: what each frame saw of it, and the affine map that carries the frame into the site.

use crate::{slices, Refusal, ACTION, CENTRED, MAX_DOF};

/// The places of a centred frame; no other code here knows them.
const MEAN: usize = 1;
const SCATTER: usize = 4;

/// The places of an action.
const SHIFT: usize = 9;
const ORIGIN: usize = 12;
const AXES: usize = 39;
/// How many numbers the columns of a derivative are.
const COLUMNS: usize = 3 * MAX_DOF;

/// The points of a frame, or of a fixed set, centred on their mean: count, mean, and scatter times count.
#[derive(Clone, Copy, Debug, PartialEq)]
#[repr(transparent)]
pub struct Centred([f64; CENTRED]);

impl Centred {
    /// The number of points.
    #[inline]
    #[must_use]
    pub fn count(&self) -> f64 {
        self.0[0]
    }

    /// The mean of the points.
    #[inline]
    #[must_use]
    pub fn mean(&self) -> [f64; 3] {
        std::array::from_fn(|r| self.0[MEAN + r])
    }

    /// `Σ (p − mean)·(p − mean)ᵀ`, three columns.
    #[inline]
    #[must_use]
    pub fn scatter(&self) -> [[f64; 3]; 3] {
        std::array::from_fn(|c| std::array::from_fn(|r| self.0[SCATTER + 3 * c + r]))
    }

    /// The record as it is stored.
    #[inline]
    #[must_use]
    pub const fn as_array(&self) -> &[f64; CENTRED] {
        &self.0
    }

    /// The numbers of frames that follow each other.
    #[inline]
    pub(crate) fn flattened(frames: &[Centred]) -> &[f64] {
        // SAFETY: a `Centred` is laid out as its array, so that as many numbers lie there, and they live as long.
        unsafe { std::slice::from_raw_parts(frames.as_ptr().cast(), frames.len() * CENTRED) }
    }

    /// The same of a set that may be missing.
    #[inline]
    pub(crate) fn optional(fixed: Option<&Centred>) -> &[f64] {
        fixed.map_or(&[], |fixed| fixed.as_array())
    }
}

/// A record that was stored, taken as it comes.
impl From<[f64; CENTRED]> for Centred {
    fn from(record: [f64; CENTRED]) -> Self {
        Centred(record)
    }
}

impl From<Centred> for [f64; CENTRED] {
    fn from(centred: Centred) -> Self {
        centred.0
    }
}

/// How a state moves points into the site, `p ↦ a·p + b`, with the derivatives by the state's parameters: `origin` is that of
/// `b`, and `axes[k]` that of column k of `a`, up to nine columns each.
///
/// # Examples
///
/// ```
/// use maghnelt::Action;
///
/// // A frame that may only be shifted along z.
/// let upright = [[1.0, 0.0, 0.0], [0.0, 1.0, 0.0], [0.0, 0.0, 1.0]];
/// let lift = Action::new(&upright, &[0.0, 0.0, 5.0], &[[0.0, 0.0, 1.0]], [&[[0.0; 3]]; 3]);
/// assert_eq!(lift.shift(), [0.0, 0.0, 5.0]);
/// ```
#[derive(Clone, Copy, Debug, PartialEq)]
#[repr(transparent)]
pub struct Action([f64; ACTION]);

impl Action {
    /// The action with matrix `a`, three columns, shift `b`, and these columns of derivatives. Columns that are not given are
    /// zeros; more than nine are cut off.
    #[must_use]
    pub fn new(
        a: &[[f64; 3]; 3],
        b: &[f64; 3],
        origin: &[[f64; 3]],
        axes: [&[[f64; 3]]; 3],
    ) -> Action {
        let mut action = [0.0; ACTION];
        action[..SHIFT].copy_from_slice(a.as_flattened());
        action[SHIFT..ORIGIN].copy_from_slice(b);
        let mut place = |from: usize, columns: &[[f64; 3]]| {
            let columns = columns[..columns.len().min(MAX_DOF)].as_flattened();
            action[from..from + columns.len()].copy_from_slice(columns);
        };
        place(ORIGIN, origin);
        for (k, axis) in axes.into_iter().enumerate() {
            place(AXES + COLUMNS * k, axis);
        }
        Action(action)
    }

    /// The action of a rigid motion `p ↦ R·p + t` with six parameters, a shift and then a turn, both in the frame's own axes:
    /// the derivative at the point `p` is `(R, −R·[p]×)`.
    ///
    /// # Examples
    ///
    /// ```
    /// use maghnelt::Action;
    ///
    /// let turn = [[0.0, 1.0, 0.0], [-1.0, 0.0, 0.0], [0.0, 0.0, 1.0]];
    /// let action = Action::rigid(&turn, &[1.0, 2.0, 3.0]);
    /// assert_eq!(action.matrix(), turn);
    /// ```
    #[must_use]
    pub fn rigid(rotation: &[[f64; 3]; 3], shift: &[f64; 3]) -> Action {
        let [x, y, z] = *rotation;
        let zero = [0.0; 3];
        let minus = |v: [f64; 3]| v.map(|x| -x);
        // Column c of −R·[e]× is −R·(e × e_c): a column of R with a sign, or zero.
        let about_x = [zero, zero, zero, zero, minus(z), y];
        let about_y = [zero, zero, zero, z, zero, minus(x)];
        let about_z = [zero, zero, zero, minus(y), x, zero];
        Action::new(rotation, shift, &[x, y, z], [&about_x, &about_y, &about_z])
    }

    /// The matrix, three columns.
    #[must_use]
    pub fn matrix(&self) -> [[f64; 3]; 3] {
        std::array::from_fn(|c| std::array::from_fn(|r| self.0[3 * c + r]))
    }

    /// The shift.
    #[must_use]
    pub fn shift(&self) -> [f64; 3] {
        std::array::from_fn(|r| self.0[SHIFT + r])
    }

    /// The numbers as they are handed to the library.
    #[inline]
    #[must_use]
    pub const fn as_array(&self) -> &[f64; ACTION] {
        &self.0
    }

    /// The numbers of actions that follow each other.
    #[inline]
    pub(crate) fn flattened(actions: &[Action]) -> &[f64] {
        // SAFETY: an `Action` is laid out as its array, so that as many numbers lie there, and they live as long.
        unsafe { std::slice::from_raw_parts(actions.as_ptr().cast(), actions.len() * ACTION) }
    }
}

/// Numbers in the library's order, taken as they come.
impl From<[f64; ACTION]> for Action {
    fn from(numbers: [f64; ACTION]) -> Self {
        Action(numbers)
    }
}

/// What a plane is fitted to, by [`frames_fit`].
#[derive(Clone, Copy, Debug, PartialEq)]
pub struct FitSums {
    /// The mean of all points in the site.
    pub mean: [f64; 3],
    /// Their scatter about it, three columns. It is neither divided by the number of points nor made symmetric: hand it to
    /// the decomposition as it is.
    pub scatter: [[f64; 3]; 3],
}

/// The mean and the scatter that a plane is fitted to: over the frames, each carried into the site by its action, and then
/// over the fixed set, which lies there already.
///
/// `dof` is the number of the actions' parameters; it is tested here, and counts only in the calls that take derivatives.
///
/// # Errors
///
/// [`Refusal::Dof`] above 9, [`Refusal::EmptyList`] without a frame, [`Refusal::Length`] with more than
/// [`MAX_FRAMES`](crate::MAX_FRAMES), [`Refusal::Actions`] if the actions are not as many as the frames.
///
/// # Examples
///
/// ```
/// use maghnelt::{frames_fit, Action, Centred};
///
/// # fn main() -> Result<(), maghnelt::Refusal> {
/// // Four corners of a square on the floor about (1, 1, 0), seen from a frame five metres up.
/// let corners = Centred::from([4.0, 1.0, 1.0, -5.0, 4.0, 0.0, 0.0, 0.0, 4.0, 0.0, 0.0, 0.0, 0.0]);
/// let upright = [[1.0, 0.0, 0.0], [0.0, 1.0, 0.0], [0.0, 0.0, 1.0]];
/// let action = Action::rigid(&upright, &[0.0, 0.0, 5.0]);
///
/// let sums = frames_fit(6, &[corners], None, &[action])?;
/// assert_eq!(sums.mean, [1.0, 1.0, 0.0]);
/// assert_eq!(sums.scatter, [[4.0, 0.0, 0.0], [0.0, 4.0, 0.0], [0.0, 0.0, 0.0]]);
/// # Ok(())
/// # }
/// ```
#[inline]
pub fn frames_fit(
    dof: u32,
    frames: &[Centred],
    fixed: Option<&Centred>,
    actions: &[Action],
) -> Result<FitSums, Refusal> {
    let mut out = [[0.0; 3]; 4];
    slices::frames_fit(
        dof,
        Centred::flattened(frames),
        Centred::optional(fixed),
        Action::flattened(actions),
        out.as_flattened_mut(),
    )?;
    let [mean, scatter @ ..] = out;
    Ok(FitSums { mean, scatter })
}
