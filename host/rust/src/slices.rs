//! The calls as C makes them, on slices of any length: for lists whose lengths are known only when the program runs.
//! The types and functions at the root of the crate stand above these functions, and give every slice the length that it
//! must have.
//!
//! A call that is refused has written nothing, neither to a slice nor to a single number. Matrices are handed over column
//! after column. Where a call may find nothing, `found` becomes 1 or 0, and with 0 the output is left as it was.

// Each `unsafe` block below is sound for one reason. Every slice goes over as its own pointer and length, so that the
// pointer is non-null and aligned and that many numbers are there; a slice or number that is written is borrowed for
// that alone, so that it overlaps no other argument. The functions are proved to end for every argument and to
// write nothing else.

use crate::ffi;
use crate::Refusal;

/// Writes the moments of `points`, three numbers a point, to `moments`.
///
/// # Errors
///
/// [`Refusal::Length`]: `points` is not whole points or more than [`MAX_POINTS`](crate::MAX_POINTS), or `moments` has not
/// [`MOMENTS`](crate::MOMENTS) numbers.
#[inline]
pub fn moments_from_points(points: &[f64], moments: &mut [f64]) -> Result<(), Refusal> {
    // SAFETY: as said at the head of this file.
    Refusal::of_answer(unsafe {
        ffi::maghnelt_moments_from_points(
            points.as_ptr(),
            points.len(),
            moments.as_mut_ptr(),
            moments.len(),
        )
    })
}

/// Adds one point, three numbers, to `moments`.
///
/// # Errors
///
/// [`Refusal::Length`]: `moments` has not [`MOMENTS`](crate::MOMENTS) numbers, or `point` not 3; then
/// [`Refusal::Saturated`]: the count is at or above [`MAX_COUNT`](crate::MAX_COUNT), +infinity too; a NaN is not refused.
///
/// # Examples
///
/// ```
/// use maghnelt::{slices, Refusal, MAX_COUNT, MOMENTS};
///
/// let mut moments = [0.0; MOMENTS];
/// moments[0] = MAX_COUNT - 1.0;
/// assert_eq!(slices::moments_push(&mut moments, &[1.0, 2.0, 3.0]), Ok(()));
/// assert_eq!(moments[..4], [MAX_COUNT, 1.0, 2.0, 3.0]);
///
/// let full = moments;
/// assert_eq!(slices::moments_push(&mut moments, &[1.0, 2.0, 3.0]), Err(Refusal::Saturated));
/// assert_eq!(moments, full);
/// ```
#[inline]
pub fn moments_push(moments: &mut [f64], point: &[f64]) -> Result<(), Refusal> {
    // SAFETY: as said at the head of this file.
    Refusal::of_answer(unsafe {
        ffi::maghnelt_moments_push(
            moments.as_mut_ptr(),
            moments.len(),
            point.as_ptr(),
            point.len(),
        )
    })
}

/// Adds the moments `other` to `moments`.
///
/// # Errors
///
/// [`Refusal::Length`]: one of the two has not [`MOMENTS`](crate::MOMENTS) numbers; then [`Refusal::Saturated`]: the exact sum
/// of the two counts is above [`MAX_COUNT`](crate::MAX_COUNT), also where the rounded sum is not. An infinite count is above or
/// below every number by its sign; two opposite infinities are not refused, and no NaN is.
///
/// # Examples
///
/// ```
/// use maghnelt::{slices, Refusal, MAX_COUNT, MOMENTS};
///
/// let mut moments = [0.0; MOMENTS];
/// moments[0] = MAX_COUNT - 1.0;
/// let mut other = [0.0; MOMENTS];
/// other[0] = 1.5;
///
/// // Half a point too many, though the sum is rounded to MAX_COUNT.
/// let before = moments;
/// assert_eq!(slices::moments_merge(&mut moments, &other), Err(Refusal::Saturated));
/// assert_eq!(moments, before);
///
/// other[0] = 1.0;
/// assert_eq!(slices::moments_merge(&mut moments, &other), Ok(()));
/// assert_eq!(moments[0], MAX_COUNT);
/// ```
#[inline]
pub fn moments_merge(moments: &mut [f64], other: &[f64]) -> Result<(), Refusal> {
    // SAFETY: as said at the head of this file.
    Refusal::of_answer(unsafe {
        ffi::maghnelt_moments_merge(
            moments.as_mut_ptr(),
            moments.len(),
            other.as_ptr(),
            other.len(),
        )
    })
}

/// Writes to `out` the moments of the points moved by `p ↦ a·p + b`, `a` being nine numbers and `b` three.
///
/// # Errors
///
/// [`Refusal::Length`]: `moments` or `out` has not [`MOMENTS`](crate::MOMENTS) numbers, `a` not 9 or `b` not 3.
#[inline]
pub fn moments_transformed(
    moments: &[f64],
    a: &[f64],
    b: &[f64],
    out: &mut [f64],
) -> Result<(), Refusal> {
    // SAFETY: as said at the head of this file.
    Refusal::of_answer(unsafe {
        ffi::maghnelt_moments_transformed(
            moments.as_ptr(),
            moments.len(),
            a.as_ptr(),
            a.len(),
            b.as_ptr(),
            b.len(),
            out.as_mut_ptr(),
            out.len(),
        )
    })
}

/// Writes mean (3) and scatter (9) to `out`; nothing is found where the count is at or below 0.
///
/// # Errors
///
/// [`Refusal::Length`]: `moments` has not [`MOMENTS`](crate::MOMENTS) numbers, or `out` not 12.
#[inline]
pub fn moments_mean_and_scatter(
    moments: &[f64],
    out: &mut [f64],
    found: &mut u32,
) -> Result<(), Refusal> {
    // SAFETY: as said at the head of this file.
    Refusal::of_answer(unsafe {
        ffi::maghnelt_moments_mean_and_scatter(
            moments.as_ptr(),
            moments.len(),
            out.as_mut_ptr(),
            out.len(),
            found,
        )
    })
}

/// Writes normal (3), offset and the rising eigenvalues (3) of the fitted plane to `out`, given the decomposition of the
/// scatter; nothing is found with fewer than three points or without one axis of least scatter.
///
/// # Errors
///
/// [`Refusal::Length`]: `moments` has not [`MOMENTS`](crate::MOMENTS) numbers, `decomposition` not
/// [`DECOMPOSITION`](crate::DECOMPOSITION) or `out` not 7.
#[inline]
pub fn moments_plane(
    moments: &[f64],
    decomposition: &[f64],
    out: &mut [f64],
    found: &mut u32,
) -> Result<(), Refusal> {
    // SAFETY: as said at the head of this file.
    Refusal::of_answer(unsafe {
        ffi::maghnelt_moments_plane(
            moments.as_ptr(),
            moments.len(),
            decomposition.as_ptr(),
            decomposition.len(),
            out.as_mut_ptr(),
            out.len(),
            found,
        )
    })
}

/// Writes the list `moments` to `card` in the order of a card: number f of record r of a whole group of
/// [`GROUP`](crate::GROUP) records goes to place `GROUP * f + r` of the group's numbers, and a last shorter group is left in
/// record order. Numbers keep their bits, NaNs too.
///
/// # Errors
///
/// [`Refusal::Length`]: `moments` is not whole records of [`MOMENTS`](crate::MOMENTS) numbers or more than
/// [`MAX_RECORDS`](crate::MAX_RECORDS), or `card` has another length than `moments`.
///
/// # Examples
///
/// ```
/// use maghnelt::{slices, GROUP, MOMENTS};
///
/// # fn main() -> Result<(), maghnelt::Refusal> {
/// // One group. Every number of a record is the number of its record.
/// let moments: [f64; GROUP * MOMENTS] = std::array::from_fn(|place| (place / MOMENTS) as f64);
/// let mut card = [0.0; GROUP * MOMENTS];
/// slices::card_write(&moments, &mut card)?;
/// assert_eq!(card[..GROUP], [0.0, 1.0, 2.0, 3.0, 4.0, 5.0, 6.0, 7.0]);
/// # Ok(())
/// # }
/// ```
#[inline]
pub fn card_write(moments: &[f64], card: &mut [f64]) -> Result<(), Refusal> {
    // SAFETY: as said at the head of this file.
    Refusal::of_answer(unsafe {
        ffi::maghnelt_card_write(
            moments.as_ptr(),
            moments.len(),
            card.as_mut_ptr(),
            card.len(),
        )
    })
}

/// Writes the list that `card` stores to `moments`: the inverse of [`card_write`], bit for bit in both directions.
///
/// # Errors
///
/// [`Refusal::Length`]: `card` is not whole records of [`MOMENTS`](crate::MOMENTS) numbers or more than
/// [`MAX_RECORDS`](crate::MAX_RECORDS), or `moments` has another length than `card`.
///
/// # Examples
///
/// ```
/// use maghnelt::{slices, GROUP, MOMENTS};
///
/// # fn main() -> Result<(), maghnelt::Refusal> {
/// let card: [f64; GROUP * MOMENTS] = std::array::from_fn(|place| place as f64);
/// let mut moments = [0.0; GROUP * MOMENTS];
/// slices::card_read(&card, &mut moments)?;
/// // The second record of the group: its numbers stand GROUP places apart on the card.
/// assert_eq!(moments[MOMENTS..][..4], [1.0, 9.0, 17.0, 25.0]);
/// # Ok(())
/// # }
/// ```
#[inline]
pub fn card_read(card: &[f64], moments: &mut [f64]) -> Result<(), Refusal> {
    // SAFETY: as said at the head of this file.
    Refusal::of_answer(unsafe {
        ffi::maghnelt_card_read(
            card.as_ptr(),
            card.len(),
            moments.as_mut_ptr(),
            moments.len(),
        )
    })
}

/// Writes the unit normal and the offset of the plane `normal·x + offset = 0` to `plane`.
///
/// # Errors
///
/// [`Refusal::Length`]: `normal` has not 3 numbers, or `plane` not [`PLANE`](crate::PLANE); then [`Refusal::Normal`].
#[inline]
pub fn plane_new(normal: &[f64], offset: f64, plane: &mut [f64]) -> Result<(), Refusal> {
    // SAFETY: as said at the head of this file.
    Refusal::of_answer(unsafe {
        ffi::maghnelt_plane_new(
            normal.as_ptr(),
            normal.len(),
            offset,
            plane.as_mut_ptr(),
            plane.len(),
        )
    })
}

/// Writes the standard deviation of a point-to-plane residual to `sigma`.
///
/// # Errors
///
/// [`Refusal::Length`]: `plane` has not [`PLANE`](crate::PLANE) numbers, `centroid` or `world` not 3, `plane_covariance`
/// not 36, `point_covariance` or `d_world_d_point` not 9; then [`Refusal::Variance`].
#[inline]
pub fn point_to_plane_sigma(
    plane: &[f64],
    centroid: &[f64],
    plane_covariance: &[f64],
    point_covariance: &[f64],
    world: &[f64],
    d_world_d_point: &[f64],
    sigma: &mut f64,
) -> Result<(), Refusal> {
    // SAFETY: as said at the head of this file.
    Refusal::of_answer(unsafe {
        ffi::maghnelt_point_to_plane_sigma(
            plane.as_ptr(),
            plane.len(),
            centroid.as_ptr(),
            centroid.len(),
            plane_covariance.as_ptr(),
            plane_covariance.len(),
            point_covariance.as_ptr(),
            point_covariance.len(),
            world.as_ptr(),
            world.len(),
            d_world_d_point.as_ptr(),
            d_world_d_point.len(),
            sigma,
        )
    })
}

/// Writes to `out` the map that an index list makes of a block map: the map's word at the place that a word of `list` names,
/// and [`UNMAPPED`](crate::UNMAPPED) where it names none or one past the map's end.
///
/// # Errors
///
/// [`Refusal::Length`]: `map` or `list` has more than [`MAX_WORDS`](crate::MAX_WORDS) words, or `out` another length than
/// `list`; then [`Refusal::MapWord`] for a word of the two above [`UNMAPPED`](crate::UNMAPPED).
#[inline]
pub fn remap(map: &[u32], list: &[u32], out: &mut [u32]) -> Result<(), Refusal> {
    // SAFETY: as said at the head of this file.
    Refusal::of_answer(unsafe {
        ffi::maghnelt_remap(
            map.as_ptr(),
            map.len(),
            list.as_ptr(),
            list.len(),
            out.as_mut_ptr(),
            out.len(),
        )
    })
}

/// Writes to `out_shapes` and `out_transforms` the transforms beside `map` with a further one at `place`: there the product
/// of the further one with the one that was there, or the further one itself where there was none, and zeros behind it;
/// at every other word shape and 81 numbers as they came. Where `shapes` and `transforms` are empty, no word had one. A
/// place past the map's end changes no word.
///
/// A word's shape is its transform's rows and columns, both [`NO_TRANSFORM`](crate::NO_TRANSFORM) for none, and
/// `further_shape` is the further one's. T(r, c) is number rows·c + r of the [`TRANSFORM`](crate::TRANSFORM) numbers; no
/// answer depends on those behind its last column.
///
/// # Errors
///
/// [`Refusal::Dof`]; [`Refusal::Length`]: `map` has more than [`MAX_WORDS`](crate::MAX_WORDS) words, `shapes` and
/// `transforms` are neither both empty nor 2 and [`TRANSFORM`](crate::TRANSFORM) numbers for each word, the outputs are not
/// as long as the latter, `further_shape` has not 2 numbers or `further` not [`TRANSFORM`](crate::TRANSFORM); then
/// [`Refusal::MapWord`]; [`Refusal::Transform`]: a word's transform has more than 9 columns, or the further one has, or its
/// rows are not `dof`, or its columns are not as many as the rows of the transform at `place`.
///
/// # Examples
///
/// ```
/// use maghnelt::{slices, NO_TRANSFORM, TRANSFORM};
///
/// # fn main() -> Result<(), maghnelt::Refusal> {
/// // Two frames of three parameters each. Of the second only the last two are left.
/// let mut further = [0.0; TRANSFORM];
/// further[..6].copy_from_slice(&[0.0, 1.0, 0.0, 0.0, 0.0, 1.0]);
/// let mut shapes = [0; 4];
/// let mut transforms = [0.0; 2 * TRANSFORM];
/// slices::transform(3, &[0, 3], &[], &[], 1, &[3, 2], &further, &mut shapes, &mut transforms)?;
/// assert_eq!(shapes, [NO_TRANSFORM, NO_TRANSFORM, 3, 2]);
/// assert_eq!(transforms[TRANSFORM..], further);
/// # Ok(())
/// # }
/// ```
#[allow(clippy::too_many_arguments)]
#[inline]
pub fn transform(
    dof: u32,
    map: &[u32],
    shapes: &[u32],
    transforms: &[f64],
    place: u32,
    further_shape: &[u32],
    further: &[f64],
    out_shapes: &mut [u32],
    out_transforms: &mut [f64],
) -> Result<(), Refusal> {
    // SAFETY: as said at the head of this file.
    Refusal::of_answer(unsafe {
        ffi::maghnelt_transform(
            dof,
            map.as_ptr(),
            map.len(),
            shapes.as_ptr(),
            shapes.len(),
            transforms.as_ptr(),
            transforms.len(),
            place,
            further_shape.as_ptr(),
            further_shape.len(),
            further.as_ptr(),
            further.len(),
            out_shapes.as_mut_ptr(),
            out_shapes.len(),
            out_transforms.as_mut_ptr(),
            out_transforms.len(),
        )
    })
}

/// Centres the moments `frames` and `fixed`, which is empty where there is none, into `centred_frames` and `centred_fixed`,
/// and writes the number of points. A fixed set of a count at or below 0 is dropped: `fixed_dropped` becomes 1, otherwise 0,
/// and `centred_fixed` is left as it was.
///
/// # Errors
///
/// [`Refusal::Dof`]; [`Refusal::EmptyList`]: there is no frame; [`Refusal::Length`]: `frames` is not whole records of
/// [`MOMENTS`](crate::MOMENTS) numbers or more than [`MAX_FRAMES`](crate::MAX_FRAMES), `fixed` is neither empty nor one such
/// record, or an output has not [`CENTRED`](crate::CENTRED) numbers for each; then [`Refusal::FrameCount`],
/// [`Refusal::TotalCount`], [`Refusal::NotFinite`] and [`Refusal::Sigma`].
#[allow(clippy::too_many_arguments)]
#[inline]
pub fn frames_build(
    dof: u32,
    frames: &[f64],
    fixed: &[f64],
    sigma: f64,
    centred_frames: &mut [f64],
    centred_fixed: &mut [f64],
    points: &mut f64,
    fixed_dropped: &mut u32,
) -> Result<(), Refusal> {
    // SAFETY: as said at the head of this file.
    Refusal::of_answer(unsafe {
        ffi::maghnelt_frames_build(
            dof,
            frames.as_ptr(),
            frames.len(),
            fixed.as_ptr(),
            fixed.len(),
            sigma,
            centred_frames.as_mut_ptr(),
            centred_frames.len(),
            centred_fixed.as_mut_ptr(),
            centred_fixed.len(),
            points,
            fixed_dropped,
        )
    })
}

/// [`frames_build`] by the survey rule: a fixed set of a count below 0 is refused, and [`Refusal::TotalCount`] counts only
/// sets that are kept. Unless the answer is [`Refusal::FixedCount`], it is that of [`frames_build`], and so is all that is
/// written.
///
/// # Errors
///
/// [`Refusal::Dof`]; [`Refusal::EmptyList`]; [`Refusal::Length`], as there; then [`Refusal::FixedCount`],
/// [`Refusal::FrameCount`], [`Refusal::TotalCount`], [`Refusal::NotFinite`] and [`Refusal::Sigma`].
#[allow(clippy::too_many_arguments)]
#[inline]
pub fn frames_build_strict(
    dof: u32,
    frames: &[f64],
    fixed: &[f64],
    sigma: f64,
    centred_frames: &mut [f64],
    centred_fixed: &mut [f64],
    points: &mut f64,
    fixed_dropped: &mut u32,
) -> Result<(), Refusal> {
    // SAFETY: as said at the head of this file.
    Refusal::of_answer(unsafe {
        ffi::maghnelt_frames_build_strict(
            dof,
            frames.as_ptr(),
            frames.len(),
            fixed.as_ptr(),
            fixed.len(),
            sigma,
            centred_frames.as_mut_ptr(),
            centred_frames.len(),
            centred_fixed.as_mut_ptr(),
            centred_fixed.len(),
            points,
            fixed_dropped,
        )
    })
}

/// Writes mean (3) and scatter (9) of what a plane is fitted to to `out`: the centred `frames`, each carried by its action,
/// and then the `fixed` set, which is empty where there is none.
///
/// # Errors
///
/// [`Refusal::Dof`]; [`Refusal::EmptyList`]: there is no frame; [`Refusal::Length`]: `frames` is not whole frames of
/// [`CENTRED`](crate::CENTRED) numbers or more than [`MAX_FRAMES`](crate::MAX_FRAMES), `fixed` is neither empty nor one such
/// frame, or `out` has not 12 numbers; [`Refusal::Actions`]: the actions are not [`ACTION`](crate::ACTION) numbers for each
/// frame.
#[inline]
pub fn frames_fit(
    dof: u32,
    frames: &[f64],
    fixed: &[f64],
    actions: &[f64],
    out: &mut [f64],
) -> Result<(), Refusal> {
    // SAFETY: as said at the head of this file.
    Refusal::of_answer(unsafe {
        ffi::maghnelt_frames_fit(
            dof,
            frames.as_ptr(),
            frames.len(),
            fixed.as_ptr(),
            fixed.len(),
            actions.as_ptr(),
            actions.len(),
            out.as_mut_ptr(),
            out.len(),
        )
    })
}

/// Fits the plane by the decomposition of what [`frames_fit`] gave, adds the frames' normal equations to `hessian`, column
/// after column, and `gradient`, at the offsets that `map` gives, and writes their cost. Without a plane the cost is 0 and
/// nothing else is written. Where nothing but the cost is wanted, `map`, `hessian` and `gradient` are empty.
///
/// # Errors
///
/// [`Refusal::Dof`]; [`Refusal::EmptyList`]; [`Refusal::Length`]: as in [`frames_fit`], or `decomposition` has not
/// [`DECOMPOSITION`](crate::DECOMPOSITION) numbers, `map` more than [`MAX_WORDS`](crate::MAX_WORDS) words, `gradient` more
/// than [`MAX_ORDER`](crate::MAX_ORDER) numbers, or `hessian` not its square; then [`Refusal::Sigma`],
/// [`Refusal::Actions`], [`Refusal::MapWord`] and [`Refusal::Segment`].
#[allow(clippy::too_many_arguments)]
#[inline]
pub fn frames_accumulate(
    dof: u32,
    frames: &[f64],
    fixed: &[f64],
    sigma: f64,
    actions: &[f64],
    decomposition: &[f64],
    map: &[u32],
    hessian: &mut [f64],
    gradient: &mut [f64],
    cost: &mut f64,
) -> Result<(), Refusal> {
    // SAFETY: as said at the head of this file.
    Refusal::of_answer(unsafe {
        ffi::maghnelt_frames_accumulate(
            dof,
            frames.as_ptr(),
            frames.len(),
            fixed.as_ptr(),
            fixed.len(),
            sigma,
            actions.as_ptr(),
            actions.len(),
            decomposition.as_ptr(),
            decomposition.len(),
            map.as_ptr(),
            map.len(),
            hessian.as_mut_ptr(),
            hessian.len(),
            gradient.as_mut_ptr(),
            gradient.len(),
            cost,
        )
    })
}

/// [`frames_accumulate`] with transforms beside the map: a frame whose word has a transform T adds Tᵀ·M·T and Tᵀ·v in place
/// of its block M and its vector v, so that its segment has as many rows as T has columns. `shapes` and `transforms` are as
/// in [`transform`]; where they are empty, this is [`frames_accumulate`].
///
/// # Errors
///
/// As [`frames_accumulate`], [`Refusal::Length`] also if `shapes` and `transforms` are neither both empty nor 2 and
/// [`TRANSFORM`](crate::TRANSFORM) numbers for each word of `map`. Between [`Refusal::MapWord`] and [`Refusal::Segment`]
/// comes [`Refusal::Transform`]: some word, also one of no frame, has a transform of more than 9 columns or of other than
/// `dof` rows.
#[allow(clippy::too_many_arguments)]
#[inline]
pub fn frames_accumulate_transformed(
    dof: u32,
    frames: &[f64],
    fixed: &[f64],
    sigma: f64,
    actions: &[f64],
    decomposition: &[f64],
    map: &[u32],
    shapes: &[u32],
    transforms: &[f64],
    hessian: &mut [f64],
    gradient: &mut [f64],
    cost: &mut f64,
) -> Result<(), Refusal> {
    // SAFETY: as said at the head of this file.
    Refusal::of_answer(unsafe {
        ffi::maghnelt_frames_accumulate_transformed(
            dof,
            frames.as_ptr(),
            frames.len(),
            fixed.as_ptr(),
            fixed.len(),
            sigma,
            actions.as_ptr(),
            actions.len(),
            decomposition.as_ptr(),
            decomposition.len(),
            map.as_ptr(),
            map.len(),
            shapes.as_ptr(),
            shapes.len(),
            transforms.as_ptr(),
            transforms.len(),
            hessian.as_mut_ptr(),
            hessian.len(),
            gradient.as_mut_ptr(),
            gradient.len(),
            cost,
        )
    })
}

/// Writes four residuals for each frame and four for the fixed set and, if `jacobian` is not empty, their derivatives: as many
/// rows, and `dof` columns for each frame, column after column. Without a plane they are all zeros. `decompositions` has the
/// fit's, then one for each frame's scatter, then the fixed set's if there is one.
///
/// # Errors
///
/// [`Refusal::Dof`]; [`Refusal::EmptyList`]; [`Refusal::Length`]: as in [`frames_fit`], or `decompositions`, `residual` or
/// `jacobian` has another length; then [`Refusal::Sigma`] and [`Refusal::Actions`].
#[allow(clippy::too_many_arguments)]
#[inline]
pub fn frames_linearize(
    dof: u32,
    frames: &[f64],
    fixed: &[f64],
    sigma: f64,
    actions: &[f64],
    decompositions: &[f64],
    residual: &mut [f64],
    jacobian: &mut [f64],
) -> Result<(), Refusal> {
    // SAFETY: as said at the head of this file.
    Refusal::of_answer(unsafe {
        ffi::maghnelt_frames_linearize(
            dof,
            frames.as_ptr(),
            frames.len(),
            fixed.as_ptr(),
            fixed.len(),
            sigma,
            actions.as_ptr(),
            actions.len(),
            decompositions.as_ptr(),
            decompositions.len(),
            residual.as_mut_ptr(),
            residual.len(),
            jacobian.as_mut_ptr(),
            jacobian.len(),
        )
    })
}

/// Writes the centroid (3) of a bundle's points and their scatter about it (9), divided by the number of points, to
/// `out`. `counts` has each frame's number of points, `points` the frames' points in the site, frame after frame, and
/// `fixed` points that are known there; three numbers a point.
///
/// # Errors
///
/// [`Refusal::EmptyList`]: there is no count; [`Refusal::Length`]: there are more than
/// [`MAX_FRAMES`](crate::MAX_FRAMES) counts, or more than [`MAX_POINTS`](crate::MAX_POINTS) points with the fixed ones,
/// `points` are not as many as the counts say, `fixed` is not whole points, or `out` has not 12 numbers; then
/// [`Refusal::FrameCount`], [`Refusal::TotalCount`] and [`Refusal::NotFinite`].
#[inline]
pub fn bundle_fit(
    counts: &[u32],
    points: &[f64],
    fixed: &[f64],
    out: &mut [f64],
) -> Result<(), Refusal> {
    // SAFETY: as said at the head of this file.
    Refusal::of_answer(unsafe {
        ffi::maghnelt_bundle_fit(
            counts.as_ptr(),
            counts.len(),
            points.as_ptr(),
            points.len(),
            fixed.as_ptr(),
            fixed.len(),
            out.as_mut_ptr(),
            out.len(),
        )
    })
}

/// Writes a residual for each point of a bundle, the fixed ones last, and, if `jacobian` is not empty, their
/// derivatives: as many rows, and `dof` columns for each frame, column after column. Without a plane they are all
/// zeros. `d_state` has `dof` columns of three numbers for each of `points`, and `decomposition` is that of the scatter
/// that [`bundle_fit`] gave.
///
/// # Errors
///
/// [`Refusal::Dof`]; [`Refusal::EmptyList`]; [`Refusal::Length`]: as in [`bundle_fit`], or `d_state`, `decomposition`,
/// `residual` or `jacobian` has another length; then [`Refusal::FrameCount`], [`Refusal::TotalCount`],
/// [`Refusal::NotFinite`], for points and fixed points alone, and [`Refusal::Sigma`].
#[allow(clippy::too_many_arguments)]
#[inline]
pub fn bundle_linearize(
    dof: u32,
    counts: &[u32],
    points: &[f64],
    d_state: &[f64],
    fixed: &[f64],
    sigma: f64,
    decomposition: &[f64],
    residual: &mut [f64],
    jacobian: &mut [f64],
) -> Result<(), Refusal> {
    // SAFETY: as said at the head of this file.
    Refusal::of_answer(unsafe {
        ffi::maghnelt_bundle_linearize(
            dof,
            counts.as_ptr(),
            counts.len(),
            points.as_ptr(),
            points.len(),
            d_state.as_ptr(),
            d_state.len(),
            fixed.as_ptr(),
            fixed.len(),
            sigma,
            decomposition.as_ptr(),
            decomposition.len(),
            residual.as_mut_ptr(),
            residual.len(),
            jacobian.as_mut_ptr(),
            jacobian.len(),
        )
    })
}

/// Adds the normal equations of a list of matches to `hessian`, column after column, and `gradient`, at the offset that word
/// 0 of `map` gives, and writes their cost. Where nothing but the cost is wanted, `map`, `hessian` and `gradient` are empty.
///
/// # Errors
///
/// [`Refusal::Dof`]; [`Refusal::EmptyList`]: there is no match; [`Refusal::Length`]: `matches` is not whole records of
/// [`MATCH`](crate::MATCH) numbers or more than [`MAX_MATCHES`](crate::MAX_MATCHES), `map` has more than
/// [`MAX_WORDS`](crate::MAX_WORDS) words, `gradient` more than [`MAX_ORDER`](crate::MAX_ORDER) numbers, or `hessian` not its
/// square; then of the first bad match [`Refusal::NotFinite`] or [`Refusal::Sigma`]; [`Refusal::Actions`]: `action` has not
/// [`ACTION`](crate::ACTION) numbers; then [`Refusal::MapWord`] and [`Refusal::Segment`].
#[inline]
pub fn matches_accumulate(
    dof: u32,
    matches: &[f64],
    action: &[f64],
    map: &[u32],
    hessian: &mut [f64],
    gradient: &mut [f64],
    cost: &mut f64,
) -> Result<(), Refusal> {
    // SAFETY: as said at the head of this file.
    Refusal::of_answer(unsafe {
        ffi::maghnelt_matches_accumulate(
            dof,
            matches.as_ptr(),
            matches.len(),
            action.as_ptr(),
            action.len(),
            map.as_ptr(),
            map.len(),
            hessian.as_mut_ptr(),
            hessian.len(),
            gradient.as_mut_ptr(),
            gradient.len(),
            cost,
        )
    })
}

/// [`matches_accumulate`] with transforms beside the map: if word 0 has a transform T, the list adds Tᵀ·M·T and Tᵀ·v in place
/// of its block M and its vector v, so that its segment has as many rows as T has columns. `shapes` and `transforms` are as
/// in [`transform`]; where they are empty, this is [`matches_accumulate`].
///
/// # Errors
///
/// As [`matches_accumulate`], [`Refusal::Length`] also if `shapes` and `transforms` are neither both empty nor 2 and
/// [`TRANSFORM`](crate::TRANSFORM) numbers for each word of `map`. Between [`Refusal::MapWord`] and [`Refusal::Segment`]
/// comes [`Refusal::Transform`]: some word of `map`, not only the first, has a transform of more than 9 columns or of other
/// than `dof` rows.
#[allow(clippy::too_many_arguments)]
#[inline]
pub fn matches_accumulate_transformed(
    dof: u32,
    matches: &[f64],
    action: &[f64],
    map: &[u32],
    shapes: &[u32],
    transforms: &[f64],
    hessian: &mut [f64],
    gradient: &mut [f64],
    cost: &mut f64,
) -> Result<(), Refusal> {
    // SAFETY: as said at the head of this file.
    Refusal::of_answer(unsafe {
        ffi::maghnelt_matches_accumulate_transformed(
            dof,
            matches.as_ptr(),
            matches.len(),
            action.as_ptr(),
            action.len(),
            map.as_ptr(),
            map.len(),
            shapes.as_ptr(),
            shapes.len(),
            transforms.as_ptr(),
            transforms.len(),
            hessian.as_mut_ptr(),
            hessian.len(),
            gradient.as_mut_ptr(),
            gradient.len(),
            cost,
        )
    })
}

/// Writes the residual of each match and, if `jacobian` is not empty, its derivatives: a row for each match and `dof`
/// columns, column after column.
///
/// # Errors
///
/// As [`matches_accumulate`] up to [`Refusal::Actions`]; [`Refusal::Length`] also if `residual` has not a number for each
/// match, or `jacobian` neither none nor `dof` for each.
#[inline]
pub fn matches_linearize(
    dof: u32,
    matches: &[f64],
    action: &[f64],
    residual: &mut [f64],
    jacobian: &mut [f64],
) -> Result<(), Refusal> {
    // SAFETY: as said at the head of this file.
    Refusal::of_answer(unsafe {
        ffi::maghnelt_matches_linearize(
            dof,
            matches.as_ptr(),
            matches.len(),
            action.as_ptr(),
            action.len(),
            residual.as_mut_ptr(),
            residual.len(),
            jacobian.as_mut_ptr(),
            jacobian.len(),
        )
    })
}

/// Writes the residual of one match below its chain and, if `row` is not empty, its derivatives: `dof` by the state and 6 by
/// the extrinsic. `world` is the point where the chain carries it (3), `d_state` and `d_extrinsic` its derivatives, three
/// numbers a column.
///
/// # Errors
///
/// [`Refusal::Dof`]; [`Refusal::EmptyList`]: `record` is empty; [`Refusal::Length`]: it has not [`MATCH`](crate::MATCH)
/// numbers, `world` not 3, `d_state` not 3 for each of the dof, `d_extrinsic` not 18, or `row` neither none nor dof + 6; then
/// [`Refusal::NotFinite`], for the match's own point alone, and [`Refusal::Sigma`].
#[inline]
pub fn match_linearize(
    dof: u32,
    record: &[f64],
    world: &[f64],
    d_state: &[f64],
    d_extrinsic: &[f64],
    residual: &mut f64,
    row: &mut [f64],
) -> Result<(), Refusal> {
    // SAFETY: as said at the head of this file.
    Refusal::of_answer(unsafe {
        ffi::maghnelt_match_linearize(
            dof,
            record.as_ptr(),
            record.len(),
            world.as_ptr(),
            world.len(),
            d_state.as_ptr(),
            d_state.len(),
            d_extrinsic.as_ptr(),
            d_extrinsic.len(),
            residual,
            row.as_mut_ptr(),
            row.len(),
        )
    })
}
