//! Planes, and how sure the distance of a point from one is.

use crate::{slices, Refusal, PLANE};

/// A plane: the points `x` with `normal·x + offset = 0`.
///
/// [`Plane::new`] gives it a normal of length 1; one that is written out is taken as it comes.
#[derive(Clone, Copy, Debug, PartialEq)]
pub struct Plane {
    /// The normal.
    pub normal: [f64; 3],
    /// The offset.
    pub offset: f64,
}

impl Plane {
    /// The plane `normal·x + offset = 0` with its normal and offset divided by the normal's length. The offset is not
    /// tested.
    ///
    /// # Errors
    ///
    /// [`Refusal::Normal`] if the length of the normal, worked out as the root of the sum of squares, is not finite or not
    /// above 1e-12.
    ///
    /// # Examples
    ///
    /// ```
    /// use maghnelt::{Plane, Refusal};
    ///
    /// # fn main() -> Result<(), Refusal> {
    /// let plane = Plane::new([0.0, 3.0, 4.0], 10.0)?;
    /// assert_eq!(plane.normal, [0.0, 0.6, 0.8]);
    /// assert_eq!(plane.offset, 2.0);
    ///
    /// // The sum of squares overflows.
    /// assert_eq!(Plane::new([1e200, 0.0, 0.0], 0.0), Err(Refusal::Normal));
    /// # Ok(())
    /// # }
    /// ```
    #[inline]
    pub fn new(normal: [f64; 3], offset: f64) -> Result<Plane, Refusal> {
        let mut out = [0.0; PLANE];
        slices::plane_new(&normal, offset, &mut out)?;
        let [x, y, z, offset] = out;
        let normal = [x, y, z];
        Ok(Plane { normal, offset })
    }
}

/// The standard deviation of a point's distance from a plane, from the uncertainty of both:
/// `σ² = nᵀ·A·Σ_p·Aᵀ·n + j·Σ_π·jᵀ` with `j = (world − centroid, −n)`.
///
/// `plane_covariance` (Σ_π) is that of the plane's normal and centroid, six columns; `point_covariance` (Σ_p) that of the
/// point as the scanner saw it, three columns; `world` is the point in the site and `d_world_d_point` (A) its derivative
/// by the scanner's point, three columns.
///
/// # Errors
///
/// [`Refusal::Variance`] if the variance is not finite and positive.
///
/// # Examples
///
/// ```
/// use maghnelt::{point_to_plane_sigma, Plane, Refusal};
///
/// # fn main() -> Result<(), Refusal> {
/// let floor = Plane { normal: [0.0, 0.0, 1.0], offset: 0.0 };
/// let none = [[0.0; 6]; 6];
/// let upright = [[1.0, 0.0, 0.0], [0.0, 1.0, 0.0], [0.0, 0.0, 1.0]];
/// let two_along_z = [[1.0, 0.0, 0.0], [0.0, 1.0, 0.0], [0.0, 0.0, 4.0]];
/// let world = [3.0, 2.0, 0.0];
/// let sigma = point_to_plane_sigma(&floor, &[0.0; 3], &none, &two_along_z, &world, &upright)?;
/// assert_eq!(sigma, 2.0);
///
/// let certain = [[0.0; 3]; 3];
/// assert_eq!(
///     point_to_plane_sigma(&floor, &[0.0; 3], &none, &certain, &world, &upright),
///     Err(Refusal::Variance)
/// );
/// # Ok(())
/// # }
/// ```
#[inline]
pub fn point_to_plane_sigma(
    plane: &Plane,
    centroid: &[f64; 3],
    plane_covariance: &[[f64; 6]; 6],
    point_covariance: &[[f64; 3]; 3],
    world: &[f64; 3],
    d_world_d_point: &[[f64; 3]; 3],
) -> Result<f64, Refusal> {
    let [x, y, z] = plane.normal;
    let mut sigma = 0.0;
    slices::point_to_plane_sigma(
        &[x, y, z, plane.offset],
        centroid,
        plane_covariance.as_flattened(),
        point_covariance.as_flattened(),
        world,
        d_world_d_point.as_flattened(),
        &mut sigma,
    )?;
    Ok(sigma)
}
