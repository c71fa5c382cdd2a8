//! The model of the calls on planes.

use super::{dot, stored_matrix, stored_vector, vector, Matrix, Vector, LENGTH, NORMAL, VARIANCE};
use maghnelt::PLANE;

/// What `point_to_plane_sigma` takes; the plane's offset has no part in it.
#[derive(Clone, Copy)]
pub struct Uncertain {
    /// The plane's normal.
    pub normal: Vector,
    /// The plane's centroid.
    pub centroid: Vector,
    /// The covariance of the plane's normal and centroid.
    pub plane_covariance: Matrix<6>,
    /// The covariance of the point.
    pub point_covariance: Matrix<3>,
    /// The point in the world.
    pub world: Vector,
    /// Its derivative by the point.
    pub d_world_d_point: Matrix<3>,
}

/// Column `column` of a matrix.
fn column<const N: usize>(matrix: Matrix<N>, column: usize) -> [f64; N] {
    std::array::from_fn(|row| matrix[row][column])
}

/// `Plane::new`: normal and offset divided by the normal's norm, which is to be finite and above 1e-12.
pub fn plane_new(normal: Vector, offset: f64) -> Option<(Vector, f64)> {
    let norm = dot(normal, normal).sqrt();
    let usable = norm.is_finite() && norm > 1e-12;
    usable.then(|| (vector(|r| normal[r] / norm), offset / norm))
}

/// The variance of the distance: nᵀ·A·P·Aᵀ·n + j·C·jᵀ, each from the left, with j = (world − centroid, −n).
pub fn variance(inputs: Uncertain) -> f64 {
    let n = inputs.normal;
    let a = inputs.d_world_d_point;
    let row = vector(|c| dot(n, column(a, c)));
    let row = vector(|c| dot(row, column(inputs.point_covariance, c)));
    // Column c of A's transpose is A's row c.
    let row = vector(|c| dot(row, a[c]));
    let point = dot(row, n);

    let j: [f64; 6] = std::array::from_fn(|r| match r {
        0..3 => inputs.world[r] - inputs.centroid[r],
        _ => -n[r - 3],
    });
    let row = std::array::from_fn(|c| dot(j, column(inputs.plane_covariance, c)));
    let plane = dot(row, j);
    point + plane
}

/// `point_to_plane_sigma`: the root of a variance that is finite and positive.
pub fn sigma(variance: f64) -> Option<f64> {
    (variance.is_finite() && variance > 0.0).then(|| variance.sqrt())
}

// The calls: lengths first. Each takes the function that works out its answer, so that a wrong one makes a wrong call.

/// The call `plane_new` on normal, offset (a slice of one number) and plane.
pub fn plane_new_call(
    plane_new: impl Fn(Vector, f64) -> Option<(Vector, f64)>,
) -> impl Fn([&mut [f64]; 3], &mut u32) -> u32 {
    move |[normal, offset, plane], _| {
        if normal.len() != 3 || plane.len() != PLANE {
            return LENGTH;
        }
        let Some((normal, offset)) = plane_new(stored_vector(normal), offset[0]) else {
            return NORMAL;
        };
        plane[..3].copy_from_slice(&normal);
        plane[3] = offset;
        0
    }
}

/// The call `point_to_plane_sigma` on its six slices and sigma (a slice of one number).
pub fn sigma_call(
    sigma: impl Fn(Uncertain) -> Option<f64>,
) -> impl Fn([&mut [f64]; 7], &mut u32) -> u32 {
    move |[plane, centroid, of_plane, of_point, world, d_world_d_point, out], _| {
        let lengths = [
            &plane,
            &centroid,
            &of_plane,
            &of_point,
            &world,
            &d_world_d_point,
        ];
        if lengths.map(|slice| slice.len()) != [PLANE, 3, 36, 9, 3, 9] {
            return LENGTH;
        }
        let inputs = Uncertain {
            normal: stored_vector(plane),
            centroid: stored_vector(centroid),
            plane_covariance: stored_matrix(of_plane),
            point_covariance: stored_matrix(of_point),
            world: stored_vector(world),
            d_world_d_point: stored_matrix(d_world_d_point),
        };
        match sigma(inputs) {
            Some(sigma) => {
                out[0] = sigma;
                0
            }
            None => VARIANCE,
        }
    }
}
