//! Affine maps with derivative columns of any content, D degrees of freedom: what no pose leads to, as columns that overflow.

use crate::capability::ActsOnPoints3;
use crate::LieGroup;
use nalgebra::{Matrix3, SMatrix, Vector3};

/// p -> A p + b, with the derivatives `origin` + p_x `axes[0]` + p_y `axes[1]` + p_z `axes[2]`. Its parameters are these
/// matrices, column after column.
#[derive(Clone, Debug)]
pub struct Affine<const D: usize> {
    a: Matrix3<f64>,
    b: Vector3<f64>,
    origin: SMatrix<f64, 3, D>,
    axes: [SMatrix<f64, 3, D>; 3],
}

impl<const D: usize> Affine<D> {
    /// The number of parameters.
    pub const PARAMS: usize = 12 + 12 * D;
}

/// What lies at a point, given what lies at the origin and what each coordinate adds. A coordinate that is zero adds
/// nothing, so that an infinite column makes no NaN elsewhere.
fn at<const C: usize>(
    point: &Vector3<f64>,
    origin: &SMatrix<f64, 3, C>,
    axes: [SMatrix<f64, 3, C>; 3],
) -> SMatrix<f64, 3, C> {
    let mut sum = *origin;
    for (k, axis) in axes.iter().enumerate() {
        if point[k] != 0.0 {
            sum += axis * point[k];
        }
    }
    sum
}

impl<const D: usize> LieGroup for Affine<D> {
    type JacobianMatrix = SMatrix<f64, 3, D>;

    fn tangent_dim(&self) -> usize {
        D
    }

    fn zero_jacobian_for(&self) -> SMatrix<f64, 3, D> {
        SMatrix::zeros()
    }

    fn act(
        &self,
        point: &Vector3<f64>,
        by_self: Option<&mut SMatrix<f64, 3, D>>,
        by_point: Option<&mut Matrix3<f64>>,
    ) -> Vector3<f64> {
        if let Some(by_self) = by_self {
            *by_self = at(point, &self.origin, self.axes);
        }
        if let Some(by_point) = by_point {
            *by_point = self.a;
        }
        at(point, &self.b, [0, 1, 2].map(|k| self.a.column(k)))
    }

    fn from_param_slice(params: &[f64]) -> Self {
        let columns = |from: usize| SMatrix::from_fn(|row, column| params[from + 3 * column + row]);
        Affine {
            a: Matrix3::from_fn(|row, column| params[3 * column + row]),
            b: Vector3::from_fn(|row, _| params[9 + row]),
            origin: columns(12),
            axes: [0, 1, 2].map(|k| columns(12 + 3 * D * (k + 1))),
        }
    }
}

impl<const D: usize> ActsOnPoints3 for Affine<D> {
    const NAME: &'static str = "Affine";
    const DOF: usize = D;
}
