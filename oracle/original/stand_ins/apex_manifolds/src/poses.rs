//! Rotations, poses, poses with a velocity and poses with a scale, by a quaternion; derivatives by a perturbation from the
//! right.

use crate::capability::ActsOnPoints3;
use crate::LieGroup;
use nalgebra::{Matrix3, SMatrix, Vector3};

/// The matrix of the cross product with a vector.
pub fn skew(v: &Vector3<f64>) -> Matrix3<f64> {
    Matrix3::from_columns(&[
        Vector3::new(0.0, v.z, -v.y),
        Vector3::new(-v.z, 0.0, v.x),
        Vector3::new(v.y, -v.x, 0.0),
    ])
}

/// The rotation of a quaternion w, x, y, z of any length but 0.
fn rotation(quaternion: &[f64]) -> Matrix3<f64> {
    let [w, x, y, z] = std::array::from_fn(|k| quaternion[k]);
    let s = 2.0 / (w * w + x * x + y * y + z * z);
    Matrix3::from_columns(&[
        Vector3::new(
            1.0 - s * (y * y + z * z),
            s * (x * y + w * z),
            s * (x * z - w * y),
        ),
        Vector3::new(
            s * (x * y - w * z),
            1.0 - s * (x * x + z * z),
            s * (y * z + w * x),
        ),
        Vector3::new(
            s * (x * z + w * y),
            s * (y * z - w * x),
            1.0 - s * (x * x + y * y),
        ),
    ])
}

/// The derivative of a rotated point by a turn from the right.
fn by_turn(rotation: &Matrix3<f64>, point: &Vector3<f64>) -> Matrix3<f64> {
    -(rotation * skew(point))
}

/// Declares a group: the matrix and the shift of its map, by its parameters, and its derivative columns at a point.
macro_rules! group {
    ($(#[$doc:meta])* $name:ident $label:literal dof $dof:literal,
     $params:ident => $map:expr, $shift:expr; $element:ident at $point:ident => $columns:expr) => {
        $(#[$doc])*
        #[derive(Clone, Debug)]
        pub struct $name {
            map: Matrix3<f64>,
            shift: Vector3<f64>,
        }

        impl LieGroup for $name {
            type JacobianMatrix = SMatrix<f64, 3, $dof>;

            fn tangent_dim(&self) -> usize {
                $dof
            }

            fn zero_jacobian_for(&self) -> SMatrix<f64, 3, $dof> {
                SMatrix::zeros()
            }

            fn act(
                &self,
                $point: &Vector3<f64>,
                by_self: Option<&mut SMatrix<f64, 3, $dof>>,
                by_point: Option<&mut Matrix3<f64>>,
            ) -> Vector3<f64> {
                let $element = self;
                if let Some(by_self) = by_self {
                    let columns: &[Matrix3<f64>] = &$columns;
                    *by_self = SMatrix::from_fn(|row, column| {
                        let block = columns.get(column / 3);
                        block.map_or(0.0, |block| block[(row, column % 3)])
                    });
                }
                if let Some(by_point) = by_point {
                    *by_point = self.map;
                }
                self.map * $point + self.shift
            }

            fn from_param_slice($params: &[f64]) -> Self {
                $name {
                    map: $map,
                    shift: $shift,
                }
            }
        }

        impl ActsOnPoints3 for $name {
            const NAME: &'static str = $label;
            const DOF: usize = $dof;
        }
    };
}

fn first_three(params: &[f64]) -> Vector3<f64> {
    Vector3::from_fn(|row, _| params[row])
}

group! {
    /// Rotations; the parameters are a quaternion.
    SO3 "SO3" dof 3,
    params => rotation(params), Vector3::zeros();
    element at point => [by_turn(&element.map, point)]
}

group! {
    /// Poses; the parameters are a shift and a quaternion.
    SE3 "SE3" dof 6,
    params => rotation(&params[3..]), first_three(params);
    element at point => [element.map, by_turn(&element.map, point)]
}

group! {
    /// Poses with a velocity, whose columns are zero; the parameters are a shift, a quaternion and the velocity.
    SE23 "SE23" dof 9,
    params => rotation(&params[3..]), first_three(params);
    element at point => [element.map, by_turn(&element.map, point)]
}

group! {
    /// Poses with a scale, whose column is the last; the parameters are a shift, a quaternion and the scale.
    Sim3 "Sim3" dof 7,
    params => rotation(&params[3..]) * params[7], first_three(params);
    element at point => {
        let moved = element.map * point;
        [element.map, by_turn(&element.map, point), Matrix3::from_columns(&[moved; 3])]
    }
}

impl SE3 {
    /// The rotation.
    pub fn rotation_so3(&self) -> SO3 {
        SO3 {
            map: self.map,
            shift: Vector3::zeros(),
        }
    }

    /// The shift.
    pub fn translation(&self) -> Vector3<f64> {
        self.shift
    }
}

impl SO3 {
    /// The rotation's matrix.
    pub fn rotation_matrix(&self) -> Matrix3<f64> {
        self.map
    }
}
