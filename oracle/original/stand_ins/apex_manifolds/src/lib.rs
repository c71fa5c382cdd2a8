//! Stand-in for apex-manifolds: the traits that the original names, and groups to try it on.
//!
//! A group here is its action on points with the derivative columns; the original works its affine map out of them, and
//! what it worked out is what the library is given. So the arithmetic in this crate judges nothing.

mod affine;
mod poses;

pub use affine::Affine;
pub use poses::{skew, Sim3, SE23, SO3};

use nalgebra::{Matrix3, Vector3};
use std::ops::Index;

/// A group by its elements.
pub trait LieGroup: Clone {
    /// Derivatives by the element: a row a coordinate, a column a degree of freedom.
    type JacobianMatrix: Index<(usize, usize), Output = f64>;

    /// The degrees of freedom.
    fn tangent_dim(&self) -> usize;

    /// Derivatives that are all zero.
    fn zero_jacobian_for(&self) -> Self::JacobianMatrix;

    /// The point moved, with the derivatives by the element and by the point where they are wanted.
    fn act(
        &self,
        point: &Vector3<f64>,
        by_self: Option<&mut Self::JacobianMatrix>,
        by_point: Option<&mut Matrix3<f64>>,
    ) -> Vector3<f64>;

    /// The element of its parameters.
    fn from_param_slice(params: &[f64]) -> Self;

    /// The inverse element. No factor that is tried asks for it.
    fn inverse(&self, _by_self: Option<&mut Self::JacobianMatrix>) -> Self {
        unimplemented!("no factor that is tried asks for an inverse")
    }
}

/// What groups can do.
pub mod capability {
    /// A group that moves points of three coordinates.
    pub trait ActsOnPoints3: super::LieGroup {
        /// The group's name.
        const NAME: &'static str;
        /// The degrees of freedom.
        const DOF: usize;
    }
}

/// Rotations with a shift.
pub mod se3 {
    pub use crate::poses::SE3;
}
