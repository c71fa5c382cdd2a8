//! Whether a step may change the height of a pose: that of a scanner on a trolley is known.

use crate::pose::{Pose, DOF, LEVEL_DOF};
use maghnelt::{Refusal, Transform, Transforms};

/// Whether a step may change the height at which each pose stands in the site.
#[derive(Clone, Copy, Debug, PartialEq, Eq)]
pub enum Height {
    /// It may: a pose has six unknowns.
    Free,
    /// Each pose keeps the height that the job gives it. It has five unknowns: shifts along the site's x and y, and a turn.
    Locked,
}

impl Height {
    /// The unknowns of a pose, which are the rows that it has in the normal equations.
    #[must_use]
    pub const fn unknowns(self) -> usize {
        match self {
            Height::Free => DOF,
            Height::Locked => LEVEL_DOF,
        }
    }

    /// What lies beside the map of frames at these poses. It belongs to them: when they have turned, it is made anew.
    ///
    /// # Errors
    ///
    /// What the library refuses.
    pub fn transforms<'a>(
        self,
        poses: impl IntoIterator<Item = &'a Pose>,
    ) -> Result<Transforms, Refusal> {
        let locked = |pose: &Pose| Some(Transform::locked_height(&pose.rotation));
        match self {
            Height::Free => Ok(Transforms::NONE),
            Height::Locked => Transforms::new(poses.into_iter().map(locked)),
        }
    }

    /// The pose after its part of a step: T·δ where the height is locked, which keeps it but for rounding.
    ///
    /// The shift ρ comes before the turn θ, so that the pose goes by R·ρ, which T keeps level whatever the turn is. Under the
    /// group's own Exp(ρ, θ) it would go by R·V(θ)·ρ, and T, being of first order, would not see that it rises by half of the
    /// turn times the shift.
    ///
    /// # Panics
    ///
    /// If the part has not a number for each unknown.
    #[must_use]
    pub fn moved(self, pose: &Pose, part: &[f64]) -> Pose {
        let step = match self {
            Height::Free => part.to_vec(),
            Height::Locked => Transform::locked_height(&pose.rotation)
                .step(part)
                .expect("a number for each column"),
        };
        pose.moved(step.as_slice().try_into().expect("as many as a pose has"))
    }
}

#[cfg(test)]
mod tests {
    use super::*;
    use crate::pose::{norm, Vector};
    use std::f64::consts::FRAC_PI_2;

    #[test]
    fn a_locked_step_is_level_whatever_the_turn() {
        // A scanner on its side: its own y points up, and its own z along the site's −y.
        let pose = Pose::new([4.0, 5.0, 6.0], [0.0, 0.0, FRAC_PI_2]);
        let moved = Height::Locked.moved(&pose, &[1.0, -2.0, 0.0, 0.0, FRAC_PI_2]);
        let off: Vector = std::array::from_fn(|r| moved.shift[r] - [5.0, 3.0, 6.0][r]);
        assert!(norm(&off) < 1e-14, "{moved:?}");
        // About its own z its x goes to its y.
        assert!((moved.rotation[0][2] - 1.0).abs() < 1e-14, "{moved:?}");
        assert_eq!(Height::Free.moved(&pose, &[0.0; DOF]).shift, pose.shift);
    }
}
