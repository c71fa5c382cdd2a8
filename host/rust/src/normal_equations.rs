//! The Hessian and the gradient that factors add to.

/// A Hessian and a gradient of the same order, which factors add their blocks and segments to.
///
/// # Examples
///
/// ```
/// use maghnelt::NormalEquations;
///
/// let normal = NormalEquations::zeros(6);
/// assert_eq!(normal.order(), 6);
/// assert_eq!(normal.hessian(5, 0), 0.0);
/// assert_eq!(normal.gradient(), [0.0; 6]);
/// ```
#[derive(Clone, Debug, PartialEq)]
pub struct NormalEquations {
    hessian: Vec<f64>,
    gradient: Vec<f64>,
}

impl NormalEquations {
    /// Zeros of that order. Calls refuse one above [`MAX_ORDER`](crate::MAX_ORDER) by
    /// [`Refusal::Length`](crate::Refusal::Length).
    #[must_use]
    pub fn zeros(order: usize) -> NormalEquations {
        NormalEquations {
            hessian: vec![0.0; order * order],
            gradient: vec![0.0; order],
        }
    }

    /// The number of rows.
    #[must_use]
    pub fn order(&self) -> usize {
        self.gradient.len()
    }

    /// The Hessian's entry of that row and column.
    ///
    /// # Panics
    ///
    /// If there is no such row or column.
    #[must_use]
    pub fn hessian(&self, row: usize, column: usize) -> f64 {
        assert!(row < self.order(), "row {row} of {}", self.order());
        self.hessian[column * self.order() + row]
    }

    /// The Hessian, column after column.
    #[must_use]
    pub fn columns(&self) -> &[f64] {
        &self.hessian
    }

    /// The gradient.
    #[must_use]
    pub fn gradient(&self) -> &[f64] {
        &self.gradient
    }

    /// The Hessian, column after column, and the gradient, to be written.
    #[must_use]
    pub fn parts_mut(&mut self) -> (&mut [f64], &mut [f64]) {
        (&mut self.hessian, &mut self.gradient)
    }
}
