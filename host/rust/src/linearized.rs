//! Residuals and their Jacobian.

/// Residuals, and their derivatives by the parameters of a factor's states.
#[derive(Clone, Debug, PartialEq)]
pub struct Linearized {
    residual: Vec<f64>,
    jacobian: Vec<f64>,
}

impl Linearized {
    /// So many residuals and columns.
    pub(crate) fn zeros(rows: usize, columns: usize) -> Linearized {
        Linearized {
            residual: vec![0.0; rows],
            jacobian: vec![0.0; rows * columns],
        }
    }

    /// Residuals and Jacobian, to be written.
    pub(crate) fn parts_mut(&mut self) -> (&mut [f64], &mut [f64]) {
        (&mut self.residual, &mut self.jacobian)
    }

    /// The residuals, which are the Jacobian's rows.
    #[must_use]
    pub fn residual(&self) -> &[f64] {
        &self.residual
    }

    /// The Jacobian's entry of that row and column.
    ///
    /// # Panics
    ///
    /// If there is no such row or column.
    #[must_use]
    pub fn jacobian(&self, row: usize, column: usize) -> f64 {
        let rows = self.residual.len();
        assert!(row < rows, "row {row} of {rows}");
        self.jacobian[column * rows + row]
    }

    /// The Jacobian's column of that number, a number for each row.
    ///
    /// # Panics
    ///
    /// If there is no such column.
    #[must_use]
    pub fn column(&self, column: usize) -> &[f64] {
        let rows = self.residual.len();
        &self.jacobian[column * rows..(column + 1) * rows]
    }

    /// The Jacobian, column after column.
    #[must_use]
    pub fn columns(&self) -> &[f64] {
        &self.jacobian
    }
}
