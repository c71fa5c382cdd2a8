//! Matrices whose sizes only the value knows, stored column after column: a larger system's Hessian and gradient, and the
//! parts of small matrices that are added to them.

use crate::{sum_of_products, Dim, Dyn, Matrix, Storage, U1};
use std::ops::{AddAssign, IndexMut, Mul, MulAssign};

/// Columns of a number of rows.
#[derive(Clone, Debug, PartialEq)]
pub struct VecStorage<T> {
    rows: usize,
    columns: usize,
    entries: Vec<T>,
}

/// A matrix whose sizes only the value knows.
pub type DMatrix<T> = Matrix<T, Dyn, Dyn, VecStorage<T>>;
/// A column whose length only the value knows.
pub type DVector<T> = Matrix<T, Dyn, U1, VecStorage<T>>;

impl<T> VecStorage<T> {
    /// Where an entry lies; panics where there is none.
    fn place(&self, row: usize, column: usize) -> usize {
        assert!(
            row < self.rows && column < self.columns,
            "Matrix index out of bounds."
        );
        column * self.rows + row
    }
}

impl<T, C: Dim> Storage<T, Dyn, C> for VecStorage<T> {
    fn shape(&self) -> (usize, usize) {
        (self.rows, self.columns)
    }

    fn at(&self, row: usize, column: usize) -> &T {
        &self.entries[self.place(row, column)]
    }
}

impl<C: Dim> Matrix<f64, Dyn, C, VecStorage<f64>> {
    fn of_entries(rows: usize, columns: usize, mut entry: impl FnMut(usize, usize) -> f64) -> Self {
        let places = (0..columns).flat_map(|column| (0..rows).map(move |row| (row, column)));
        Matrix::of(VecStorage {
            rows,
            columns,
            entries: places.map(|(row, column)| entry(row, column)).collect(),
        })
    }

    /// The entries, column after column.
    pub fn as_slice(&self) -> &[f64] {
        &self.storage.entries
    }
}

impl DMatrix<f64> {
    /// The matrix of a function of row and column.
    pub fn from_fn(rows: usize, columns: usize, entry: impl FnMut(usize, usize) -> f64) -> Self {
        Self::of_entries(rows, columns, entry)
    }

    /// The matrix of its entries, column after column.
    pub fn from_column_slice(rows: usize, columns: usize, entries: &[f64]) -> Self {
        Self::from_fn(rows, columns, |row, column| entries[column * rows + row])
    }

    /// Rows and columns exchanged.
    pub fn transpose(&self) -> Self {
        Self::from_fn(self.ncols(), self.nrows(), |row, column| {
            self[(column, row)]
        })
    }

    /// The part of a shape from a row and a column on, to be added to.
    pub fn view_mut(&mut self, from: (usize, usize), shape: (usize, usize)) -> ViewMut<'_, Dyn> {
        ViewMut::of(self, from, shape)
    }
}

impl DVector<f64> {
    /// The column of a function of row and column.
    pub fn from_fn(rows: usize, entry: impl FnMut(usize, usize) -> f64) -> Self {
        Self::of_entries(rows, 1, entry)
    }

    /// The column of its entries.
    pub fn from_column_slice(entries: &[f64]) -> Self {
        Self::from_fn(entries.len(), |row, _| entries[row])
    }

    /// Rows, to be added to.
    pub fn rows_mut(&mut self, row: usize, rows: usize) -> ViewMut<'_, U1> {
        ViewMut::of(self, (row, 0), (rows, 1))
    }
}

impl<C: Dim> IndexMut<(usize, usize)> for Matrix<f64, Dyn, C, VecStorage<f64>> {
    fn index_mut(&mut self, (row, column): (usize, usize)) -> &mut f64 {
        let place = self.storage.place(row, column);
        &mut self.storage.entries[place]
    }
}

impl IndexMut<usize> for DVector<f64> {
    fn index_mut(&mut self, row: usize) -> &mut f64 {
        &mut self[(row, 0)]
    }
}

/// A part of a matrix, to be added to.
pub struct ViewMut<'a, C> {
    matrix: &'a mut Matrix<f64, Dyn, C, VecStorage<f64>>,
    from: (usize, usize),
    shape: (usize, usize),
}

impl<'a, C: Dim> ViewMut<'a, C> {
    /// The part; panics where it reaches past the end, also where it has no entries.
    fn of(
        matrix: &'a mut Matrix<f64, Dyn, C, VecStorage<f64>>,
        from: (usize, usize),
        shape: (usize, usize),
    ) -> Self {
        let (rows, columns) = matrix.shape();
        assert!(
            from.0 + shape.0 <= rows && from.1 + shape.1 <= columns,
            "Matrix slicing out of bounds."
        );
        ViewMut {
            matrix,
            from,
            shape,
        }
    }
}

impl<C: Dim> AddAssign<Matrix<f64, Dyn, C, VecStorage<f64>>> for ViewMut<'_, C> {
    fn add_assign(&mut self, other: Matrix<f64, Dyn, C, VecStorage<f64>>) {
        assert_eq!(self.shape, other.shape());
        for column in 0..self.shape.1 {
            for row in 0..self.shape.0 {
                self.matrix[(self.from.0 + row, self.from.1 + column)] += other[(row, column)];
            }
        }
    }
}

// The products below serve the transforms of `NormalBlocks` only. Each entry is a sum of products in rising index.
impl<C: Dim> Mul<&Matrix<f64, Dyn, C, VecStorage<f64>>> for &DMatrix<f64> {
    type Output = Matrix<f64, Dyn, C, VecStorage<f64>>;

    fn mul(self, other: &Matrix<f64, Dyn, C, VecStorage<f64>>) -> Self::Output {
        assert_eq!(self.ncols(), other.nrows(), "dimensions mismatch");
        Matrix::of_entries(self.nrows(), other.ncols(), |row, column| {
            sum_of_products(self.ncols(), |k| self[(row, k)] * other[(k, column)])
        })
    }
}

impl<C: Dim> Mul<Matrix<f64, Dyn, C, VecStorage<f64>>> for DMatrix<f64> {
    type Output = Matrix<f64, Dyn, C, VecStorage<f64>>;

    fn mul(self, other: Matrix<f64, Dyn, C, VecStorage<f64>>) -> Self::Output {
        &self * &other
    }
}

impl MulAssign<&DMatrix<f64>> for DMatrix<f64> {
    fn mul_assign(&mut self, other: &DMatrix<f64>) {
        *self = &*self * other;
    }
}
