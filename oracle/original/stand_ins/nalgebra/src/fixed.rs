//! Matrices whose sizes are in the type, stored column after column.

use crate::{sum_of_products, Const, DMatrix, DVector, Matrix, Storage};
use std::ops::{Deref, IndexMut};

/// C columns of R numbers.
#[derive(Clone, Copy, Debug, PartialEq)]
#[repr(transparent)]
pub struct ArrayStorage<T, const R: usize, const C: usize>(pub(crate) [[T; R]; C]);

/// A matrix whose sizes are in the type.
pub type SMatrix<T, const R: usize, const C: usize> =
    Matrix<T, Const<R>, Const<C>, ArrayStorage<T, R, C>>;
/// A matrix of three by three.
pub type Matrix3<T> = SMatrix<T, 3, 3>;
/// A column of three.
pub type Vector3<T> = SMatrix<T, 3, 1>;

impl<T, const R: usize, const C: usize> Storage<T, Const<R>, Const<C>> for ArrayStorage<T, R, C> {
    fn shape(&self) -> (usize, usize) {
        (R, C)
    }

    fn at(&self, row: usize, column: usize) -> &T {
        &self.0[column][row]
    }
}

impl<const R: usize, const C: usize> IndexMut<(usize, usize)> for SMatrix<f64, R, C> {
    fn index_mut(&mut self, (row, column): (usize, usize)) -> &mut f64 {
        &mut self.storage.0[column][row]
    }
}

impl<const R: usize, const C: usize> SMatrix<f64, R, C> {
    /// The matrix of a function of row and column.
    pub fn from_fn(mut entry: impl FnMut(usize, usize) -> f64) -> Self {
        Matrix::of(ArrayStorage(std::array::from_fn(|column| {
            std::array::from_fn(|row| entry(row, column))
        })))
    }

    /// All +0.
    pub fn zeros() -> Self {
        Self::from_fn(|_, _| 0.0)
    }

    /// The matrix of its columns.
    pub fn from_columns(columns: &[SMatrix<f64, R, 1>]) -> Self {
        Self::from_fn(|row, column| columns[column][row])
    }

    /// Rows and columns exchanged.
    pub fn transpose(&self) -> SMatrix<f64, C, R> {
        SMatrix::from_fn(|row, column| self[(column, row)])
    }

    /// The entries, column after column.
    pub fn iter(&self) -> std::slice::Iter<'_, f64> {
        self.as_slice().iter()
    }

    /// The entries, column after column.
    pub fn as_slice(&self) -> &[f64] {
        self.storage.0.as_flattened()
    }

    /// A column.
    pub fn column(&self, column: usize) -> SMatrix<f64, R, 1> {
        SMatrix::from_fn(|row, _| self[(row, column)])
    }

    /// The matrix itself: what nalgebra makes of a view.
    pub fn into_owned(self) -> Self {
        self
    }

    /// The part from a row and a column on.
    pub fn fixed_view<const R2: usize, const C2: usize>(
        &self,
        row: usize,
        column: usize,
    ) -> SMatrix<f64, R2, C2> {
        SMatrix::from_fn(|r, c| self[(row + r, column + c)])
    }

    /// That part, to be written.
    pub fn fixed_view_mut<const R2: usize, const C2: usize>(
        &mut self,
        row: usize,
        column: usize,
    ) -> PartMut<'_, R, C, R2, C2> {
        PartMut {
            matrix: self,
            row,
            column,
        }
    }

    /// A row, to be written.
    pub fn row_mut(&mut self, row: usize) -> PartMut<'_, R, C, 1, C> {
        self.fixed_view_mut(row, 0)
    }

    /// Writes a row.
    pub fn set_row(&mut self, row: usize, numbers: &SMatrix<f64, 1, C>) {
        self.row_mut(row).copy_from(numbers);
    }

    /// The part of a shape from a row and a column on.
    pub fn view(
        &self,
        (row, column): (usize, usize),
        (rows, columns): (usize, usize),
    ) -> DMatrix<f64> {
        DMatrix::from_fn(rows, columns, |r, c| self[(row + r, column + c)])
    }

    /// The sum of the products of entries at the same places.
    pub fn dot(&self, other: &Self) -> f64 {
        sum_of_products(R * C, |place| self[place] * other[place])
    }

    /// The root of the sum of squares.
    pub fn norm(&self) -> f64 {
        self.dot(self).sqrt()
    }

    /// The matrix divided by its norm.
    pub fn normalize(&self) -> Self {
        *self / self.norm()
    }
}

impl<const R: usize> SMatrix<f64, R, 1> {
    /// Rows of a column.
    pub fn rows(&self, row: usize, rows: usize) -> DVector<f64> {
        DVector::from_fn(rows, |r, _| self[row + r])
    }
}

impl Vector3<f64> {
    /// The vector of three coordinates.
    pub fn new(x: f64, y: f64, z: f64) -> Self {
        Self::from([x, y, z])
    }

    /// The unit axes.
    pub fn x() -> Self {
        Self::new(1.0, 0.0, 0.0)
    }

    /// See [`Vector3::x`].
    pub fn y() -> Self {
        Self::new(0.0, 1.0, 0.0)
    }

    /// See [`Vector3::x`].
    pub fn z() -> Self {
        Self::new(0.0, 0.0, 1.0)
    }
}

impl From<[f64; 3]> for Vector3<f64> {
    fn from(coordinates: [f64; 3]) -> Self {
        Matrix::of(ArrayStorage([coordinates]))
    }
}

/// The coordinates of a vector by name.
#[repr(C)]
pub struct Coordinates {
    /// The first.
    pub x: f64,
    /// The second.
    pub y: f64,
    /// The third.
    pub z: f64,
}

impl Deref for Vector3<f64> {
    type Target = Coordinates;

    fn deref(&self) -> &Coordinates {
        let [coordinates] = &self.storage.0;
        // Three f64 in a row are laid out as the struct of three f64 in C's layout.
        unsafe { &*coordinates.as_ptr().cast() }
    }
}

/// A part of R2 rows and C2 columns of a matrix, to be written.
pub struct PartMut<'a, const R: usize, const C: usize, const R2: usize, const C2: usize> {
    matrix: &'a mut SMatrix<f64, R, C>,
    row: usize,
    column: usize,
}

impl<const R: usize, const C: usize, const R2: usize, const C2: usize> PartMut<'_, R, C, R2, C2> {
    /// Writes the part.
    pub fn copy_from(&mut self, numbers: &SMatrix<f64, R2, C2>) {
        for column in 0..C2 {
            for row in 0..R2 {
                self.matrix[(self.row + row, self.column + column)] = numbers[(row, column)];
            }
        }
    }
}
