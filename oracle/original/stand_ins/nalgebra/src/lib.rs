//! Stand-in for nalgebra: just the types and operators that the original's text uses.
//!
//! The rule of every operator is that of documents 01 and 02: sums of products run in rising index and start from the first
//! product, a sum of no products is +0, each product and each sum is rounded once, and a scalar is applied to each entry.
//! That nalgebra does the same is the documents' word, not shown here.
//!
//! What nalgebra makes a view of is copied here where it is only read: the numbers read are the same.

mod dynamic;
pub mod eigen;
mod fixed;
mod operators;

pub use dynamic::{DMatrix, DVector, VecStorage};
pub use eigen::SymmetricEigen;
pub use fixed::{ArrayStorage, Matrix3, SMatrix, Vector3};

use std::marker::PhantomData;
use std::ops::Index;

/// A size that the type knows.
#[derive(Clone, Copy, Debug, PartialEq)]
pub struct Const<const N: usize>;

/// A size that only the value knows.
#[derive(Clone, Copy, Debug, PartialEq)]
pub struct Dyn;

/// The size of a vector's columns.
pub type U1 = Const<1>;

/// A number of rows or columns.
pub trait Dim {}
impl<const N: usize> Dim for Const<N> {}
impl Dim for Dyn {}

/// What holds a matrix's entries.
pub trait Storage<T, R, C> {
    /// The numbers of rows and columns.
    fn shape(&self) -> (usize, usize);
    /// An entry; panics where there is none.
    fn at(&self, row: usize, column: usize) -> &T;
}

/// A matrix of R rows and C columns.
#[derive(Clone, Copy, Debug, PartialEq)]
pub struct Matrix<T, R, C, S> {
    pub(crate) storage: S,
    pub(crate) sizes: PhantomData<(T, R, C)>,
}

impl<T, R, C, S> Matrix<T, R, C, S> {
    pub(crate) fn of(storage: S) -> Self {
        Matrix {
            storage,
            sizes: PhantomData,
        }
    }
}

impl<R: Dim, C: Dim, S: Storage<f64, R, C>> Matrix<f64, R, C, S> {
    /// The numbers of rows and columns.
    pub fn shape(&self) -> (usize, usize) {
        self.storage.shape()
    }

    /// The number of rows.
    pub fn nrows(&self) -> usize {
        self.shape().0
    }

    /// The number of columns.
    pub fn ncols(&self) -> usize {
        self.shape().1
    }
}

impl<R: Dim, C: Dim, S: Storage<f64, R, C>> Index<(usize, usize)> for Matrix<f64, R, C, S> {
    type Output = f64;

    fn index(&self, (row, column): (usize, usize)) -> &f64 {
        self.storage.at(row, column)
    }
}

/// By one number the entries are counted column after column.
impl<R: Dim, C: Dim, S: Storage<f64, R, C>> Index<usize> for Matrix<f64, R, C, S> {
    type Output = f64;

    fn index(&self, place: usize) -> &f64 {
        let rows = self.nrows();
        self.storage.at(place % rows, place / rows)
    }
}

/// The sum of products, in rising index from the first product on; +0 where there is none.
pub(crate) fn sum_of_products(length: usize, product: impl Fn(usize) -> f64) -> f64 {
    let mut products = (0..length).map(product);
    match products.next() {
        None => 0.0,
        Some(first) => products.fold(first, |sum, next| sum + next),
    }
}
