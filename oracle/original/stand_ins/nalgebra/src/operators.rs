//! Sums, differences and products of matrices whose sizes are in the type, by value and by reference.

use crate::{sum_of_products, SMatrix};
use std::iter::Sum;
use std::ops::{Add, AddAssign, Div, Mul, Neg, Sub};

/// An operator on two matrices, each by value or by reference, from the one on references.
macro_rules! on_matrices {
    ($operator:ident $method:ident [$($size:ident)+] $left:ty, $right:ty => $out:ty, $body:expr) => {
        impl<$(const $size: usize),+> $operator<&$right> for &$left {
            type Output = $out;

            fn $method(self, other: &$right) -> $out {
                let body: fn(&$left, &$right) -> $out = $body;
                body(self, other)
            }
        }

        impl<$(const $size: usize),+> $operator<$right> for &$left {
            type Output = $out;

            fn $method(self, other: $right) -> $out {
                self.$method(&other)
            }
        }

        impl<$(const $size: usize),+> $operator<&$right> for $left {
            type Output = $out;

            fn $method(self, other: &$right) -> $out {
                (&self).$method(other)
            }
        }

        impl<$(const $size: usize),+> $operator<$right> for $left {
            type Output = $out;

            fn $method(self, other: $right) -> $out {
                (&self).$method(&other)
            }
        }
    };
}

on_matrices! {
    Add add [R C] SMatrix<f64, R, C>, SMatrix<f64, R, C> => SMatrix<f64, R, C>,
    |a, b| SMatrix::from_fn(|row, column| a[(row, column)] + b[(row, column)])
}

on_matrices! {
    Sub sub [R C] SMatrix<f64, R, C>, SMatrix<f64, R, C> => SMatrix<f64, R, C>,
    |a, b| SMatrix::from_fn(|row, column| a[(row, column)] - b[(row, column)])
}

// Each entry is a sum of products in rising index.
on_matrices! {
    Mul mul [R K C] SMatrix<f64, R, K>, SMatrix<f64, K, C> => SMatrix<f64, R, C>,
    |a, b| SMatrix::from_fn(|row, column| sum_of_products(K, |k| a[(row, k)] * b[(k, column)]))
}

impl<const R: usize, const C: usize> Mul<f64> for &SMatrix<f64, R, C> {
    type Output = SMatrix<f64, R, C>;

    fn mul(self, factor: f64) -> Self::Output {
        SMatrix::from_fn(|row, column| self[(row, column)] * factor)
    }
}

impl<const R: usize, const C: usize> Mul<f64> for SMatrix<f64, R, C> {
    type Output = SMatrix<f64, R, C>;

    fn mul(self, factor: f64) -> Self::Output {
        &self * factor
    }
}

impl<const R: usize, const C: usize> Mul<SMatrix<f64, R, C>> for f64 {
    type Output = SMatrix<f64, R, C>;

    fn mul(self, matrix: SMatrix<f64, R, C>) -> Self::Output {
        SMatrix::from_fn(|row, column| self * matrix[(row, column)])
    }
}

// A division of each entry, not a product with a reciprocal.
impl<const R: usize, const C: usize> Div<f64> for SMatrix<f64, R, C> {
    type Output = SMatrix<f64, R, C>;

    fn div(self, divisor: f64) -> Self::Output {
        SMatrix::from_fn(|row, column| self[(row, column)] / divisor)
    }
}

impl<const R: usize, const C: usize> Neg for SMatrix<f64, R, C> {
    type Output = SMatrix<f64, R, C>;

    fn neg(self) -> Self::Output {
        SMatrix::from_fn(|row, column| -self[(row, column)])
    }
}

impl<const R: usize, const C: usize> AddAssign<&SMatrix<f64, R, C>> for SMatrix<f64, R, C> {
    fn add_assign(&mut self, other: &SMatrix<f64, R, C>) {
        *self = &*self + other;
    }
}

impl<const R: usize, const C: usize> AddAssign<SMatrix<f64, R, C>> for SMatrix<f64, R, C> {
    fn add_assign(&mut self, other: SMatrix<f64, R, C>) {
        *self += &other;
    }
}

// Sums of a list start from zeros.
impl<const R: usize, const C: usize> Sum for SMatrix<f64, R, C> {
    fn sum<I: Iterator<Item = Self>>(list: I) -> Self {
        list.fold(Self::zeros(), |sum, next| sum + next)
    }
}

impl<'a, const R: usize, const C: usize> Sum<&'a SMatrix<f64, R, C>> for SMatrix<f64, R, C> {
    fn sum<I: Iterator<Item = &'a Self>>(list: I) -> Self {
        list.fold(Self::zeros(), |sum, next| sum + next)
    }
}
