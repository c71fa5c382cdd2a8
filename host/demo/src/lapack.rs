//! The two routines of LAPACK that a job needs: the decomposition of a symmetric matrix, and a step by Cholesky's.

use crate::pose::Matrix;
use maghnelt::Decomposition;
use std::ffi::{c_char, c_int};

extern "C" {
    fn dsyev_(
        jobz: *const c_char,
        uplo: *const c_char,
        n: *const c_int,
        a: *mut f64,
        lda: *const c_int,
        w: *mut f64,
        work: *mut f64,
        lwork: *const c_int,
        info: *mut c_int,
    );
    fn dposv_(
        uplo: *const c_char,
        n: *const c_int,
        nrhs: *const c_int,
        a: *mut f64,
        lda: *const c_int,
        b: *mut f64,
        ldb: *const c_int,
        info: *mut c_int,
    );
}

const VECTORS: c_char = b'V' as c_char;
const LOWER: c_char = b'L' as c_char;

/// Eigenvalues, rising, and their vectors, one after the other, of a symmetric matrix of order `n` by columns, of which the
/// lower triangle is read. None if LAPACK finds none, as for a matrix with a NaN.
///
/// # Panics
///
/// If the matrix has not n·n numbers, or n is 0 or above 1,024.
#[must_use]
pub fn symmetric_eigen(n: usize, mut matrix: Vec<f64>) -> Option<(Vec<f64>, Vec<f64>)> {
    assert!((1..=1024).contains(&n) && matrix.len() == n * n);
    // LAPACK may turn round for ever in a NaN.
    if matrix.iter().any(|x| !x.is_finite()) {
        return None;
    }
    let mut values = vec![0.0; n];
    let mut work = vec![0.0; 34 * n];
    let order = n as c_int;
    let room = work.len() as c_int;
    let mut info = 0;
    // SAFETY: the matrix has n·n numbers, values n, and work as many as it says, which is at least 3n − 1.
    unsafe {
        dsyev_(
            &VECTORS,
            &LOWER,
            &order,
            matrix.as_mut_ptr(),
            &order,
            values.as_mut_ptr(),
            work.as_mut_ptr(),
            &room,
            &mut info,
        );
    }
    (info == 0).then_some((values, matrix))
}

/// The decomposition of a symmetric matrix, as the library takes it.
#[must_use]
pub fn decomposition(matrix: &Matrix) -> Option<Decomposition> {
    if matrix.as_flattened().iter().any(|x| !x.is_finite()) {
        return None;
    }
    let mut vectors = *matrix;
    let mut eigenvalues = [0.0; 3];
    let mut work = [0.0; 102];
    let (order, room) = (3, work.len() as c_int);
    let mut info = 0;
    // SAFETY: three columns of three numbers, three values, and more work space than 3n − 1.
    unsafe {
        dsyev_(
            &VECTORS,
            &LOWER,
            &order,
            vectors.as_mut_ptr().cast(),
            &order,
            eigenvalues.as_mut_ptr(),
            work.as_mut_ptr(),
            &room,
            &mut info,
        );
    }
    (info == 0).then_some(Decomposition {
        eigenvalues,
        vectors,
    })
}

/// The solution x of `matrix·x = right` for a symmetric matrix by columns, of which the lower triangle is read. None if it is
/// not positive definite.
///
/// # Panics
///
/// If the matrix has not n·n numbers, n being the length of `right`, or n is above 1,024.
#[must_use]
pub fn solve(mut matrix: Vec<f64>, mut right: Vec<f64>) -> Option<Vec<f64>> {
    let n = right.len();
    assert!(n <= 1024 && matrix.len() == n * n);
    let order = n as c_int;
    // A matrix without rows has a leading dimension all the same.
    let leading = order.max(1);
    let one = 1;
    let mut info = 0;
    // SAFETY: the matrix has n·n numbers and the right side n.
    unsafe {
        dposv_(
            &LOWER,
            &order,
            &one,
            matrix.as_mut_ptr(),
            &leading,
            right.as_mut_ptr(),
            &leading,
            &mut info,
        );
    }
    (info == 0).then_some(right)
}

#[cfg(test)]
mod tests {
    use super::*;

    #[test]
    fn eigenvalues_rise() {
        let found = decomposition(&[[2.0, 1.0, 0.0], [1.0, 2.0, 0.0], [0.0, 0.0, 5.0]]).unwrap();
        for (found, expected) in found.eigenvalues.iter().zip([1.0, 3.0, 5.0]) {
            assert!((found - expected).abs() < 1e-14);
        }
        assert!((found.vectors[0][0] + found.vectors[0][1]).abs() < 1e-15);
        let (values, _) = symmetric_eigen(2, vec![2.0, 1.0, 1.0, 2.0]).unwrap();
        assert!((values[0] - 1.0).abs() < 1e-15 && (values[1] - 3.0).abs() < 1e-15);
    }

    #[test]
    fn a_nan_has_no_decomposition() {
        assert_eq!(decomposition(&[[f64::NAN; 3]; 3]), None);
        assert_eq!(symmetric_eigen(1, vec![f64::INFINITY]), None);
    }

    #[test]
    fn a_step_solves() {
        let found = solve(vec![4.0, 2.0, 2.0, 3.0], vec![2.0, 5.0]).unwrap();
        assert!((found[0] + 0.5).abs() < 1e-15 && (found[1] - 2.0).abs() < 1e-15);
        assert_eq!(solve(vec![0.0], vec![1.0]), None);
        assert_eq!(solve(vec![], vec![]), Some(vec![]));
    }
}
