//! `SymmetricEigen`: eigenvalues and vectors come from LAPACK's `dsyev`, and what was given and returned is recorded, since
//! the library takes decompositions as they come.
//!
//! LAPACK's eigenvalues rise and nalgebra's come in any order, so that a test may have them handed out in another one.
//! For what no matrix leads to (NaNs, equal values, zeros of both signs) it may hand in decompositions of its own.

use crate::{Matrix3, SMatrix, Vector3};
use std::cell::RefCell;
use std::collections::VecDeque;

/// The decomposition of a symmetric matrix.
pub struct SymmetricEigen {
    /// The eigenvalues, in any order.
    pub eigenvalues: Vector3<f64>,
    /// Their vectors, one a column.
    pub eigenvectors: Matrix3<f64>,
}

/// The twelve numbers of a decomposition: three eigenvalues, then their vectors.
pub type Decomposition = [f64; 12];

/// A decomposition that was asked for.
#[derive(Clone, Copy)]
pub struct Asked {
    /// The matrix that was handed in.
    pub matrix: [f64; 9],
    /// What was handed back.
    pub decomposition: Decomposition,
}

#[derive(Default)]
struct Desk {
    asked: Vec<Asked>,
    order: Option<[usize; 3]>,
    handed_in: VecDeque<Decomposition>,
}

thread_local! {
    static DESK: RefCell<Desk> = RefCell::default();
}

/// What has been asked for since this was last called.
pub fn taken() -> Vec<Asked> {
    DESK.with(|desk| std::mem::take(&mut desk.borrow_mut().asked))
}

/// From now on the eigenvalues come in this order of the rising ones, and their vectors with them.
pub fn hand_out_by(order: [usize; 3]) {
    DESK.with(|desk| desk.borrow_mut().order = Some(order));
}

/// The next ones asked for are answered by these, and by LAPACK after them.
pub fn hand_in(decompositions: impl IntoIterator<Item = Decomposition>) {
    DESK.with(|desk| desk.borrow_mut().handed_in = decompositions.into_iter().collect());
}

impl SymmetricEigen {
    /// The decomposition of a matrix.
    pub fn new(matrix: Matrix3<f64>) -> Self {
        let decomposition = DESK.with(|desk| {
            let mut desk = desk.borrow_mut();
            let decomposition = match desk.handed_in.pop_front() {
                Some(decomposition) => decomposition,
                None => reordered(by_lapack(&matrix), desk.order.unwrap_or([0, 1, 2])),
            };
            let mut numbers = [0.0; 9];
            numbers.copy_from_slice(matrix.as_slice());
            desk.asked.push(Asked {
                matrix: numbers,
                decomposition,
            });
            decomposition
        });
        SymmetricEigen {
            eigenvalues: SMatrix::from_fn(|k, _| decomposition[k]),
            eigenvectors: SMatrix::from_fn(|row, k| decomposition[3 + 3 * k + row]),
        }
    }
}

fn reordered(rising: Decomposition, order: [usize; 3]) -> Decomposition {
    std::array::from_fn(|place| match place {
        0..3 => rising[order[place]],
        _ => rising[3 + 3 * order[(place - 3) / 3] + place % 3],
    })
}

extern "C" {
    /// LAPACK's driver for symmetric matrices. The last two are the lengths of the two words, as Fortran hands them on.
    fn dsyev_(
        jobz: *const u8,
        uplo: *const u8,
        n: *const i32,
        a: *mut f64,
        lda: *const i32,
        w: *mut f64,
        work: *mut f64,
        lwork: *const i32,
        info: *mut i32,
        jobz_length: usize,
        uplo_length: usize,
    );
}

/// Eigenvalues and vectors by `dsyev`, which reads the lower triangle. Where it says that it failed, as on NaNs, what it
/// left is taken as it is.
fn by_lapack(matrix: &Matrix3<f64>) -> Decomposition {
    const WORK: usize = 102;
    let mut vectors = [0.0; 9];
    vectors.copy_from_slice(matrix.as_slice());
    let mut values = [0.0; 3];
    let mut work = [0.0; WORK];
    let mut info = 0;
    // Three by three, with the work space that LAPACK asks for at the most.
    unsafe {
        dsyev_(
            b"V".as_ptr(),
            b"L".as_ptr(),
            &3,
            vectors.as_mut_ptr(),
            &3,
            values.as_mut_ptr(),
            work.as_mut_ptr(),
            &(WORK as i32),
            &mut info,
            1,
            1,
        );
    }
    std::array::from_fn(|place| match place {
        0..3 => values[place],
        _ => vectors[place - 3],
    })
}

#[cfg(test)]
mod tests {
    use super::*;

    #[test]
    fn values_of_a_diagonal_and_their_vectors() {
        let diagonal = Matrix3::from_fn(|row, column| {
            if row == column {
                [5.0, 2.0, 7.0][row]
            } else {
                0.0
            }
        });
        hand_out_by([2, 0, 1]);
        let eigen = SymmetricEigen::new(diagonal);
        assert_eq!(eigen.eigenvalues, Vector3::new(7.0, 2.0, 5.0));
        assert_eq!(eigen.eigenvectors.column(1)[1].abs(), 1.0);
        let asked = taken();
        assert_eq!(asked.len(), 1);
        assert_eq!(asked[0].matrix[..4], [5.0, 0.0, 0.0, 0.0]);
        assert_eq!(asked[0].decomposition[..3], [7.0, 2.0, 5.0]);
    }
}
