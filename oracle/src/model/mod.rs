//! A model of the library in plain Rust, written from documents 01 and 02 rule by rule: it is there to be read beside them,
//! not to be fast, and is not the solver's own Rust.
//!
//! A matrix is read as `m[row][column]`; where it is stored, its columns follow each other.

pub mod blocks;
pub mod bundle;
pub mod cards;
pub mod counts;
pub mod frames;
pub mod matches;
pub mod moments;
pub mod plane;
pub mod transforms;

/// The reason for a dof above 9.
pub const DOF: u32 = 1;
/// The reason for an empty list of frames or matches.
pub const EMPTY_LIST: u32 = 2;
/// The reason for a slice of a wrong length.
pub const LENGTH: u32 = 3;
/// The reason for a frame without points.
pub const FRAME_COUNT: u32 = 4;
/// The reason for too few points in all.
pub const TOTAL_COUNT: u32 = 5;
/// The reason for a moment or a coordinate that is not finite.
pub const NOT_FINITE: u32 = 6;
/// The reason for a sigma that is not finite and positive.
pub const SIGMA: u32 = 7;
/// The reason for actions of a wrong length.
pub const ACTIONS: u32 = 8;
/// The reason for a bad word in a block map.
pub const MAP_WORD: u32 = 9;
/// The reason for a segment past the end.
pub const SEGMENT: u32 = 10;
/// The reason for a normal without a usable length.
pub const NORMAL: u32 = 11;
/// The reason for a variance that is not finite and positive.
pub const VARIANCE: u32 = 12;
/// The reason for a fixed count below 0 in a strict build.
pub const FIXED_COUNT: u32 = 13;
/// The reason for a transform of a wrong shape.
pub const SHAPE: u32 = 14;
/// The reason for a count that is saturated, or would be.
pub const SATURATED: u32 = 15;

/// The most columns of an action's derivatives.
pub const MAX_DOF: u32 = 9;

/// The pattern of every NaN that the model works out, which no case has in it.
pub const WORKED_OUT_NAN: u64 = 0x7FFC_6D61_6768_6E65;

/// A number as the model writes it.
pub fn written(x: f64) -> f64 {
    if x.is_nan() {
        f64::from_bits(WORKED_OUT_NAN)
    } else {
        x
    }
}

/// The number of the first reason that applies, or 0 where none does.
pub fn first(reasons: &[(u32, bool)]) -> u32 {
    let reason = reasons.iter().find(|(_, applies)| *applies);
    reason.map_or(0, |(number, _)| *number)
}

/// Reason 7: sigma is not finite and positive.
pub fn bad_sigma(sigma: f64) -> bool {
    !(sigma.is_finite() && sigma > 0.0)
}

/// Three numbers.
pub type Vector = [f64; 3];
/// A matrix of `N` rows and columns.
pub type Matrix<const N: usize> = [[f64; N]; N];

/// A sum in rising index that starts from its first term; +0 where there is none.
pub fn sum(terms: impl Iterator<Item = f64>) -> f64 {
    terms.reduce(|sum, term| sum + term).unwrap_or(0.0)
}

/// A sum in rising index that starts from +0.
pub fn sum_from_zero(terms: impl Iterator<Item = f64>) -> f64 {
    terms.fold(0.0, |sum, term| sum + term)
}

/// The sum of products of two lists of numbers.
pub fn dot<const N: usize>(a: [f64; N], b: [f64; N]) -> f64 {
    sum((0..N).map(|k| a[k] * b[k]))
}

/// The vector with these entries.
pub fn vector(entry: impl Fn(usize) -> f64) -> Vector {
    std::array::from_fn(entry)
}

/// The matrix with these entries, by row and column.
pub fn matrix<const N: usize>(entry: impl Fn(usize, usize) -> f64) -> Matrix<N> {
    std::array::from_fn(|row| std::array::from_fn(|column| entry(row, column)))
}

/// A·M·Aᵀ, the left product first.
pub fn congruent(a: Matrix<3>, m: Matrix<3>) -> Matrix<3> {
    let left: Matrix<3> = matrix(|r, k| dot(a[r], vector(|l| m[l][k])));
    // Column c of A's transpose is A's row c.
    matrix(|r, c| dot(left[r], a[c]))
}

/// The vector that a slice begins with.
pub fn stored_vector(stored: &[f64]) -> Vector {
    vector(|row| stored[row])
}

/// The matrix that a slice begins with.
pub fn stored_matrix<const N: usize>(stored: &[f64]) -> Matrix<N> {
    matrix(|row, column| stored[N * column + row])
}

/// Stores a matrix.
pub fn store_matrix<const N: usize>(matrix: Matrix<N>, stored: &mut [f64]) {
    for (row, entries) in matrix.into_iter().enumerate() {
        for (column, entry) in entries.into_iter().enumerate() {
            stored[N * column + row] = entry;
        }
    }
}

#[cfg(test)]
mod tests {
    use super::*;

    #[test]
    fn sums_start_from_their_first_term() {
        let bits = |terms: &[f64]| sum(terms.iter().copied()).to_bits();
        assert_eq!(bits(&[]), 0.0f64.to_bits());
        assert_eq!(bits(&[-0.0, -0.0]), (-0.0f64).to_bits());
        assert_eq!(bits(&[1e16, 1.0, -1e16]), 0.0f64.to_bits());
    }

    #[test]
    fn matrices_are_stored_by_columns() {
        let stored: [f64; 9] = std::array::from_fn(|place| place as f64);
        let read: Matrix<3> = stored_matrix(&stored);
        assert_eq!(read[2], [2.0, 5.0, 8.0]);
        let mut again = [0.0; 9];
        store_matrix(read, &mut again);
        assert_eq!(again, stored);
    }
}
