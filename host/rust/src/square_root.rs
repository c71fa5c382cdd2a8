//! The square root.

use crate::ffi;

/// The square root of `x`, correctly rounded, ties to even: IEEE 754's squareRoot.
///
/// It is worked out in integers, so that it is the same on every machine. The root of `-0.0` is `-0.0`, that of
/// infinity is infinity, and that of a NaN or of a number below zero is a NaN.
///
/// # Examples
///
/// ```
/// assert_eq!(maghnelt::sqrt(4.0), 2.0);
/// assert_eq!(maghnelt::sqrt(2.0), std::f64::consts::SQRT_2);
/// assert_eq!(maghnelt::sqrt(f64::INFINITY), f64::INFINITY);
/// assert!(maghnelt::sqrt(-1.0).is_nan());
///
/// // Minus zero keeps its sign.
/// assert_eq!(maghnelt::sqrt(-0.0).to_bits(), (-0.0f64).to_bits());
/// ```
#[inline]
#[must_use]
pub fn sqrt(x: f64) -> f64 {
    // SAFETY: the function takes and returns a number by value, reads and writes no memory of ours, and is proved to
    // end for every argument.
    unsafe { ffi::maghnelt_sqrt(x) }
}
