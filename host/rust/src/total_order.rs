//! The order of numbers by their bit patterns.

use crate::ffi;

/// The key of a bit pattern: keys compare, as signed integers, as IEEE 754's totalOrder compares the patterns.
///
/// The key is the pattern read as a signed integer whose low 63 bits are inverted when it is negative. So no two
/// patterns have the same key. In rising order come the NaNs with a minus sign, minus infinity, the numbers below
/// zero, `-0.0`, `+0.0`, the numbers above zero, infinity, and the NaNs with a plus sign.
///
/// # Examples
///
/// ```
/// let key = |x: f64| maghnelt::total_order_key(x.to_bits());
///
/// assert!(key(-0.0) < key(0.0));
/// assert!(key(-2.0) < key(-1.0) && key(-1.0) < key(1.0));
///
/// let mut eigenvalues = [1.0, -0.0, f64::INFINITY, 0.0];
/// eigenvalues.sort_by_key(|&x| key(x));
/// assert_eq!(eigenvalues.map(f64::to_bits), [-0.0, 0.0, 1.0, f64::INFINITY].map(f64::to_bits));
///
/// // NaNs are ordered too, at both ends by their sign.
/// assert!(maghnelt::total_order_key(0x7FF8_0000_0000_0000) > key(f64::INFINITY));
/// assert!(maghnelt::total_order_key(0xFFF8_0000_0000_0000) < key(f64::NEG_INFINITY));
/// ```
#[inline]
#[must_use]
pub fn total_order_key(bits: u64) -> i64 {
    // SAFETY: the function takes and returns an integer by value, reads and writes no memory of ours, and is proved to
    // end for every argument.
    unsafe { ffi::maghnelt_total_order_key(bits) }
}
