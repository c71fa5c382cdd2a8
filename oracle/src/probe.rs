//! Proved functions that have no entry point in `libmaghnelt.a`. `libprobe.a` exports them so that they can be compared
//! and timed; no host links it.

mod ffi {
    extern "C" {
        pub fn probe_order_of_three(a: u64, b: u64, c: u64) -> u32;
        pub fn probe_number(bits: u64) -> f64;
        pub fn probe_root_guess(n: u64) -> u64;
        pub fn probe_sqrt_among(x: f64, other: f64, place: usize, many: usize) -> f64;
    }
}

/// The places 0, 1 and 2 of the three patterns in rising total order, equal patterns in the order of their places, as
/// the digits of one number: 12 for 0, 1, 2 and 210 for 2, 1, 0.
#[inline]
pub fn order_of_three(a: u64, b: u64, c: u64) -> u32 {
    // SAFETY: arguments and answer are integers by value, and the function is proved to end for every argument.
    unsafe { ffi::probe_order_of_three(a, b, c) }
}

/// The value of a bit pattern.
#[inline]
pub fn number(bits: u64) -> f64 {
    // SAFETY: argument and answer are numbers by value, and the function is proved to end for every argument.
    unsafe { ffi::probe_number(bits) }
}

/// The guess from which the upper half of the digits of a root is settled, for an operand below 2^54.
#[inline]
pub fn root_guess(n: u64) -> u64 {
    // SAFETY: argument and answer are integers by value, and the function is proved to end for every argument.
    unsafe { ffi::probe_root_guess(n) }
}

/// The square root of `x`, worked out at a place among the first `many` of 32 numbers, the others being `other`; `x` where
/// that is no such place.
#[inline]
pub fn sqrt_among(x: f64, other: f64, place: usize, many: usize) -> f64 {
    // SAFETY: arguments and answer are numbers by value, and the function is proved to end for every argument.
    unsafe { ffi::probe_sqrt_among(x, other, place, many) }
}
