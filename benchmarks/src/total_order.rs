//! The key of a bit pattern and the order of three, against plain Rust that is called as the library is.

use crate::harness::measure;
use oracle::generator::Generator;
use oracle::probe;
use std::hint::black_box;

const INPUTS: usize = 1024;

/// Prints the rows of the order.
pub fn measure_all() {
    let mut generator = Generator::named(754, "total_order");
    let patterns: [u64; INPUTS] = std::array::from_fn(|_| generator.bits());
    let threes: [[u64; 3]; INPUTS] =
        std::array::from_fn(|_| std::array::from_fn(|_| generator.bits()));
    let rising = threes.map(|mut three| {
        three.sort_by(|a, b| f64::from_bits(*a).total_cmp(&f64::from_bits(*b)));
        three
    });
    // What is timed against each other is to be the same function.
    for &bits in &patterns {
        assert_eq!(maghnelt::total_order_key(bits), rust_key(bits));
    }
    for &[a, b, c] in threes.iter().chain(&rising) {
        assert_eq!(probe::order_of_three(a, b, c), rust_order_of_three(a, b, c));
    }
    measure(
        "total_order_key",
        "any pattern",
        INPUTS,
        || keys(&patterns, maghnelt::total_order_key),
        || keys(&patterns, rust_key),
    );
    for (case, inputs) in [("any three", &threes), ("three that rise", &rising)] {
        measure(
            "order_of_three",
            case,
            INPUTS,
            || orders(inputs, probe::order_of_three),
            || orders(inputs, rust_order_of_three),
        );
    }
}

#[inline(always)]
fn keys(inputs: &[u64; INPUTS], key: impl Fn(u64) -> i64) {
    for &input in black_box(inputs) {
        black_box(key(input));
    }
}

#[inline(always)]
fn orders(inputs: &[[u64; 3]; INPUTS], order_of_three: impl Fn(u64, u64, u64) -> u32) {
    for &[a, b, c] in black_box(inputs) {
        black_box(order_of_three(a, b, c));
    }
}

/// The key that `f64::total_cmp` makes of either side.
#[inline(never)]
fn rust_key(bits: u64) -> i64 {
    let signed = bits as i64;
    signed ^ (((signed >> 63) as u64) >> 1) as i64
}

/// The places of the three in rising order, as the digits of one number.
#[inline(never)]
fn rust_order_of_three(a: u64, b: u64, c: u64) -> u32 {
    let values = [a, b, c].map(f64::from_bits);
    let mut places = [0usize, 1, 2];
    places.sort_by(|&i, &j| values[i].total_cmp(&values[j]));
    (places[0] * 100 + places[1] * 10 + places[2]) as u32
}
