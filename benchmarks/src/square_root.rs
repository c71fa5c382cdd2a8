//! The square root, against the processor's instruction.

use crate::harness::measure;
use oracle::generator::Generator;
use oracle::patterns::{random_subnormal, FRACTION};
use std::hint::black_box;

const INPUTS: usize = 1024;
/// Roots of roots that follow each input where the latency is timed.
const IN_A_ROW: usize = 8;

/// Prints the rows of the square root.
pub fn measure_all() {
    let mut generator = Generator::named(754, "square_root");
    let mut normal_within = |powers: i64| -> [f64; INPUTS] {
        std::array::from_fn(|_| {
            let exponent = (1023 + generator.between(-powers, powers - 1)) as u64;
            f64::from_bits(exponent << 52 | generator.bits() & FRACTION)
        })
    };
    // Spread so widely that the roots of their roots, eight times over, still are spread.
    let wide = normal_within(1000);
    let normal = normal_within(32);
    let subnormal: [f64; INPUTS] =
        std::array::from_fn(|_| f64::from_bits(random_subnormal(&mut generator)));
    // What is timed against each other is to be the same function.
    for &x in [&wide, &normal, &subnormal].into_iter().flatten() {
        assert_eq!(maghnelt::sqrt(x).to_bits(), x.sqrt().to_bits());
    }
    measure(
        "sqrt",
        "latency",
        INPUTS * IN_A_ROW,
        || one_after_the_other(&wide, maghnelt::sqrt),
        || one_after_the_other(&wide, f64::sqrt),
    );
    measure(
        "sqrt",
        "throughput",
        INPUTS,
        || each_alone(&normal, maghnelt::sqrt),
        || each_alone(&normal, f64::sqrt),
    );
    measure(
        "sqrt",
        "throughput, subnormals",
        INPUTS,
        || each_alone(&subnormal, maghnelt::sqrt),
        || each_alone(&subnormal, f64::sqrt),
    );
}

/// Roots of which each must wait for the one before.
#[inline(always)]
fn one_after_the_other(inputs: &[f64; INPUTS], sqrt: impl Fn(f64) -> f64) {
    // Zero, but the compiler does not know it: an input keeps its value and still waits for the last root.
    let none = black_box(0u64);
    let mut root = 0.0f64;
    for input in black_box(inputs) {
        root = f64::from_bits(input.to_bits() | root.to_bits() & none);
        for _ in 0..IN_A_ROW {
            root = sqrt(root);
        }
    }
    black_box(root);
}

/// Roots that the processor may work out side by side. Each is looked at, so that none is left out or put in pairs into
/// one instruction.
#[inline(always)]
fn each_alone(inputs: &[f64; INPUTS], sqrt: impl Fn(f64) -> f64) {
    for &input in black_box(inputs) {
        black_box(sqrt(input));
    }
}
