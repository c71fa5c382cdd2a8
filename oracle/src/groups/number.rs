//! The value of a bit pattern, against `f64::from_bits`.

use crate::generator::Generator;
use crate::patterns::{self, same};
use crate::probe;
use crate::report::Report;

/// Compares the library.
pub fn run(generator: &mut Generator, count: u64, report: &mut Report) {
    compare(probe::number, generator, count, report);
}

fn compare(
    number: impl Fn(u64) -> f64,
    generator: &mut Generator,
    count: u64,
    report: &mut Report,
) {
    let check = |report: &mut Report, bits: u64| {
        let (library, rust) = (number(bits), f64::from_bits(bits));
        report.check(same(library, rust), || {
            format!(
                "value of {bits:016X}: library {:016X}, Rust {:016X}",
                library.to_bits(),
                rust.to_bits()
            )
        });
    };
    for bits in patterns::special() {
        check(report, bits);
    }
    for bits in patterns::exponent_edges() {
        check(report, bits);
    }
    while report.cases() < count {
        check(report, patterns::random(generator));
    }
}

#[cfg(test)]
mod tests {
    use super::*;

    fn mismatches(number: impl Fn(u64) -> f64) -> u64 {
        let mut report = Report::new("number");
        compare(number, &mut Generator::new(1), 0, &mut report);
        report.mismatches()
    }

    #[test]
    fn the_right_value_passes() {
        assert_eq!(mismatches(f64::from_bits), 0);
    }

    #[test]
    fn a_nan_taken_for_infinity_is_found() {
        assert!(
            mismatches(|bits| match f64::from_bits(bits) {
                x if x.is_nan() => f64::INFINITY,
                x => x,
            }) > 0
        );
    }

    #[test]
    fn an_infinity_taken_for_a_nan_is_found() {
        assert!(mismatches(|bits| f64::from_bits(bits) * 0.0 + f64::from_bits(bits)) > 0);
    }

    #[test]
    fn a_lost_sign_of_zero_is_found() {
        assert!(mismatches(|bits| f64::from_bits(bits) + 0.0) > 0);
    }
}
