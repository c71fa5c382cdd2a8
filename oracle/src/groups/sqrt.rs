//! The square root, against `f64::sqrt`: worked out alone, and among others.
//!
//! Random patterns hardly ever come near a place where rounding is hard, so most cases are made to be hard.

use crate::generator::Generator;
use crate::patterns::{self, same, FRACTION, SIGN};
use crate::probe;
use crate::report::Report;

/// Compares the library.
pub fn run(generator: &mut Generator, count: u64, report: &mut Report) {
    compare(maghnelt::sqrt, generator, count, report);
    // Of the multiple's leading bits nearly every one is 1 as often as 0.
    let among = |x: f64| {
        let drawn = x.to_bits().wrapping_mul(0x9E37_79B9_7F4A_7C15);
        let many = 1 + (drawn >> 59) as usize;
        let place = (drawn >> 54) as usize % many;
        probe::sqrt_among(x, f64::from_bits(drawn), place, many)
    };
    compare(among, generator, 2 * count, report);
}

fn compare(sqrt: impl Fn(f64) -> f64, generator: &mut Generator, count: u64, report: &mut Report) {
    let check = |report: &mut Report, bits: u64| {
        let x = f64::from_bits(bits);
        let (library, rust) = (sqrt(x), x.sqrt());
        report.check(same(library, rust), || {
            format!(
                "root of {bits:016X}: library {:016X}, Rust {:016X}",
                library.to_bits(),
                rust.to_bits()
            )
        });
    };
    for bits in patterns::exponent_edges().chain(powers_of_two_and_neighbours()) {
        check(report, bits);
    }
    for t in -1000..=1000 {
        for bits in next_to_squared_midpoints(8 * t + 1, generator) {
            check(report, bits);
        }
    }
    while report.cases() < count {
        for root in hard_roots(generator) {
            for bits in around_square(root, generator) {
                check(report, bits);
            }
        }
        for _ in 0..16 {
            let t = generator.between(-(1 << 24), 1 << 24);
            for bits in next_to_squared_midpoints(8 * t + 1, generator) {
                check(report, bits);
            }
            check(report, patterns::random(generator));
            check(report, patterns::random_subnormal(generator));
            // Without a sign, since every number below zero has the same root.
            check(report, generator.bits() & !SIGN);
        }
    }
}

/// Every power of two, the subnormal ones too, with its neighbours.
fn powers_of_two_and_neighbours() -> impl Iterator<Item = u64> {
    let subnormal = (0..52).map(|place| 1u64 << place);
    let normal = (1..2047).map(|exponent| exponent << 52);
    subnormal
        .chain(normal)
        .flat_map(|bits| (-3..=3).filter_map(move |step| bits.checked_add_signed(step)))
}

/// Roots whose squares are hard places: of half the digits, so that the square is exact or nearly so; of all 53 digits;
/// and midpoints between two of these, which are odd numbers of 54 digits.
fn hard_roots(generator: &mut Generator) -> [u64; 4] {
    [
        generator.of_width(26),
        generator.of_width(27),
        generator.of_width(53),
        generator.of_width(54) | 1,
    ]
}

/// The numbers around the square of `root`, times a random power of 4, so that the roots have the digits of `root`.
fn around_square(root: u64, generator: &mut Generator) -> impl Iterator<Item = u64> {
    let square = u128::from(root) * u128::from(root);
    let length = 128 - square.leading_zeros() as i64;
    // The first 53 digits; the square lies at these or just above.
    let leading = (square << (128 - length) >> (128 - 53)) as u64;
    let bits = scaled(leading, length - 53, generator);
    (-4..=4).map(move |step| bits.wrapping_add_signed(step))
}

/// The numbers x such that x * 2^k is `rest` below the square of an odd number m of 54 digits, where k, 54 or 55, makes
/// up for the lengths, each times a random power of 4. The root of x * 2^k lies less than about |rest| / 2^54 from m,
/// which is the midpoint of two numbers: with a small rest these are the hardest numbers to round. An odd square is 1
/// more than a multiple of 8, and so is the rest.
fn next_to_squared_midpoints(rest: i64, generator: &mut Generator) -> Vec<u64> {
    let mut found = Vec::new();
    for k in [54, 55] {
        let root = root_modulo(rest, k);
        let half = 1u64 << (k - 1);
        // The four roots modulo 2^k.
        for m in [root, half - root, half + root, 2 * half - root] {
            let below_square =
                (u128::from(m) * u128::from(m)).wrapping_add_signed(-i128::from(rest));
            let x = (below_square >> k) as u64;
            if m >> 53 == 1 && x >> 52 == 1 {
                found.push(scaled(x, i64::from(k), generator));
            }
        }
    }
    found
}

/// An odd number below 2^(k-1) whose square is `rest` modulo 2^k, for a rest that is 1 modulo 8.
fn root_modulo(rest: i64, k: u32) -> u64 {
    let mut root = 1u64;
    for n in 3..k {
        // The square is right modulo 2^n. To add 2^(n-1) to the root changes digit n of the square and none below.
        if (root.wrapping_mul(root) ^ rest as u64) >> n & 1 == 1 {
            root += 1 << (n - 1);
        }
    }
    root
}

/// The pattern of a 53-digit whole number times 2^exponent times a random power of 4, such that it is normal.
fn scaled(digits: u64, exponent: i64, generator: &mut Generator) -> u64 {
    debug_assert_eq!(digits >> 52, 1);
    // The biased exponent, 1 to 2046, of the same parity as that of digits * 2^exponent.
    let odd = (exponent + 52 + 1023) & 1;
    let biased = 2 * generator.between(1 - odd, 1023 - odd) + odd;
    (biased as u64) << 52 | (digits & FRACTION)
}

#[cfg(test)]
mod tests {
    use super::*;

    fn mismatches(sqrt: impl Fn(f64) -> f64, count: u64) -> u64 {
        let mut report = Report::new("sqrt");
        compare(sqrt, &mut Generator::new(1), count, &mut report);
        report.mismatches()
    }

    /// The number below `x`, which is above zero.
    fn below(x: f64) -> f64 {
        f64::from_bits(x.to_bits() - 1)
    }

    #[test]
    fn the_right_root_passes() {
        assert_eq!(mismatches(f64::sqrt, 200_000), 0);
    }

    #[test]
    fn floor_in_place_of_nearest_is_found() {
        let floor = |x: f64| {
            let root = x.sqrt();
            // Rounded once, so that its sign says on which side of the true root this one lies.
            if root.is_normal() && root.mul_add(root, -x) > 0.0 {
                below(root)
            } else {
                root
            }
        };
        assert!(mismatches(floor, 0) > 0);
    }

    #[test]
    fn subnormals_taken_for_zero_are_found() {
        assert!(mismatches(|x| if x.is_subnormal() { 0.0 } else { x.sqrt() }, 0) > 0);
    }

    #[test]
    fn another_root_of_minus_zero_is_found() {
        assert!(mismatches(|x| x.sqrt() + 0.0, 0) > 0);
        assert!(
            mismatches(
                |x| if x.is_sign_negative() {
                    f64::NAN
                } else {
                    x.sqrt()
                },
                0
            ) > 0
        );
    }

    #[test]
    fn a_root_of_minus_one_is_found() {
        assert!(mismatches(|x| x.abs().sqrt().copysign(x), 0) > 0);
    }

    #[test]
    fn a_root_that_errs_only_next_to_a_midpoint_is_found() {
        // Too low where it lies less than 2^-26 of the last place above a midpoint: next to no random number shows it.
        let hardly_wrong = |x: f64| {
            let root = x.sqrt();
            if !x.is_normal() || x < 0.0 {
                return root;
            }
            let digits = u128::from(x.to_bits() & FRACTION | 1 << 52);
            let whole = digits << (54 + (x.to_bits() >> 52 & 1 ^ 1));
            let floor = whole.isqrt();
            if floor & 1 == 1 && whole - floor * floor < 1 << 28 {
                below(root)
            } else {
                root
            }
        };
        assert!(mismatches(hardly_wrong, 0) > 0);
    }

    #[test]
    fn squared_midpoints_are_met_as_closely_as_said() {
        let mut generator = Generator::new(1);
        let (mut above, mut below) = (0, 0);
        for rest in [-15, -7, 1, 9, 17] {
            for bits in next_to_squared_midpoints(rest, &mut generator) {
                let whole = u128::from(bits & FRACTION | 1 << 52) << (54 + (bits >> 52 & 1 ^ 1));
                let square = whole.wrapping_add_signed(rest.into());
                assert_eq!(square.isqrt() * square.isqrt(), square);
                assert_eq!(square.isqrt() & 1, 1);
                if rest < 0 {
                    above += 1;
                } else {
                    below += 1;
                }
            }
        }
        assert!(above > 0 && below > 0);
    }

    #[test]
    fn exact_squares_are_their_own_neighbourhood() {
        let mut generator = Generator::new(1);
        for _ in 0..100 {
            let root = generator.of_width(26);
            let numbers: Vec<u64> = around_square(root, &mut generator).collect();
            let exact = f64::from_bits(numbers[4]).sqrt();
            assert_eq!(
                exact.to_bits() & FRACTION,
                (root as f64).to_bits() & FRACTION
            );
            assert_eq!(exact * exact, f64::from_bits(numbers[4]));
        }
    }
}
