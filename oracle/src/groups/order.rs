//! Keys against `f64::total_cmp`, and the order of three patterns against a stable `sort_by` with it.

use crate::generator::Generator;
use crate::patterns::{self, SIGN};
use crate::probe;
use crate::report::Report;

/// Compares the library.
pub fn run(generator: &mut Generator, count: u64, report: &mut Report) {
    compare(
        maghnelt::total_order_key,
        probe::order_of_three,
        generator,
        count,
        report,
    );
}

fn compare(
    key: impl Fn(u64) -> i64,
    order_of_three: impl Fn(u64, u64, u64) -> u32,
    generator: &mut Generator,
    count: u64,
    report: &mut Report,
) {
    let special = patterns::special();
    for &a in &special {
        for &b in &special {
            check_pair(&key, a, b, report);
            for &c in &special {
                check_three(&order_of_three, [a, b, c], report);
            }
        }
    }
    while report.cases() < count {
        let a = patterns::random(generator);
        let b = related(a, generator);
        let c = related(generator.pick(&[a, b]), generator);
        check_pair(&key, a, b, report);
        check_three(&order_of_three, shuffled([a, b, c], generator), report);
    }
}

/// A pattern that is often equal to `a` or close to it: there an order is easily wrong.
fn related(a: u64, generator: &mut Generator) -> u64 {
    match generator.below(8) {
        0 | 1 => a,
        2 => a ^ SIGN,
        3 => a.wrapping_add_signed(generator.between(-2, 2)),
        4 => a ^ 1 << generator.below(64),
        5 => !a,
        _ => patterns::random(generator),
    }
}

fn shuffled(mut three: [u64; 3], generator: &mut Generator) -> [u64; 3] {
    three.swap(0, generator.below(3) as usize);
    three.swap(1, 1 + generator.below(2) as usize);
    three
}

fn check_pair(key: impl Fn(u64) -> i64, a: u64, b: u64, report: &mut Report) {
    let (key_a, key_b) = (key(a), key(b));
    let library = key_a.cmp(&key_b);
    let rust = f64::from_bits(a).total_cmp(&f64::from_bits(b));
    report.check(library == rust, || {
        format!("{a:016X} and {b:016X}: keys {key_a:016X} and {key_b:016X} compare {library:?}, Rust {rust:?}")
    });
}

fn check_three(
    order_of_three: impl Fn(u64, u64, u64) -> u32,
    three: [u64; 3],
    report: &mut Report,
) {
    let [a, b, c] = three;
    let library = order_of_three(a, b, c);
    let rust = sorted(three);
    report.check(library == rust, || {
        format!("order of {a:016X}, {b:016X}, {c:016X}: library {library:03}, Rust {rust:03}")
    });
}

/// The places of the three in rising order, as the digits of one number.
fn sorted(three: [u64; 3]) -> u32 {
    let values = three.map(f64::from_bits);
    let mut places = [0, 1, 2];
    places.sort_by(|&i, &j| values[i].total_cmp(&values[j]));
    places
        .iter()
        .fold(0, |digits, &place| digits * 10 + place as u32)
}

#[cfg(test)]
mod tests {
    use super::*;

    fn right_key(bits: u64) -> i64 {
        let signed = bits as i64;
        signed ^ ((signed >> 63) & i64::MAX)
    }

    /// Sorts three places by swaps of the given pairs of positions.
    fn by_swaps(swaps: [(usize, usize); 3], three: [u64; 3]) -> u32 {
        let mut places = [0usize, 1, 2];
        for (i, j) in swaps {
            if right_key(three[places[i]]) > right_key(three[places[j]]) {
                places.swap(i, j);
            }
        }
        places
            .iter()
            .fold(0, |digits, &place| digits * 10 + place as u32)
    }

    fn right_order(a: u64, b: u64, c: u64) -> u32 {
        by_swaps([(0, 1), (1, 2), (0, 1)], [a, b, c])
    }

    fn mismatches(key: impl Fn(u64) -> i64, order_of_three: impl Fn(u64, u64, u64) -> u32) -> u64 {
        let mut report = Report::new("order");
        compare(
            key,
            order_of_three,
            &mut Generator::new(1),
            400_000,
            &mut report,
        );
        report.mismatches()
    }

    #[test]
    fn the_right_key_and_order_pass() {
        assert_eq!(mismatches(right_key, right_order), 0);
    }

    #[test]
    fn no_inversion_for_negatives_is_found() {
        assert!(mismatches(|bits| bits as i64, right_order) > 0);
    }

    #[test]
    fn equal_zeros_are_found() {
        let negated = |bits: u64| match bits & SIGN {
            0 => bits as i64,
            _ => -((bits - SIGN) as i64),
        };
        assert!(mismatches(negated, right_order) > 0);
    }

    #[test]
    fn a_lost_low_bit_is_found() {
        assert!(mismatches(|bits| right_key(bits) >> 1, right_order) > 0);
    }

    #[test]
    fn a_swap_of_first_and_last_is_found() {
        let unstable = |a, b, c| by_swaps([(0, 2), (0, 1), (1, 2)], [a, b, c]);
        assert!(mismatches(right_key, unstable) > 0);
    }

    #[test]
    fn equal_patterns_in_falling_places_are_found() {
        let falling = |a, b, c| match right_order(a, b, c) {
            12 if b == c => 21,
            order => order,
        };
        assert!(mismatches(right_key, falling) > 0);
    }
}
