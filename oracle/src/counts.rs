//! Counts of sets at which a push or a merge turns: about 2^53, alone and in sums.

use crate::draws::within;
use crate::generator::Generator;
use crate::model::counts::MOST;
use crate::patterns::{self, FRACTION, SIGN};

/// The number that is so many steps of the format further from 0; with a minus, nearer to it. Past the last one it is a NaN.
pub fn beside(x: f64, steps: i64) -> f64 {
    f64::from_bits(x.to_bits().wrapping_add_signed(steps))
}

/// Counts at which something turns, with both signs.
pub fn turning() -> Vec<f64> {
    let huge = 2f64.powi(106);
    let mut sizes = vec![
        0.0,
        5e-324,
        f64::MIN_POSITIVE,
        2f64.powi(-60),
        0.5,
        1.0,
        1.5,
        2.0,
        3.0,
        // 2^106, from which 2^53 is taken exactly, and the next one, from which it is not.
        beside(huge, -1),
        huge,
        beside(huge, 1),
        1e308,
        f64::MAX,
        f64::INFINITY,
    ];
    for power in [MOST / 2.0, MOST, 2.0 * MOST] {
        sizes.extend((-3..=3).map(|steps| beside(power, steps)));
    }
    // Two NaNs that signal and two that do not.
    let nans = [0x7FF0_0000_0000_0001, 0x7FF8_0000_0000_0B0B].map(f64::from_bits);
    sizes.extend(nans);
    sizes.iter().flat_map(|&size| [size, -size]).collect()
}

/// A number with an exponent from `low` on and below `high`.
fn of_exponents(low: i64, high: i64, generator: &mut Generator) -> f64 {
    let exponent = 1023 + generator.between(low, high - 1);
    f64::from_bits((exponent as u64) << 52 | generator.bits() & FRACTION)
}

/// What is little beside 2^53: halves, fractions, subnormal numbers, 0.
fn little(generator: &mut Generator) -> f64 {
    match generator.below(4) {
        0 => generator.pick(&[0.0, 5e-324, 0.5, 1.0, 1.5, 2.0, 2.5]),
        1 => f64::from_bits(patterns::random_subnormal(generator)),
        2 => within(0.0, 4.0, generator),
        _ => of_exponents(-1022, 3, generator),
    }
}

/// The size of one of two counts that come to 2^53: a whole number, one with a fraction, a large one.
fn part(generator: &mut Generator) -> f64 {
    match generator.below(4) {
        0 => generator.below(1 << 53) as f64,
        1 => of_exponents(0, 54, generator),
        2 => of_exponents(51, 54, generator),
        _ => of_exponents(54, 111, generator),
    }
}

fn signed(size: f64, generator: &mut Generator) -> f64 {
    f64::from_bits(size.to_bits() | generator.bits() & SIGN)
}

/// A random count: in three of eight cases at most four steps from 2^53.
pub fn count(generator: &mut Generator) -> f64 {
    let steps = generator.between(-4, 4);
    match generator.below(8) {
        0..3 => beside(MOST, steps),
        3 => beside(generator.pick(&[MOST / 2.0, 2.0 * MOST, -MOST]), steps),
        4 => signed(part(generator), generator),
        5 => signed(little(generator), generator),
        6 => {
            let nan = f64::from_bits(patterns::random_nan(generator));
            let size = generator.pick(&[f64::INFINITY, f64::INFINITY, nan]);
            signed(size, generator)
        }
        _ => f64::from_bits(patterns::random(generator)),
    }
}

/// Two random counts: in most cases their sum is 2^53, or not far from it.
pub fn pair(generator: &mut Generator) -> [f64; 2] {
    let mut few = || generator.pick(&[-2, -1, 0, 0, 0, 1, 2]);
    let (first, second) = (few(), few());
    let [a, b] = match generator.below(5) {
        0 => [count(generator), count(generator)],
        1 => [beside(MOST, first), signed(little(generator), generator)],
        _ => {
            let a = signed(part(generator), generator);
            [beside(a, first), beside(MOST - a, second)]
        }
    };
    match generator.below(2) {
        0 => [a, b],
        _ => [b, a],
    }
}

#[cfg(test)]
mod tests {
    use super::*;
    use crate::model::counts::{refuses_merge, refuses_push};

    #[test]
    fn counts_of_every_kind_turn() {
        let turning = turning();
        let turns = |count: f64| turning.iter().any(|x| x.to_bits() == count.to_bits());
        let huge = 2f64.powi(106);
        let little = [0.0, 5e-324, 0.5, 1.0, 1.5, 2.0];
        let large = [MOST - 1.0, MOST, MOST + 2.0, huge - MOST, huge, 1e308];
        for size in little.into_iter().chain(large).chain([f64::INFINITY]) {
            assert!(turns(size) && turns(-size), "{size:e}");
        }
        let nans: Vec<f64> = turning.into_iter().filter(|x| x.is_nan()).collect();
        let below = nans.iter().filter(|x| x.is_sign_negative()).count();
        assert_eq!([nans.len(), below], [4, 2]);
    }

    #[test]
    fn drawn_counts_are_of_every_kind() {
        let mut generator = Generator::new(1);
        let drawn: Vec<f64> = (0..10_000).map(|_| count(&mut generator)).collect();
        let kinds: [fn(f64) -> bool; 9] = [
            |x| x == MOST,
            |x| x == MOST - 1.0,
            |x| x == MOST + 2.0,
            |x| x == f64::INFINITY,
            |x| x == f64::NEG_INFINITY,
            |x| x.is_nan() && x.is_sign_negative(),
            |x| x < 0.0 && -x >= MOST,
            |x| x != 0.0 && x.abs() < f64::MIN_POSITIVE,
            |x| x.abs() > 2.0 * MOST,
        ];
        for (place, is_such) in kinds.into_iter().enumerate() {
            let number = drawn.iter().filter(|&&x| is_such(x)).count();
            assert!(number > 50, "kind {place} was drawn {number} times");
        }
        let refused = drawn.iter().filter(|&&x| refuses_push(x)).count();
        assert!((3_000..7_000).contains(&refused), "{refused} are refused");
    }

    #[test]
    fn sums_of_drawn_pairs_are_about_2_to_the_53() {
        let mut generator = Generator::new(1);
        let drawn: Vec<[f64; 2]> = (0..10_000).map(|_| pair(&mut generator)).collect();
        let number =
            |holds: &dyn Fn([f64; 2]) -> bool| drawn.iter().filter(|&&pair| holds(pair)).count();
        let refused = number(&|[a, b]| refuses_merge(a, b));
        assert!((3_000..7_000).contains(&refused), "{refused} are refused");
        let rounds_to = |[a, b]: [f64; 2]| a + b == MOST;
        let refused = number(&|[a, b]| rounds_to([a, b]) && refuses_merge(a, b));
        let accepted = number(&|[a, b]| rounds_to([a, b]) && !refuses_merge(a, b));
        assert!(refused > 500 && accepted > 500, "{refused} and {accepted}");
        assert!(number(&|[a, b]| a.abs() > 2.0 * MOST && b.abs() > 2.0 * MOST) > 500);
    }
}
