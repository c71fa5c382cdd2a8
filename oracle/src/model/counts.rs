//! The model of saturated counts, which document 02 has refused by 15.

use crate::patterns::FRACTION;

/// The count at which one more point changes no count: 2^53.
pub const MOST: f64 = 9_007_199_254_740_992.0;

/// Reason 15 of a push: the count is at or above that number. +infinity is, a NaN is not.
pub fn refuses_push(count: f64) -> bool {
    count >= MOST
}

/// Reason 15 of a merge: the exact sum of the two counts is above that number.
pub fn refuses_merge(a: f64, b: f64) -> bool {
    if a.is_nan() || b.is_nan() {
        return false;
    }
    if a.is_finite() && b.is_finite() {
        return sum_is_above([a, b], MOST);
    }
    // An infinity is above or below every number by its sign, and two opposite ones are not refused.
    a != f64::NEG_INFINITY && b != f64::NEG_INFINITY
}

/// Whether the exact sum of two finite numbers is above a third one that is not negative: negative ones are added on the other
/// side, so that only sizes are added.
fn sum_is_above(numbers: [f64; 2], bound: f64) -> bool {
    let sum = |sizes: [f64; 2]| {
        let [a, b] = sizes.map(|size| Units::of(size.max(0.0)));
        a.plus(b)
    };
    sum(numbers) > sum(numbers.map(|x| -x)).plus(Units::of(bound))
}

/// How many words of 64 bits a number of units has.
const WORDS: usize = 33;

/// A whole number of units of 2^-1074, the least number of the format: every finite number that is not negative is one. The word
/// with the highest digits stands first, so that numbers compare as their words do. The largest number of the format is below
/// 2^2098 units, so that there is room for a sum of three.
#[derive(Clone, Copy, PartialEq, Eq, PartialOrd, Ord)]
struct Units([u64; WORDS]);

impl Units {
    /// The units of a finite number that is not negative.
    fn of(x: f64) -> Units {
        let (exponent, fraction) = (x.to_bits() >> 52 & 0x7FF, x.to_bits() & FRACTION);
        // The fraction of a subnormal number counts units. A normal number has one more digit before it, and each exponent above
        // the least doubles it.
        let (digits, doubled) = match exponent {
            0 => (fraction, 0),
            _ => (1 << 52 | fraction, exponent as usize - 1),
        };
        let two_words = u128::from(digits) << (doubled % 64);
        let last = WORDS - 1 - doubled / 64;
        let mut words = [0; WORDS];
        words[last] = two_words as u64;
        words[last - 1] = (two_words >> 64) as u64;
        Units(words)
    }

    /// The sum, word by word from the last, as it is done on paper.
    fn plus(self, other: Units) -> Units {
        let mut words = [0; WORDS];
        let mut carry = 0;
        for k in (0..WORDS).rev() {
            let sum = u128::from(self.0[k]) + u128::from(other.0[k]) + carry;
            words[k] = sum as u64;
            carry = sum >> 64;
        }
        assert_eq!(carry, 0, "a sum that has no room");
        Units(words)
    }
}

#[cfg(test)]
mod tests {
    use super::*;
    use crate::counts::{pair, turning};
    use crate::generator::Generator;

    /// Pairs of counts: every two at which something turns, and many that are drawn.
    fn pairs() -> impl Iterator<Item = [f64; 2]> {
        let every_two = turning()
            .into_iter()
            .flat_map(|a| turning().into_iter().map(move |b| [a, b]));
        let mut generator = Generator::new(1);
        every_two.chain((0..200_000).map(move |_| pair(&mut generator)))
    }

    #[test]
    fn the_cases_of_the_request() {
        let refused = |[a, b]: [f64; 2]| {
            assert_eq!(refuses_merge(a, b), refuses_merge(b, a));
            refuses_merge(a, b)
        };
        let (huge, infinity) = (2f64.powi(106), f64::INFINITY);
        assert!(refused([MOST, 1.0]) && refused([MOST, 5e-324]));
        assert!(!refused([MOST, -0.0]) && !refused([MOST + 2.0, -2.0]));
        assert!(refused([MOST + 2.0, -1.0]));
        assert!(!refused([huge, MOST - huge]) && huge + (MOST - huge) == MOST);
        assert!(!refused([MOST - 1.0, 1.0]));
        assert!(refused([MOST - 1.0, 1.5]) && MOST - 1.0 + 1.5 == MOST);
        assert!(refused([infinity, -1e308]) && !refused([-infinity, 1e308]));
        assert!(refused([infinity; 2]) && !refused([-infinity; 2]));
        assert!(!refused([infinity, -infinity]) && !refused([infinity, f64::NAN]));
        let pushes = [MOST - 1.0, MOST, infinity, -infinity, -MOST, f64::NAN];
        let refused = pushes.map(refuses_push);
        assert_eq!(refused, [false, true, true, false, false, false]);
    }

    #[test]
    fn units_rise_with_the_numbers() {
        let mut numbers = turning();
        numbers.retain(|x| x.is_finite() && x.is_sign_positive());
        for a in &numbers {
            for b in &numbers {
                assert_eq!(Some(Units::of(*a).cmp(&Units::of(*b))), a.partial_cmp(b));
            }
        }
        // The least number is one unit, the largest has the highest digits that are ever taken.
        let ([zeros @ .., one], most) = (Units::of(5e-324).0, Units::of(f64::MAX).0);
        assert!(zeros == [0; WORDS - 1] && one == 1);
        assert!(most[0] == (1 << 50) - 1 && most[1] == 7 << 61 && most[2..] == [0; WORDS - 2]);
    }

    /// Knuth's sum of two numbers and what it rounds away: s + e is a + b exactly, by a theorem, where nothing overflows.
    fn two_sum(a: f64, b: f64) -> [f64; 2] {
        let s = a + b;
        let part = s - a;
        [s, (a - (s - part)) + (b - part)]
    }

    #[test]
    fn sums_in_units_are_those_of_another_way() {
        let mut near = 0;
        for [a, b] in pairs().filter(|pair| pair.iter().all(|x| x.is_finite())) {
            let [s, e] = two_sum(a, b);
            // Rounding keeps the order, and 2^53 is a number of the format: where the rounded sum is not 2^53 it lies on the
            // exact one's side of it, also where it overflows.
            let above = s > MOST || s == MOST && e > 0.0;
            assert_eq!(refuses_merge(a, b), above, "{a:e} and {b:e}");
            near += u32::from(s == MOST && e != 0.0);
        }
        assert!(near > 1000, "{near} pairs whose sum is rounded to 2^53");
    }

    #[test]
    fn whole_sums_are_those_of_integers() {
        let is_whole = |x: f64| x.abs() < 2f64.powi(120) && x.trunc() == x;
        let mut whole = 0;
        for [a, b] in pairs().filter(|pair| pair.iter().all(|x| is_whole(*x))) {
            assert_eq!(refuses_merge(a, b), a as i128 + b as i128 > 1 << 53);
            whole += 1;
        }
        assert!(whole > 1000, "{whole} pairs of whole numbers");
    }

    /// No count lies between 2^53 - 1 and 2^53, so that a push is refused where merging the set of its point would be.
    #[test]
    fn a_push_is_refused_where_a_merge_with_one_point_is() {
        for count in pairs().flatten() {
            assert_eq!(refuses_push(count), refuses_merge(count, 1.0), "{count:e}");
            assert_eq!(refuses_push(count), refuses_merge(1.0, count), "{count:e}");
        }
    }
}
