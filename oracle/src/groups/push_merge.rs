//! Points pushed and sets merged, and the counts for which both are refused, against the model.

use crate::called::{each_alone, every_pair, Fault};
use crate::counts::{self, beside};
use crate::draws::{numbers, old, record, Wall};
use crate::generator::Generator;
use crate::lent::{number, Call, Comparison};
use crate::model::counts::MOST;
use crate::model::{moments as model, LENGTH, SATURATED};
use crate::report::Report;
use maghnelt::{slices as library, MOMENTS};

/// What a call is lent: moments, and a point or the moments of another set.
type Case = [Vec<f64>; 2];

/// Numbers of a point.
const POINT: usize = 3;

/// Compares the library.
pub fn run(generator: &mut Generator, count: u64, report: &mut Report) {
    let push = |[moments, point]: [&mut [f64]; 2], _: &mut u32| {
        number(library::moments_push(moments, point))
    };
    let merge = |[moments, other]: [&mut [f64]; 2], _: &mut u32| {
        number(library::moments_merge(moments, other))
    };
    compare([&push, &merge], generator, count, report);
}

/// Compares the two calls, `moments_push` and `moments_merge`.
fn compare(
    [push, merge]: [&Call<'_, 2>; 2],
    generator: &mut Generator,
    count: u64,
    report: &mut Report,
) {
    let model_push = model::push_call(model::push_refusal, model::with_point);
    let model_merge = model::merge_call(model::merge_refusal, model::merged);
    let names = ["moments", "point"];
    let mut push = Comparison::new("moments_push", names, 0, push, &model_push);
    let names = ["moments", "other"];
    let mut merge = Comparison::new("moments_merge", names, 0, merge, &model_merge);
    let record = Some(MOMENTS);
    push.check_lengths([record, Some(POINT)], generator, report);
    merge.check_lengths([record, record], generator, report);
    each_push(generator, |case| push.check(slices(&case), report));
    each_merge(generator, |case| merge.check(slices(&case), report));
    while report.cases() < count {
        push.check(slices(&some_push(generator)), report);
        merge.check(slices(&some_merge(generator)), report);
    }
}

fn slices(case: &Case) -> [&[f64]; 2] {
    case.each_ref().map(Vec::as_slice)
}

/// Every count at which something turns, and every fault alone and beside every other.
fn each_push(generator: &mut Generator, mut check: impl FnMut(Case)) {
    for count in counts::turning().into_iter().flat_map(|count| [count; 4]) {
        check([set_of(count, generator), some_point(generator)]);
    }
    let faults = push_faults();
    each_alone(&faults, accepted_push, generator, &mut check);
    every_pair(&faults, accepted_push, generator, |case, _| check(case));
}

/// The same of every two counts.
fn each_merge(generator: &mut Generator, mut check: impl FnMut(Case)) {
    for first in counts::turning() {
        for second in counts::turning() {
            check([first, second].map(|count| set_of(count, generator)));
        }
    }
    let faults = merge_faults();
    each_alone(&faults, accepted_merge, generator, &mut check);
    every_pair(&faults, accepted_merge, generator, |case, _| check(case));
}

/// What a push can be refused for.
fn push_faults() -> Vec<Fault<Case>> {
    let saturated = [MOST, beside(MOST, 1), 2.0 * MOST, f64::MAX, f64::INFINITY];
    let saturated = saturated.map(|count| {
        Fault::new(SATURATED, move |[moments, _]: &mut Case, _| {
            with_count(count, moments);
        })
    });
    let lengths = wrong_lengths(0, MOMENTS).chain(wrong_lengths(1, POINT));
    lengths.chain(saturated).collect()
}

/// What a merge can be refused for.
fn merge_faults() -> Vec<Fault<Case>> {
    let huge = 2f64.powi(106);
    let saturated = [
        [MOST, 1.0],
        [1.0, MOST],
        [MOST, 5e-324],
        [MOST - 1.0, 1.5],
        [MOST + 2.0, -1.0],
        [MOST / 2.0 + 1.0, MOST / 2.0],
        [-huge, beside(huge, 1)],
        [f64::MAX, f64::MAX],
        [f64::INFINITY, -1e308],
        [0.0, f64::INFINITY],
        [f64::INFINITY, f64::INFINITY],
    ];
    let saturated = saturated.map(|[first, second]| {
        Fault::new(SATURATED, move |[moments, other]: &mut Case, _| {
            with_count(first, moments);
            with_count(second, other);
        })
    });
    let lengths = wrong_lengths(0, MOMENTS).chain(wrong_lengths(1, MOMENTS));
    lengths.chain(saturated).collect()
}

/// Lengths that a slice must not have.
fn wrong_lengths(slice: usize, right: usize) -> impl Iterator<Item = Fault<Case>> {
    let wrong = [0, right - 1, right + 1, 2 * right];
    wrong.into_iter().map(move |length| {
        Fault::new(LENGTH, move |case: &mut Case, _| {
            case[slice].resize(length, 1.0);
        })
    })
}

/// Gives moments a count; where a length is wrong there may be no place for it.
fn with_count(count: f64, moments: &mut [f64]) {
    if let Some(first) = moments.first_mut() {
        *first = count;
    }
}

/// A set of that count.
fn set_of(count: f64, generator: &mut Generator) -> Vec<f64> {
    let mut set = some_set(generator);
    with_count(count, &mut set);
    set
}

/// Moments as they are met, of any numbers, or with many NaNs, whose bits a refused call has to leave.
fn some_set(generator: &mut Generator) -> Vec<f64> {
    match generator.below(3) {
        0 => old(MOMENTS, generator),
        _ => record(generator).to_vec(),
    }
}

fn some_point(generator: &mut Generator) -> Vec<f64> {
    let point = match generator.below(3) {
        0 => Wall::random(generator).point(generator),
        _ => numbers::<POINT>(generator),
    };
    point.to_vec()
}

/// A random push, in most cases into a set of a count at which something turns.
fn some_push(generator: &mut Generator) -> Case {
    let moments = match generator.below(3) {
        0 => some_set(generator),
        _ => set_of(counts::count(generator), generator),
    };
    [moments, some_point(generator)]
}

/// A random merge, in most cases of counts at whose sum something turns.
fn some_merge(generator: &mut Generator) -> Case {
    match generator.below(3) {
        0 => [(); 2].map(|()| some_set(generator)),
        _ => counts::pair(generator).map(|count| set_of(count, generator)),
    }
}

/// A push that is accepted.
fn accepted_push(generator: &mut Generator) -> Case {
    let mut case = some_push(generator);
    if model::push_refusal(&case[0], &case[1]) != 0 {
        with_count(7.0, &mut case[0]);
    }
    case
}

/// A merge that is accepted.
fn accepted_merge(generator: &mut Generator) -> Case {
    let mut case = some_merge(generator);
    if model::merge_refusal(&case[0], &case[1]) != 0 {
        for set in &mut case {
            with_count(7.0, set);
        }
    }
    case
}

#[cfg(test)]
mod tests {
    use super::*;
    use crate::called::{check_faults, ACCEPTED};
    use crate::model::counts::{refuses_merge, refuses_push};
    use crate::model::{matrix, stored_vector, Vector};
    use model::Moments;

    /// Whether a count is refused, and whether two are.
    type OfOne = fn(f64) -> bool;
    type OfTwo = fn(f64, f64) -> bool;
    /// What is made of moments, by what else the call is lent.
    type Change = fn(&mut [f64], &[f64]);

    /// The right calls.
    const RIGHT: [&Call<'static, 2>; 2] = [
        &|slices, found| model::push_call(model::push_refusal, model::with_point)(slices, found),
        &|slices, found| model::merge_call(model::merge_refusal, model::merged)(slices, found),
    ];

    fn mismatches(calls: [&Call<'_, 2>; 2]) -> u64 {
        let mut report = Report::new("push_merge");
        compare(calls, &mut Generator::new(1), 20_000, &mut report);
        report.mismatches()
    }

    fn finds_push(push: &Call<'_, 2>) -> bool {
        mismatches([push, RIGHT[1]]) > 0
    }

    fn finds_merge(merge: &Call<'_, 2>) -> bool {
        mismatches([RIGHT[0], merge]) > 0
    }

    /// Whether a push is found that has another answer where one is right and `applies` holds of what it is lent.
    fn finds_answer_of_push(
        right: u32,
        other: u32,
        applies: impl Fn(&[f64], &[f64]) -> bool,
    ) -> bool {
        let refusal = |moments: &[f64], point: &[f64]| match model::push_refusal(moments, point) {
            answer if answer == right && applies(moments, point) => other,
            answer => answer,
        };
        finds_push(&model::push_call(refusal, model::with_point))
    }

    /// The same of a merge.
    fn finds_answer_of_merge(
        right: u32,
        other: u32,
        applies: impl Fn(&[f64], &[f64]) -> bool,
    ) -> bool {
        let refusal = |moments: &[f64], set: &[f64]| match model::merge_refusal(moments, set) {
            answer if answer == right && applies(moments, set) => other,
            answer => answer,
        };
        finds_merge(&model::merge_call(refusal, model::merged))
    }

    /// Whether a push that refuses other counts is found.
    fn finds_count(refuses: OfOne) -> bool {
        let refusal = |moments: &[f64], point: &[f64]| match model::push_refusal(moments, point) {
            LENGTH => LENGTH,
            _ if refuses(moments[0]) => SATURATED,
            _ => 0,
        };
        finds_push(&model::push_call(refusal, model::with_point))
    }

    /// Whether a merge that refuses other counts is found.
    fn finds_counts(refuses: OfTwo) -> bool {
        let refusal = |moments: &[f64], other: &[f64]| match model::merge_refusal(moments, other) {
            LENGTH => LENGTH,
            _ if refuses(moments[0], other[0]) => SATURATED,
            _ => 0,
        };
        finds_merge(&model::merge_call(refusal, model::merged))
    }

    #[test]
    fn the_model_itself_passes() {
        assert_eq!(mismatches(RIGHT), 0);
        assert!(!finds_count(refuses_push));
        assert!(!finds_counts(refuses_merge));
    }

    #[test]
    fn faults_are_refused_by_their_numbers() {
        let answer = |call: &Call<'_, 2>, mut case: Case| {
            call(case.each_mut().map(Vec::as_mut_slice), &mut 0)
        };
        check_faults(&push_faults(), accepted_push, |case| answer(RIGHT[0], case));
        check_faults(&merge_faults(), accepted_merge, |case| {
            answer(RIGHT[1], case)
        });
    }

    /// Counts that a wrong push refuses.
    const WRONG_COUNTS: [(&str, OfOne); 13] = [
        ("none", |_| false),
        ("above 2^53 alone", |n| n > MOST),
        ("2^53 less 1 too", |n| n >= MOST - 1.0),
        ("the count afterwards", |n| n + 1.0 >= MOST),
        ("the count afterwards above 2^53", |n| n + 1.0 > MOST),
        ("from 2^54 on", |n| n >= 2.0 * MOST),
        ("no infinity", |n| n >= MOST && n.is_finite()),
        ("both infinities", |n| n >= MOST || n.is_infinite()),
        ("NaNs too", |n| n >= MOST || n.is_nan()),
        ("by the bits", |n| n.to_bits() >= MOST.to_bits()),
        ("by the bits with their sign", |n| {
            n.to_bits() as i64 >= MOST.to_bits() as i64
        }),
        ("by the size", |n| n.abs() >= MOST),
        ("those that stand still", |n| n + 1.0 == n),
    ];

    /// Counts that a wrong merge refuses.
    const WRONG_SUMS: [(&str, OfTwo); 17] = [
        ("none", |_, _| false),
        ("by the rounded sum", |a, b| a + b > MOST),
        ("by the rounded sum, 2^53 too", |a, b| a + b >= MOST),
        ("2^53 too", |a, b| {
            refuses_merge(a, b) || a + b == MOST && a.trunc() == a && b.trunc() == b
        }),
        ("from 2^54 on", |a, b| refuses_merge(a / 2.0, b / 2.0)),
        ("the first alone", |a, _| a > MOST),
        ("the second alone", |_, b| b > MOST),
        ("each alone", |a, b| a > MOST || b > MOST),
        ("each alone, 2^53 too", |a, b| a >= MOST || b >= MOST),
        ("by whole parts", |a, b| refuses_merge(a.trunc(), b.trunc())),
        ("by integers", |a, b| {
            (a as i64).saturating_add(b as i64) > 1 << 53
        }),
        ("without subnormal numbers", |a, b| {
            let flushed = |x: f64| if x.is_subnormal() { 0.0 } else { x };
            refuses_merge(flushed(a), flushed(b))
        }),
        ("the first by its size", |a, b| refuses_merge(a.abs(), b)),
        ("the second by its size", |a, b| refuses_merge(a, b.abs())),
        ("both by their sizes", |a, b| {
            refuses_merge(a.abs(), b.abs())
        }),
        ("by the difference", |a, b| refuses_merge(a, -b)),
        ("one point more", |a, b| refuses_merge(a, b + 1.0)),
    ];

    /// Counts that a merge refuses by a difference that is rounded for some.
    const ROUNDED_DIFFERENCES: [(&str, OfTwo); 6] = [
        ("from the first", |a, b| b > MOST - a),
        ("from the second", |a, b| a > MOST - b),
        // Rounded above 2^106.
        ("from the larger", |a, b| a.min(b) > MOST - a.max(b)),
        ("from the smaller", |a, b| a.max(b) > MOST - a.min(b)),
        ("from the first where the rounded sum is 2^53", |a, b| {
            a + b > MOST || a + b == MOST && b > MOST - a
        }),
        ("of the rounded sum and the first", |a, b| {
            let sum = a + b;
            sum > MOST || sum == MOST && b - (sum - a) > 0.0
        }),
    ];

    /// Infinities and NaNs that a wrong merge refuses or does not.
    const WRONG_INFINITIES: [(&str, OfTwo); 11] = [
        ("no infinity", |a, b| {
            refuses_merge(a, b) && a.is_finite() && b.is_finite()
        }),
        ("no first infinity", |a, b| {
            refuses_merge(a, b) && a.is_finite()
        }),
        ("no second infinity", |a, b| {
            refuses_merge(a, b) && b.is_finite()
        }),
        ("no two infinities", |a, b| {
            refuses_merge(a, b) && (a.is_finite() || b.is_finite())
        }),
        ("opposite infinities too", |a, b| {
            refuses_merge(a, b) || a.is_infinite() && a == -b
        }),
        ("an infinity beside anything", |a, b| {
            refuses_merge(a, b) || a == f64::INFINITY || b == f64::INFINITY
        }),
        ("an infinity beside a NaN", |a, b| {
            refuses_merge(a, b) || a == f64::INFINITY && b.is_nan()
        }),
        ("infinities of both signs", |a, b| {
            refuses_merge(a, b) || a.is_infinite() && b != -a
        }),
        ("a first NaN too", |a, b| refuses_merge(a, b) || a.is_nan()),
        ("a second NaN too", |a, b| refuses_merge(a, b) || b.is_nan()),
        ("a sum that is a NaN too", |a, b| {
            refuses_merge(a, b) || (a + b).is_nan()
        }),
    ];

    #[test]
    fn other_counts_that_are_refused_are_found() {
        for (name, refuses) in WRONG_COUNTS {
            assert!(finds_count(refuses), "{name}");
        }
        let sums = WRONG_SUMS.into_iter().chain(ROUNDED_DIFFERENCES);
        for (name, refuses) in sums.chain(WRONG_INFINITIES) {
            assert!(finds_counts(refuses), "{name}");
        }
        // Where the rounded sum is 2^53, the difference from the larger one is exact.
        assert!(!finds_counts(|a, b| {
            a + b > MOST || a + b == MOST && a.min(b) > MOST - a.max(b)
        }));
    }

    #[test]
    fn other_numbers_that_are_tested_are_found() {
        let any = |numbers: &[f64]| numbers.iter().any(|number| refuses_push(*number));
        assert!(finds_answer_of_push(0, SATURATED, |set, _| any(set)));
        assert!(finds_answer_of_push(0, SATURATED, |_, point| any(point)));
        assert!(finds_answer_of_merge(0, SATURATED, |set, other| {
            set.iter().zip(other).any(|(a, b)| refuses_merge(*a, *b))
        }));
    }

    #[test]
    fn tests_in_another_order_are_found() {
        // 15 before the length of one slice.
        for slice in 0..2 {
            let early = finds_answer_of_push(LENGTH, SATURATED, |set, point| {
                let right = [set.len() == MOMENTS, point.len() == POINT];
                right[1 - slice] && set.first().is_some_and(|count| refuses_push(*count))
            });
            assert!(early, "push, slice {slice}");
            let early = finds_answer_of_merge(LENGTH, SATURATED, |set, other| {
                let right = [set.len() == MOMENTS, other.len() == MOMENTS];
                let counts = set.first().zip(other.first());
                right[1 - slice] && counts.is_some_and(|(a, b)| refuses_merge(*a, *b))
            });
            assert!(early, "merge, slice {slice}");
        }
    }

    #[test]
    fn lengths_that_are_not_tested_are_found() {
        for (slice, by) in [(0, -1), (0, 1), (1, -1), (1, 1)] {
            let passes = |lengths: [usize; 2], right: [usize; 2]| {
                let mut wrong = right;
                wrong[slice] = wrong[slice].wrapping_add_signed(by);
                lengths == wrong
            };
            let found = finds_answer_of_push(LENGTH, ACCEPTED, |set, point| {
                passes([set.len(), point.len()], [MOMENTS, POINT])
            });
            assert!(found, "push, slice {slice} by {by}");
            let found = finds_answer_of_merge(LENGTH, ACCEPTED, |set, other| {
                passes([set.len(), other.len()], [MOMENTS, MOMENTS])
            });
            assert!(found, "merge, slice {slice} by {by}");
        }
    }

    /// What is right, but a call that is refused by `refusal` then changes the moments.
    fn with_change(
        right: &'static Call<'static, 2>,
        refusal: u32,
        change: Change,
    ) -> impl Fn([&mut [f64]; 2], &mut u32) -> u32 {
        move |[moments, second], found| {
            let answer = right([&mut *moments, &mut *second], found);
            if answer == refusal {
                change(moments, second);
            }
            answer
        }
    }

    /// Changes that a refused call must not make.
    const CHANGES: [(&str, Change); 4] = [
        ("all is cleared", |set, _| set.fill(0.0)),
        ("the count is cut off", |set, _| with_count(MOST, set)),
        ("the last number", |set, _| {
            set.last_mut().into_iter().for_each(|last| *last = 1.0);
        }),
        // By one without their payloads.
        ("NaNs are replaced", |set, _| {
            let nans = set.iter_mut().filter(|number| number.is_nan());
            nans.for_each(|number| *number = f64::NAN);
        }),
    ];

    #[test]
    fn a_refused_call_that_writes_is_found() {
        for (name, change) in CHANGES {
            for refusal in [LENGTH, SATURATED] {
                let [push, merge] = RIGHT.map(|right| with_change(right, refusal, change));
                assert!(finds_push(&push), "{name}, push refused by {refusal}");
                assert!(finds_merge(&merge), "{name}, merge refused by {refusal}");
            }
        }
        let finds = |push: Change, merge: Change| {
            finds_push(&with_change(RIGHT[0], SATURATED, push))
                && finds_merge(&with_change(RIGHT[1], SATURATED, merge))
        };
        // The count alone is added, and all but the count.
        assert!(finds(
            |set, _| set[0] += 1.0,
            |set, other| set[0] += other[0]
        ));
        assert!(finds(
            |set, point| {
                let count = set[0];
                model::with_point(Moments::read(set), stored_vector(point)).write(set);
                set[0] = count;
            },
            |set, other| {
                let count = set[0];
                model::merged(Moments::read(set), Moments::read(other)).write(set);
                set[0] = count;
            }
        ));
    }

    #[test]
    fn other_sums_are_found() {
        let finds_pushed = |with_point: fn(Moments, Vector) -> Moments| {
            finds_push(&model::push_call(model::push_refusal, with_point))
        };
        assert!(finds_pushed(|moments, p| Moments {
            outer: matrix(|r, c| moments.outer[r][c] + p[r] * p[r]),
            ..model::with_point(moments, p)
        }));
        // Fused.
        assert!(finds_pushed(|moments, p| Moments {
            outer: matrix(|r, c| p[r].mul_add(p[c], moments.outer[r][c])),
            ..model::with_point(moments, p)
        }));
        let left = |moments: Moments, other: Moments| Moments {
            outer: moments.outer,
            ..model::merged(moments, other)
        };
        assert!(finds_merge(&model::merge_call(model::merge_refusal, left)));
    }
}
