//! The calls that make and move moments, against the model.

use crate::draws::{self, numbers, old, record, slices, stored, Pose, Wall};
use crate::generator::Generator;
use crate::lent::{number, Call, Comparison};
use crate::model::moments as model;
use crate::report::Report;
use maghnelt::{slices as library, MAX_POINTS, MOMENTS};

/// The calls that are compared.
struct Calls {
    from_points: Box<Call<'static, 2>>,
    transformed: Box<Call<'static, 4>>,
}

fn of_library() -> Calls {
    Calls {
        from_points: Box::new(|[points, moments], _| {
            number(library::moments_from_points(points, moments))
        }),
        transformed: Box::new(|[moments, a, b, out], _| {
            number(library::moments_transformed(moments, a, b, out))
        }),
    }
}

fn of_model() -> Calls {
    Calls {
        from_points: Box::new(model::from_points_call(model::with_point)),
        transformed: Box::new(model::transformed_call(model::transformed)),
    }
}

/// Compares the library.
pub fn run(generator: &mut Generator, count: u64, report: &mut Report) {
    compare(&of_library(), generator, count, report);
}

fn compare(calls: &Calls, generator: &mut Generator, count: u64, report: &mut Report) {
    let model = of_model();
    let mut comparisons = Comparisons::new(calls, &model);
    comparisons.check_lengths(generator, report);
    while report.cases() < count {
        comparisons.check(generator, report);
    }
}

struct Comparisons<'a> {
    from_points: Comparison<'a, 2>,
    transformed: Comparison<'a, 4>,
}

impl<'a> Comparisons<'a> {
    fn new(calls: &'a Calls, model: &'a Calls) -> Self {
        Comparisons {
            from_points: Comparison::new(
                "moments_from_points",
                ["points", "moments"],
                1,
                &calls.from_points,
                &model.from_points,
            ),
            transformed: Comparison::new(
                "moments_transformed",
                ["moments", "a", "b", "out"],
                3,
                &calls.transformed,
                &model.transformed,
            ),
        }
    }

    /// Lists of points of every small length and about the longest, and slices of wrong lengths.
    fn check_lengths(&mut self, generator: &mut Generator, report: &mut Report) {
        let most = 3 * MAX_POINTS;
        let many = points_of_a_wall(MAX_POINTS + 1, generator);
        for length in (0..=40).chain([most - 3, most - 1, most, most + 1, most + 2, most + 3]) {
            self.from_points
                .check([&many[..length], &old(MOMENTS, generator)], report);
        }
        let record = Some(MOMENTS);
        self.from_points
            .check_lengths([Some(9), record], generator, report);
        self.transformed
            .check_lengths([record, Some(9), Some(3), record], generator, report);
    }

    /// One random case of each call.
    fn check(&mut self, generator: &mut Generator, report: &mut Report) {
        let points = some_points(generator);
        let out = old(MOMENTS, generator);
        self.from_points.check([&points, &out], report);
        let (a, b) = some_map(generator);
        self.transformed
            .check([&record(generator), &a, &b, &out], report);
    }
}

fn points_of_a_wall(points: usize, generator: &mut Generator) -> Vec<f64> {
    let wall = Wall::random(generator);
    (0..points).flat_map(|_| wall.point(generator)).collect()
}

/// Up to eleven points, of a wall or of any numbers.
fn some_points(generator: &mut Generator) -> Vec<f64> {
    let points = generator.below(12) as usize;
    if generator.below(2) == 0 {
        points_of_a_wall(points, generator)
    } else {
        let [points] = slices([3 * points], generator);
        points
    }
}

/// A pose, or any affine map.
fn some_map(generator: &mut Generator) -> (Vec<f64>, [f64; 3]) {
    if generator.below(3) == 0 {
        let pose = Pose::random(generator);
        (stored(pose.rotation), pose.shift)
    } else {
        let mut a = vec![0.0; 9];
        draws::fill(&mut a, generator);
        (a, numbers(generator))
    }
}

#[cfg(test)]
mod tests {
    use super::*;
    use crate::model::{congruent, dot, matrix, vector, Matrix, Vector};
    use model::Moments;

    fn mismatches(calls: Calls) -> u64 {
        let mut report = Report::new("moments");
        compare(&calls, &mut Generator::new(1), 20_000, &mut report);
        report.mismatches()
    }

    fn with_from_points(from_points: impl Fn([&mut [f64]; 2], &mut u32) -> u32 + 'static) -> u64 {
        mismatches(Calls {
            from_points: Box::new(from_points),
            ..of_model()
        })
    }

    fn with_transformed(
        transformed: impl Fn(Moments, Matrix<3>, Vector) -> Moments + 'static,
    ) -> u64 {
        mismatches(Calls {
            transformed: Box::new(model::transformed_call(transformed)),
            ..of_model()
        })
    }

    fn right_from_points([points, moments]: [&mut [f64]; 2], found: &mut u32) -> u32 {
        model::from_points_call(model::with_point)([points, moments], found)
    }

    #[test]
    fn the_model_itself_passes() {
        assert_eq!(mismatches(of_model()), 0);
    }

    #[test]
    fn one_point_short_is_found() {
        assert!(
            with_from_points(|[points, moments], found| match points.len() {
                length if length % 3 == 0 && (3..=3 * MAX_POINTS).contains(&length) => {
                    right_from_points([&mut points[3..], moments], found)
                }
                _ => right_from_points([points, moments], found),
            }) > 0
        );
    }

    #[test]
    fn sums_that_start_from_the_old_content_are_found() {
        assert!(
            with_from_points(|[points, moments], found| {
                let before = moments.to_vec();
                let answer = right_from_points([points, moments], found);
                if answer == 0 {
                    moments[0] += before[0];
                }
                answer
            }) > 0
        );
    }

    #[test]
    fn sums_that_start_from_the_first_point_are_found() {
        let minus_zeros = Moments {
            count: 0.0,
            sum: [-0.0; 3],
            outer: [[-0.0; 3]; 3],
        };
        assert!(
            with_from_points(move |[points, moments], found| {
                let answer = right_from_points([points, moments], found);
                if answer == 0 && !points.is_empty() {
                    let points = points.chunks(3).map(crate::model::stored_vector);
                    points.fold(minus_zeros, model::with_point).write(moments);
                }
                answer
            }) > 0
        );
    }

    #[test]
    fn another_limit_is_found() {
        assert!(
            with_from_points(|[points, moments], found| match points.len() {
                length if length == 3 * MAX_POINTS => crate::model::LENGTH,
                _ => right_from_points([points, moments], found),
            }) > 0
        );
        assert!(
            with_from_points(|[points, moments], found| match points.len() {
                length if length == 3 * MAX_POINTS + 3 => {
                    right_from_points([&mut points[3..], moments], found)
                }
                _ => right_from_points([points, moments], found),
            }) > 0
        );
    }

    #[test]
    fn a_rest_that_is_no_point_and_passes_is_found() {
        assert!(
            with_from_points(|[points, moments], found| {
                let whole = points.len() / 3 * 3;
                right_from_points([&mut points[..whole], moments], found)
            }) > 0
        );
    }

    #[test]
    fn each_length_that_is_not_tested_is_found() {
        for slice in 0..4 {
            let right = model::transformed_call(model::transformed);
            let careless = move |mut slices: [&mut [f64]; 4], found: &mut u32| {
                // One number too many is cut off.
                let length = [MOMENTS, 9, 3, MOMENTS][slice];
                if slices[slice].len() == length + 1 {
                    slices[slice] = &mut std::mem::take(&mut slices[slice])[..length];
                }
                right(slices, found)
            };
            assert!(
                mismatches(Calls {
                    transformed: Box::new(careless),
                    ..of_model()
                }) > 0
            );
        }
    }

    /// The mismatches where an entry of the outer products is `entry` of A·M·Aᵀ's, of A·sum's and b's entries r and c, and
    /// of the count.
    fn with_entry(entry: fn(f64, [f64; 2], [f64; 2], f64) -> f64) -> u64 {
        with_transformed(move |moments, a, b| {
            let turned = congruent(a, moments.outer);
            let s = vector(|r| dot(a[r], moments.sum));
            Moments {
                outer: matrix(|r, c| {
                    entry(turned[r][c], [s[r], s[c]], [b[r], b[c]], moments.count)
                }),
                ..model::transformed(moments, a, b)
            }
        })
    }

    #[test]
    fn another_order_of_products_or_sums_is_found() {
        let right =
            with_entry(|x, [sr, sc], [br, bc], n| ((x + sr * bc) + br * sc) + (br * bc) * n);
        assert_eq!(right, 0);
        for wrong in [
            with_entry(|x, [sr, sc], [br, bc], n| ((x + sr * bc) + br * sc) + (bc * n) * br),
            with_entry(|x, [sr, sc], [br, bc], n| (x + (sr * bc + br * sc)) + (br * bc) * n),
            with_entry(|x, [sr, sc], [br, bc], n| ((x + br * sc) + sr * bc) + (br * bc) * n),
            with_entry(|x, [sr, sc], [br, bc], n| (br * bc).mul_add(n, (x + sr * bc) + br * sc)),
        ] {
            assert!(wrong > 0);
        }
    }

    #[test]
    fn a_matrix_that_is_not_transposed_is_found() {
        // A(k,c) for A(c,k) in the last product.
        let wrong = |moments: Moments, a: Matrix<3>, b: Vector| {
            let s = vector(|r| dot(a[r], moments.sum));
            Moments {
                outer: matrix(|r, c| {
                    let left = vector(|k| dot(a[r], vector(|l| moments.outer[l][k])));
                    let x = dot(left, vector(|k| a[k][c]));
                    ((x + s[r] * b[c]) + b[r] * s[c]) + (b[r] * b[c]) * moments.count
                }),
                ..model::transformed(moments, a, b)
            }
        };
        assert!(with_transformed(wrong) > 0);
    }

    #[test]
    fn a_sum_of_products_from_zero_on_is_found() {
        let wrong = |moments: Moments, a: Matrix<3>, b: Vector| Moments {
            sum: vector(|r| (0.0 + dot(a[r], moments.sum)) + b[r] * moments.count),
            ..model::transformed(moments, a, b)
        };
        assert!(with_transformed(wrong) > 0);
    }
}
