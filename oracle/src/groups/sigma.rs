//! The deviation of a point from a plane, against the model.

use crate::draws::{
    covariance, fill, fill_with, numbers, old, rotation, slices, stored, within, Size, Wall,
};
use crate::generator::Generator;
use crate::lent::{number, Call, Comparison};
use crate::model::plane as model;
use crate::report::Report;
use maghnelt::{slices as library, PLANE};

/// The lengths of the slices, the number behind a pointer being the last.
const LENGTHS: [usize; 7] = [PLANE, 3, 36, 9, 3, 9, 1];

/// The places of the covariances and of sigma among them.
const OF_PLANE: usize = 2;
const OF_POINT: usize = 3;
const SIGMA: usize = 6;

/// Compares the library.
pub fn run(generator: &mut Generator, count: u64, report: &mut Report) {
    compare(&of_library, generator, count, report);
}

fn of_library(slices: [&mut [f64]; 7], _: &mut u32) -> u32 {
    let [plane, centroid, of_plane, of_point, world, d_world_d_point, sigma] = slices;
    number(library::point_to_plane_sigma(
        plane,
        centroid,
        of_plane,
        of_point,
        world,
        d_world_d_point,
        &mut sigma[0],
    ))
}

fn compare(call: &Call<'_, 7>, generator: &mut Generator, count: u64, report: &mut Report) {
    let model = model::sigma_call(|inputs| model::sigma(model::variance(inputs)));
    let mut comparison = Comparison::new(
        "point_to_plane_sigma",
        [
            "plane",
            "centroid",
            "plane_covariance",
            "point_covariance",
            "world",
            "d_world_d_point",
            "sigma",
        ],
        SIGMA,
        call,
        &model,
    );
    let mut right = LENGTHS.map(Some);
    right[SIGMA] = None;
    comparison.check_lengths(right, generator, report);
    while report.cases() < count {
        let mut case = match generator.below(8) {
            0..=3 => a_measured_point(generator),
            4 => at_an_end(a_measured_point(generator), generator),
            5 => whole_numbers(generator),
            _ => slices(LENGTHS, generator),
        };
        // Now and then one of the slices is special, the others being as they were.
        if generator.below(4) == 0 {
            let slice = generator.below(SIGMA as u64) as usize;
            fill(&mut case[slice], generator);
        }
        case[SIGMA] = old(1, generator);
        comparison.check(case.each_ref().map(Vec::as_slice), report);
    }
}

/// A point some centimetres from a wall in the site, with covariances as they are met.
fn a_measured_point(generator: &mut Generator) -> [Vec<f64>; 7] {
    let wall = Wall::random(generator);
    let [_, _, normal] = wall.axes;
    let mut plane = normal.to_vec();
    plane.push(within(-60.0, 60.0, generator));
    // Where a wall is fitted well its normal and centroid are sure, and a point is known to some centimetres.
    let of_plane = covariance::<6>(within(1e-5, 1e-2, generator), generator);
    let of_point = covariance::<3>(within(1e-4, 3e-2, generator), generator);
    [
        plane,
        wall.middle.to_vec(),
        stored(of_plane),
        stored(of_point),
        wall.point(generator).to_vec(),
        stored(rotation(generator)),
        numbers::<1>(generator).to_vec(),
    ]
}

/// The same case with both covariances so small or so large that the variance comes to an end of the range.
fn at_an_end(mut case: [Vec<f64>; 7], generator: &mut Generator) -> [Vec<f64>; 7] {
    let exponents = generator.pick(&[[-535, -500], [500, 520]]);
    let exponent = generator.between(exponents[0], exponents[1]);
    let root = f64::from_bits(((1023 + exponent) as u64) << 52);
    for of in [OF_PLANE, OF_POINT] {
        for number in &mut case[of] {
            // In two steps, since the power itself may be out of range.
            *number = *number * root * root;
        }
    }
    case
}

/// Small whole numbers, so that a variance of exactly 0 or below is frequent.
fn whole_numbers(generator: &mut Generator) -> [Vec<f64>; 7] {
    LENGTHS.map(|length| {
        let mut slice = vec![0.0; length];
        fill_with(Size::Whole, &mut slice, generator);
        slice
    })
}

#[cfg(test)]
mod tests {
    use super::*;
    use crate::model::{dot, matrix, vector};
    use model::Uncertain;

    fn mismatches(call: &Call<'_, 7>) -> u64 {
        let mut report = Report::new("sigma");
        compare(call, &mut Generator::new(1), 20_000, &mut report);
        report.mismatches()
    }

    fn with(sigma: fn(Uncertain) -> Option<f64>) -> u64 {
        mismatches(&model::sigma_call(sigma))
    }

    fn right(inputs: Uncertain) -> Option<f64> {
        model::sigma(model::variance(inputs))
    }

    #[test]
    fn the_model_itself_passes() {
        assert_eq!(with(right), 0);
    }

    #[test]
    fn a_transposed_covariance_is_found() {
        assert!(
            with(|inputs| {
                let c = inputs.plane_covariance;
                let plane_covariance = matrix(|row, column| c[column][row]);
                right(Uncertain {
                    plane_covariance,
                    ..inputs
                })
            }) > 0
        );
        assert!(
            with(|inputs| {
                let p = inputs.point_covariance;
                let point_covariance = matrix(|row, column| p[column][row]);
                right(Uncertain {
                    point_covariance,
                    ..inputs
                })
            }) > 0
        );
    }

    #[test]
    fn a_transposed_derivative_is_found() {
        assert!(
            with(|inputs| {
                let a = inputs.d_world_d_point;
                let d_world_d_point = matrix(|row, column| a[column][row]);
                right(Uncertain {
                    d_world_d_point,
                    ..inputs
                })
            }) > 0
        );
    }

    #[test]
    fn a_normal_that_is_not_negated_is_found() {
        // (d, n)·C·(d, n)ᵀ: to change the sign of n is to change that of the blocks of C beside the diagonal.
        assert!(
            with(|inputs| {
                let c = inputs.plane_covariance;
                let plane_covariance = matrix(|row, column| {
                    if (row < 3) == (column < 3) {
                        c[row][column]
                    } else {
                        -c[row][column]
                    }
                });
                right(Uncertain {
                    plane_covariance,
                    ..inputs
                })
            }) > 0
        );
    }

    #[test]
    fn a_centroid_that_is_left_out_is_found() {
        assert!(
            with(|inputs| right(Uncertain {
                centroid: [0.0; 3],
                ..inputs
            })) > 0
        );
    }

    #[test]
    fn products_from_the_right_are_found() {
        assert!(
            with(|inputs| {
                let n = inputs.normal;
                let a = inputs.d_world_d_point;
                let column = vector(|r| dot(vector(|k| a[k][r]), n));
                let column = vector(|r| dot(inputs.point_covariance[r], column));
                let point = dot(n, vector(|r| dot(a[r], column)));
                let none = Uncertain {
                    point_covariance: [[0.0; 3]; 3],
                    ..inputs
                };
                model::sigma(point + model::variance(none))
            }) > 0
        );
    }

    #[test]
    fn variances_that_are_let_through_are_found() {
        assert!(with(|inputs| Some(model::variance(inputs).sqrt())) > 0);
        assert!(
            with(|inputs| {
                let variance = model::variance(inputs);
                (variance.is_finite() && variance >= 0.0).then(|| variance.sqrt())
            }) > 0
        );
        assert!(
            with(|inputs| {
                let variance = model::variance(inputs);
                (variance > 0.0).then(|| variance.sqrt())
            }) > 0
        );
        assert!(
            with(|inputs| {
                let variance = model::variance(inputs);
                (variance.is_normal() && variance > 0.0).then(|| variance.sqrt())
            }) > 0
        );
    }

    #[test]
    fn a_refused_call_that_writes_is_found() {
        let writes = |slices: [&mut [f64]; 7], found: &mut u32| {
            let [a, b, c, d, e, f, sigma] = slices;
            let answer = model::sigma_call(right)([a, b, c, d, e, f, &mut *sigma], found);
            if answer == crate::model::VARIANCE {
                sigma[0] = f64::NAN;
            }
            answer
        };
        assert!(mismatches(&writes) > 0);
    }
}
