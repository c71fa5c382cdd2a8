//! Mean and scatter of moments, against the model.

use crate::draws::{old, record};
use crate::generator::Generator;
use crate::lent::{number, Call, Comparison};
use crate::model::moments as model;
use crate::report::Report;
use maghnelt::{slices as library, MOMENTS};

/// Compares the library.
pub fn run(generator: &mut Generator, count: u64, report: &mut Report) {
    let call = |[moments, out]: [&mut [f64]; 2], found: &mut u32| {
        number(library::moments_mean_and_scatter(moments, out, found))
    };
    compare(&call, generator, count, report);
}

fn compare(call: &Call<'_, 2>, generator: &mut Generator, count: u64, report: &mut Report) {
    let model = model::mean_and_scatter_call(model::mean_and_scatter);
    let mut comparison = Comparison::new(
        "moments_mean_and_scatter",
        ["moments", "out"],
        1,
        call,
        &model,
    );
    comparison.check_lengths([Some(MOMENTS), Some(12)], generator, report);
    while report.cases() < count {
        comparison.check([&record(generator), &old(12, generator)], report);
    }
}

#[cfg(test)]
mod tests {
    use super::*;
    use crate::model::{matrix, vector, Matrix, Vector};
    use model::Moments;

    fn mismatches(call: &Call<'_, 2>) -> u64 {
        let mut report = Report::new("scatter");
        compare(call, &mut Generator::new(1), 20_000, &mut report);
        report.mismatches()
    }

    fn with(mean_and_scatter: fn(Moments) -> Option<(Vector, Matrix<3>)>) -> u64 {
        mismatches(&model::mean_and_scatter_call(mean_and_scatter))
    }

    /// The scatter before it is made symmetric.
    fn half_done(moments: Moments, mean: Vector) -> Matrix<3> {
        matrix(|r, c| moments.outer[r][c] / moments.count - mean[r] * mean[c])
    }

    fn symmetric(s: Matrix<3>) -> Matrix<3> {
        matrix(|r, c| (s[r][c] + s[c][r]) * 0.5)
    }

    #[test]
    fn the_model_itself_passes() {
        assert_eq!(with(model::mean_and_scatter), 0);
    }

    #[test]
    fn counts_of_zero_that_pass_are_found() {
        assert!(
            with(|moments| {
                if moments.count < 0.0 {
                    return None;
                }
                let mean = vector(|r| moments.sum[r] / moments.count);
                Some((mean, symmetric(half_done(moments, mean))))
            }) > 0
        );
    }

    #[test]
    fn a_nan_count_that_is_none_is_found() {
        assert!(
            with(|moments| match moments.count > 0.0 {
                true => model::mean_and_scatter(moments),
                false => None,
            }) > 0
        );
    }

    #[test]
    fn a_product_with_the_reciprocal_is_found() {
        assert!(
            with(|moments| {
                model::mean_and_scatter(moments).map(|_| {
                    let mean = vector(|r| moments.sum[r] * (1.0 / moments.count));
                    (mean, symmetric(half_done(moments, mean)))
                })
            }) > 0
        );
    }

    #[test]
    fn a_scatter_that_is_not_symmetrised_is_found() {
        assert!(
            with(|moments| {
                model::mean_and_scatter(moments).map(|(mean, _)| (mean, half_done(moments, mean)))
            }) > 0
        );
    }

    #[test]
    fn a_diagonal_that_is_not_doubled_and_halved_is_found() {
        // Only where the doubled entry overflows.
        assert!(
            with(|moments| {
                model::mean_and_scatter(moments).map(|(mean, scatter)| {
                    let s = half_done(moments, mean);
                    let entry = |r: usize, c: usize| if r == c { s[r][r] } else { scatter[r][c] };
                    (mean, matrix(entry))
                })
            }) > 0
        );
    }

    #[test]
    fn halves_that_are_added_are_found() {
        assert!(
            with(|moments| {
                model::mean_and_scatter(moments).map(|(mean, _)| {
                    let s = half_done(moments, mean);
                    (mean, matrix(|r, c| s[r][c] * 0.5 + s[c][r] * 0.5))
                })
            }) > 0
        );
    }

    #[test]
    fn an_output_that_is_cleared_where_nothing_is_found_is_found() {
        let right = model::mean_and_scatter_call(model::mean_and_scatter);
        let clears = move |[moments, out]: [&mut [f64]; 2], found: &mut u32| {
            let answer = right([moments, out], found);
            if answer == 0 && *found == 0 {
                out.fill(0.0);
            }
            answer
        };
        assert!(mismatches(&clears) > 0);
    }

    #[test]
    fn a_refused_call_that_says_not_found_is_found() {
        let right = model::mean_and_scatter_call(model::mean_and_scatter);
        let says = move |[moments, out]: [&mut [f64]; 2], found: &mut u32| {
            *found = 0;
            right([moments, out], found)
        };
        assert!(mismatches(&says) > 0);
    }
}
