//! Building a frame factor, against the model.

use crate::builds::{call_of, comparison, faults, Build, Builds};
use crate::called::Call;
use crate::generator::Generator;
use crate::model::frames as model;
use crate::report::Report;
use maghnelt::slices as library;

/// Compares the library.
pub fn run(generator: &mut Generator, count: u64, report: &mut Report) {
    compare(&call_of(library::frames_build), generator, count, report);
}

fn compare(call: &Call<'_, 6, 2>, generator: &mut Generator, count: u64, report: &mut Report) {
    let model = model::build_call(model::build_refusal, model::built);
    let mut comparison = comparison("frames_build", call, &model);
    builds().each(count, generator, |lent| {
        comparison.check(lent, report);
    });
}

/// What it is tried on: a fixed count below 0 counts too.
fn builds() -> Builds {
    Builds {
        accepted_of: Build::of,
        faults: faults(&[0.0, -0.0, 0.9, -1e9, f64::NEG_INFINITY]),
    }
}

#[cfg(test)]
mod tests {
    use super::*;
    use crate::builds::wrong;
    use crate::model::moments::Moments;
    use crate::model::{sum, DOF, EMPTY_LIST, FRAME_COUNT, LENGTH, NOT_FINITE, SIGMA, TOTAL_COUNT};
    use maghnelt::MOMENTS;
    use model::Built;

    fn mismatches(call: &Call<'_, 6, 2>) -> u64 {
        let mut report = Report::new("frames_build");
        compare(call, &mut Generator::new(1), 3_000, &mut report);
        report.mismatches()
    }

    fn with_refusal(refusal: impl Fn(u32, [&[f64]; 2], f64, [usize; 2]) -> u32) -> u64 {
        mismatches(&model::build_call(refusal, wrong::of_any_counts))
    }

    fn with_built(built: fn(&[Moments], Option<Moments>) -> Built) -> u64 {
        mismatches(&model::build_call(model::build_refusal, built))
    }

    #[test]
    fn the_model_itself_passes() {
        assert_eq!(with_built(model::built), 0);
        assert_eq!(with_refusal(model::build_refusal), 0);
    }

    #[test]
    fn faults_are_refused_by_their_numbers() {
        builds().check_faults(&model::build_call(model::build_refusal, model::built));
    }

    #[test]
    fn a_fixed_set_that_is_dropped_before_it_is_counted_is_found() {
        assert!(
            with_refusal(|dof, [frames, fixed], sigma, outputs| {
                let mut kept = fixed.to_vec();
                if let Some(count) = kept.first_mut() {
                    *count = count.max(0.0);
                }
                model::build_refusal(dof, [frames, &kept], sigma, outputs)
            }) > 0
        );
    }

    #[test]
    fn a_fixed_set_that_is_dropped_before_it_is_tested_is_found() {
        assert!(
            with_refusal(|dof, [frames, fixed], sigma, outputs| {
                match model::build_refusal(dof, [frames, fixed], sigma, outputs) {
                    NOT_FINITE if fixed.first().is_some_and(|&count| count <= 0.0) => {
                        let mut tested = fixed.to_vec();
                        tested[1..].fill(0.0);
                        model::build_refusal(dof, [frames, &tested], sigma, outputs)
                    }
                    answer => answer,
                }
            }) > 0
        );
    }

    #[test]
    fn nan_counts_that_are_no_counts_are_found() {
        assert!(
            with_refusal(|dof, [frames, fixed], sigma, outputs| {
                match model::build_refusal(dof, [frames, fixed], sigma, outputs) {
                    NOT_FINITE if frames.iter().step_by(MOMENTS).any(|x| x.is_nan()) => FRAME_COUNT,
                    answer => answer,
                }
            }) > 0
        );
        assert!(
            with_refusal(|dof, [frames, fixed], sigma, outputs| {
                match model::build_refusal(dof, [frames, fixed], sigma, outputs) {
                    NOT_FINITE if fixed.first().is_some_and(|x| x.is_nan()) => TOTAL_COUNT,
                    answer => answer,
                }
            }) > 0
        );
    }

    #[test]
    fn totals_that_differ_are_found() {
        // Points of a fixed set that is dropped, and a set that counts before the frames.
        assert!(
            with_built(|frames, fixed| {
                let total = sum(frames.iter().map(|frame| frame.count));
                let points = total + fixed.map_or(0.0, |fixed| fixed.count);
                Built {
                    points,
                    ..model::built(frames, fixed)
                }
            }) > 0
        );
        assert!(with_built(wrong::fixed_set_first) > 0);
        assert!(
            with_refusal(|dof, [frames, fixed], sigma, outputs| {
                match model::build_refusal(dof, [frames, fixed], sigma, outputs) {
                    0 if frames.iter().step_by(MOMENTS).sum::<f64>() <= 3.0 => TOTAL_COUNT,
                    answer => answer,
                }
            }) > 0
        );
    }

    #[test]
    fn a_dropped_set_that_is_written_or_not_told_is_found() {
        assert!(with_built(wrong::drop_not_told) > 0);
        assert!(with_built(wrong::drop_written) > 0);
    }

    #[test]
    fn a_scatter_that_is_not_multiplied_is_found() {
        assert!(with_built(wrong::scatter_not_multiplied) > 0);
    }

    #[test]
    fn another_order_of_tests_is_found() {
        let order = [
            DOF,
            EMPTY_LIST,
            LENGTH,
            FRAME_COUNT,
            TOTAL_COUNT,
            NOT_FINITE,
            SIGMA,
        ];
        assert!(order.is_sorted());
        assert!(
            with_refusal(|dof, slices, sigma, outputs| {
                match model::build_refusal(dof, slices, sigma, outputs) {
                    4..=6 if crate::model::bad_sigma(sigma) => SIGMA,
                    answer => answer,
                }
            }) > 0
        );
        assert!(
            with_refusal(|dof, slices, sigma, outputs| {
                match model::build_refusal(dof, slices, sigma, outputs) {
                    4 | 5 if slices.concat().iter().any(|x| !x.is_finite()) => NOT_FINITE,
                    answer => answer,
                }
            }) > 0
        );
    }
}
