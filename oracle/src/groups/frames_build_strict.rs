//! Building a frame factor by the survey rule, against the model and, where the answer is not 13, against the plain build.

use crate::builds::{call_of, comparison, faults, Build, Builds};
use crate::called::{Call, Fault};
use crate::generator::Generator;
use crate::model::{frames as model, FIXED_COUNT};
use crate::report::Report;
use maghnelt::slices as library;

/// Compares the library.
pub fn run(generator: &mut Generator, count: u64, report: &mut Report) {
    let strict = call_of(library::frames_build_strict);
    let plain = call_of(library::frames_build);
    compare([&strict, &plain], generator, count, report);
}

/// Compares a strict build with the model, and a plain one with it: it has to answer and leave the same bits.
fn compare(
    [strict, plain]: [&Call<'_, 6, 2>; 2],
    generator: &mut Generator,
    count: u64,
    report: &mut Report,
) {
    let model = model::build_call(model::strict_refusal, model::built);
    let mut with_model = comparison("frames_build_strict", strict, &model);
    let mut with_plain = comparison(
        "frames_build_strict, frames_build being the model",
        strict,
        plain,
    );
    builds().each(count, generator, |lent| {
        if with_model.check(lent, report) != FIXED_COUNT {
            with_plain.check(lent, report);
        }
    });
}

/// What it is tried on: a fixed count below 0 is refused, also where there would be too few points.
fn builds() -> Builds {
    let mut faults = faults(&[0.0, -0.0, 5e-324, 0.9]);
    let below_0 = [-5e-324, -1.0, -3.0, -1e9, f64::NEG_INFINITY];
    faults.extend(below_0.map(|count| {
        Fault::new(FIXED_COUNT, move |build: &mut Build, _| {
            build.with_fixed_count(count);
        })
    }));
    Builds {
        accepted_of,
        faults,
    }
}

/// So many frames that are accepted: where a plain build drops the fixed set for a count below 0, its count is 0.
fn accepted_of(frames: usize, generator: &mut Generator) -> Build {
    let mut build = Build::of(frames, generator);
    if model::bad_fixed_count(&build.fixed) {
        build.with_fixed_count(0.0);
    }
    build
}

#[cfg(test)]
mod tests {
    use super::*;
    use crate::builds::wrong;
    use crate::called::ACCEPTED;
    use crate::model::moments::Moments;
    use crate::model::{
        bad_sigma, sum, DOF, EMPTY_LIST, FRAME_COUNT, LENGTH, MAX_DOF, NOT_FINITE, SIGMA,
        TOTAL_COUNT,
    };
    use maghnelt::{CENTRED, MAX_FRAMES, MOMENTS};
    use model::Built;

    /// Of what a call answers by: dof, frames and fixed set, sigma, and the lengths of both outputs.
    type Applies = fn(u32, [&[f64]; 2], f64, [usize; 2]) -> bool;

    /// All tests, in their order.
    const TESTS: [(u32, Applies); 8] = [
        (DOF, |dof, _, _, _| dof > MAX_DOF),
        (EMPTY_LIST, |_, [frames, _], _, _| frames.is_empty()),
        (LENGTH, |_, sets, _, outputs| {
            model::bad_build(sets, outputs)
        }),
        (FIXED_COUNT, |_, [_, fixed], _, _| {
            model::bad_fixed_count(fixed)
        }),
        (FRAME_COUNT, |_, [frames, _], _, _| {
            model::bad_frame_count(frames)
        }),
        (TOTAL_COUNT, |_, sets, _, _| model::kept_total(sets) < 3.0),
        (NOT_FINITE, |_, sets, _, _| model::bad_moments(sets)),
        (SIGMA, |_, _, sigma, _| bad_sigma(sigma)),
    ];

    fn right(numbers: [&mut [f64]; 6], words: [&mut [u32]; 2]) -> u32 {
        model::build_call(model::strict_refusal, model::built)(numbers, words)
    }

    fn plain(numbers: [&mut [f64]; 6], words: [&mut [u32]; 2]) -> u32 {
        model::build_call(model::build_refusal, model::built)(numbers, words)
    }

    fn mismatches_of(calls: [&Call<'_, 6, 2>; 2]) -> u64 {
        let mut report = Report::new("frames_build_strict");
        compare(calls, &mut Generator::new(1), 3_000, &mut report);
        report.mismatches()
    }

    fn mismatches(call: &Call<'_, 6, 2>) -> u64 {
        mismatches_of([call, &plain])
    }

    fn with_refusal(refusal: impl Fn(u32, [&[f64]; 2], f64, [usize; 2]) -> u32) -> u64 {
        mismatches(&model::build_call(refusal, wrong::of_any_counts))
    }

    fn with_built(built: fn(&[Moments], Option<Moments>) -> Built) -> u64 {
        mismatches(&model::build_call(model::strict_refusal, built))
    }

    /// Whether a function is found that has another answer where one is right and `applies` holds.
    fn finds(
        right: u32,
        other: u32,
        applies: impl Fn(u32, [&[f64]; 2], f64, [usize; 2]) -> bool,
    ) -> bool {
        with_refusal(move |dof, sets, sigma, outputs| {
            match model::strict_refusal(dof, sets, sigma, outputs) {
                answer if answer == right && applies(dof, sets, sigma, outputs) => other,
                answer => answer,
            }
        }) > 0
    }

    #[test]
    fn the_model_itself_passes() {
        assert_eq!(mismatches(&right), 0);
        assert_eq!(with_refusal(model::strict_refusal), 0);
    }

    #[test]
    fn faults_are_refused_by_their_numbers() {
        builds().check_faults(&right);
    }

    #[test]
    fn tests_in_another_order_are_found() {
        for (place, (first, _)) in TESTS.iter().enumerate() {
            for (second, applies) in &TESTS[place + 1..] {
                // Where there are no frames, none is without points.
                let both = [*first, *second] != [EMPTY_LIST, FRAME_COUNT];
                let found = finds(*first, *second, *applies);
                assert_eq!(found, both, "{second} before {first}");
            }
        }
    }

    #[test]
    fn tests_that_are_left_out_are_found() {
        for (place, (test, _)) in TESTS.iter().enumerate() {
            let left_out = with_refusal(|dof, sets, sigma, outputs| {
                let answer = model::strict_refusal(dof, sets, sigma, outputs);
                let mut later = TESTS[place + 1..].iter();
                let next = later.find(|(_, applies)| applies(dof, sets, sigma, outputs));
                if answer == *test {
                    next.map_or(ACCEPTED, |(number, _)| *number)
                } else {
                    answer
                }
            });
            assert!(left_out > 0, "{test}");
        }
    }

    /// Whether a function is found that tests by 13 whether the fixed count is such a one.
    fn finds_refused(refused: fn(f64) -> bool) -> bool {
        with_refusal(move |dof, [frames, fixed], sigma, outputs| {
            let mut tested = fixed.to_vec();
            if let Some(count) = tested.first_mut() {
                if refused(*count) {
                    *count = -1.0;
                } else if *count < 0.0 {
                    *count = 0.0;
                }
            }
            model::strict_refusal(dof, [frames, &tested], sigma, outputs)
        }) > 0
    }

    #[test]
    fn other_fixed_counts_that_are_refused_are_found() {
        assert!(!finds_refused(|count| count < 0.0));
        let wrong: [fn(f64) -> bool; 10] = [
            // None: a set of a count below 0 is dropped, and adds nothing.
            |_| false,
            |count| count <= 0.0,
            // By the sign, which -0 has too, and some NaNs.
            f64::is_sign_negative,
            |count| count.is_sign_negative() && count != 0.0,
            // Whatever is not at or above 0.
            |count| count < 0.0 || count.is_nan(),
            |count| count < 0.0 && count.is_finite(),
            |count| count <= -f64::MIN_POSITIVE,
            |count| (count as i64) < 0,
            |count| count < -1.0,
            |count| count < 0.0 || count == f64::INFINITY,
        ];
        for (place, refused) in wrong.into_iter().enumerate() {
            assert!(finds_refused(refused), "wrong test {place}");
        }
        // Where there is no fixed set, of its other moments, and of a frame.
        let empty = |_, [_, fixed]: [&[f64]; 2], _, _| fixed.is_empty();
        assert!(finds(0, FIXED_COUNT, empty));
        let others = |_, [_, fixed]: [&[f64]; 2], _, _| fixed.iter().skip(1).any(|&x| x < 0.0);
        assert!(finds(0, FIXED_COUNT, others));
        assert!(finds(FRAME_COUNT, FIXED_COUNT, |_, [frames, _], _, _| {
            frames.iter().step_by(MOMENTS).any(|&count| count < 0.0)
        }));
        // None, and a set that is dropped is counted.
        assert!(with_refusal(model::build_refusal) > 0);
    }

    /// What 13 lets through is dropped for a count of 0 or -0, which changes no total. So a function that counts a dropped set
    /// is told neither by its number nor by its points, unless its test 13 is wrong too.
    #[test]
    fn after_13_a_dropped_set_may_be_counted() {
        let counted = with_refusal(|dof, sets, sigma, outputs| {
            match model::strict_refusal(dof, sets, sigma, outputs) {
                FIXED_COUNT => FIXED_COUNT,
                _ => model::build_refusal(dof, sets, sigma, outputs),
            }
        });
        assert_eq!(counted, 0);
        let points = with_built(|frames, fixed| {
            let counts = frames.iter().chain(&fixed).map(|set| set.count);
            Built {
                points: sum(counts),
                ..model::built(frames, fixed)
            }
        });
        assert_eq!(points, 0);
    }

    #[test]
    fn totals_that_differ_are_found() {
        fn of_frames(frames: &[f64]) -> f64 {
            sum(frames.iter().step_by(MOMENTS).copied())
        }
        // Without the fixed set, and without one of a NaN count, as if it were dropped.
        assert!(finds(0, TOTAL_COUNT, |_, [frames, _], _, _| {
            of_frames(frames) < 3.0
        }));
        assert!(finds(
            NOT_FINITE,
            TOTAL_COUNT,
            |_, [frames, fixed], _, _| {
                of_frames(frames) < 3.0 && fixed.first().is_some_and(|count| count.is_nan())
            }
        ));
        // Three points are too few.
        assert!(finds(0, TOTAL_COUNT, |_, sets, _, _| {
            model::kept_total(sets) <= 3.0
        }));
        // The points of a kept set are left out, or come first.
        assert!(
            with_built(|frames, fixed| Built {
                points: sum(frames.iter().map(|frame| frame.count)),
                ..model::built(frames, fixed)
            }) > 0
        );
        assert!(with_built(wrong::fixed_set_first) > 0);
    }

    #[test]
    fn a_dropped_set_that_is_written_or_not_told_is_found() {
        assert!(with_built(wrong::drop_not_told) > 0);
        assert!(with_built(wrong::drop_written) > 0);
        // A kept set is told as dropped.
        assert!(
            with_built(|frames, fixed| Built {
                dropped: fixed.is_some(),
                ..model::built(frames, fixed)
            }) > 0
        );
    }

    #[test]
    fn lengths_that_are_not_tested_are_found() {
        // Frames that are not whole.
        assert!(finds(LENGTH, ACCEPTED, |_, [frames, fixed], _, outputs| {
            let whole = frames.len() / MOMENTS * MOMENTS;
            !model::bad_build([&frames[..whole], fixed], outputs)
        }));
        // A fixed set that is not one record, with the output of the whole ones.
        for wrong in [1, MOMENTS - 1, MOMENTS + 1, 2 * MOMENTS] {
            let found = finds(LENGTH, ACCEPTED, |_, [frames, fixed], _, outputs| {
                let of_frames = !model::bad_build([frames, &[]], [outputs[0], 0]);
                of_frames && fixed.len() == wrong && outputs[1] == wrong / MOMENTS * CENTRED
            });
            assert!(found, "{wrong}");
        }
        // Outputs that are one short or one long.
        for (output, by) in [(0, -1), (0, 1), (1, -1), (1, 1)] {
            let found = finds(LENGTH, ACCEPTED, |_, sets, _, mut outputs| {
                outputs[output] = outputs[output].wrapping_add_signed(-by);
                !model::bad_build(sets, outputs)
            });
            assert!(found, "output {output} by {by}");
        }
    }

    #[test]
    fn another_limit_is_found() {
        assert!(finds(0, LENGTH, |_, [frames, _], _, _| {
            frames.len() == MOMENTS * MAX_FRAMES
        }));
        assert!(finds(LENGTH, ACCEPTED, |_, [frames, fixed], _, outputs| {
            let of_fixed = !model::bad_build([&[], fixed], [0, outputs[1]]);
            let number = MAX_FRAMES + 1;
            of_fixed && frames.len() == MOMENTS * number && outputs[0] == CENTRED * number
        }));
    }

    /// What is right, but where the answer is `refusal`, one of the four outputs is cleared.
    fn clears(refusal: u32, output: usize) -> impl Fn([&mut [f64]; 6], [&mut [u32]; 2]) -> u32 {
        move |numbers, [dof, dropped]| {
            let [frames, fixed, sigma, of_frames, of_fixed, points] = numbers;
            let [out, fixed_out, total] = [&mut *of_frames, &mut *of_fixed, &mut *points];
            let numbers = [frames, fixed, sigma, out, fixed_out, total];
            let answer = right(numbers, [dof, &mut *dropped]);
            if answer == refusal {
                match output {
                    0 => of_frames.fill(0.0),
                    1 => of_fixed.fill(0.0),
                    2 => points.fill(0.0),
                    _ => dropped.fill(0),
                }
            }
            answer
        }
    }

    #[test]
    fn a_refused_call_that_writes_is_found() {
        for (refusal, _) in TESTS {
            for output in 0..4 {
                let found = mismatches(&clears(refusal, output)) > 0;
                assert!(found, "output {output} of a call refused by {refusal}");
            }
        }
    }

    #[test]
    fn a_plain_build_that_differs_is_found() {
        let with_plain = |plain: &Call<'_, 6, 2>| mismatches_of([&right, plain]);
        // By 13 the plain build may answer too: those calls are not compared.
        assert_eq!(with_plain(&right), 0);
        for output in 0..4 {
            assert!(with_plain(&clears(TOTAL_COUNT, output)) > 0, "{output}");
            assert!(with_plain(&clears(0, output)) > 0, "{output}");
        }
        // A set of no points is refused.
        let refusal = |dof: u32, sets: [&[f64]; 2], sigma: f64, outputs: [usize; 2]| {
            match model::build_refusal(dof, sets, sigma, outputs) {
                0 if sets[1].first() == Some(&0.0) => TOTAL_COUNT,
                answer => answer,
            }
        };
        assert!(with_plain(&model::build_call(refusal, model::built)) > 0);
        // Another NaN is written.
        let quiets = |numbers: [&mut [f64]; 6], words: [&mut [u32]; 2]| {
            let [frames, fixed, sigma, of_frames, of_fixed, points] = numbers;
            let numbers = [frames, fixed, sigma, &mut *of_frames, of_fixed, points];
            let answer = plain(numbers, words);
            if answer == 0 {
                for number in of_frames.iter_mut().filter(|number| number.is_nan()) {
                    *number = f64::NAN;
                }
            }
            answer
        };
        assert!(with_plain(&quiets) > 0);
    }
}
