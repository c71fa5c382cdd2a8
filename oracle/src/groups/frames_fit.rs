//! The mean and the scatter that a plane is fitted to, against the model.

use crate::called::{every_pair, Call, Comparison, Fault, Lent};
use crate::draws::old;
use crate::generator::Generator;
use crate::lent::number;
use crate::model::{frames as model, LENGTH};
use crate::report::Report;
use crate::scenes::{some_frames, Scene};
use maghnelt::{slices as library, MAX_FRAMES};

/// What a call takes, and its output.
#[derive(Clone)]
struct Case {
    scene: Scene,
    out: Vec<f64>,
}

impl Case {
    fn of(frames: usize, generator: &mut Generator) -> Case {
        Case {
            scene: Scene::of(frames, generator),
            out: old(12, generator),
        }
    }

    fn lent(&self) -> Lent<4, 1> {
        let Scene {
            dof,
            frames,
            fixed,
            actions,
        } = self.scene.clone();
        Lent {
            numbers: [frames, fixed, actions, self.out.clone()],
            words: [vec![dof]],
        }
    }
}

/// Compares the library.
pub fn run(generator: &mut Generator, count: u64, report: &mut Report) {
    let call = |[frames, fixed, actions, out]: [&mut [f64]; 4], [dof]: [&mut [u32]; 1]| {
        number(library::frames_fit(dof[0], frames, fixed, actions, out))
    };
    compare(&call, generator, count, report);
}

fn compare(call: &Call<'_, 4, 1>, generator: &mut Generator, count: u64, report: &mut Report) {
    let model = model::fit_call(model::fit);
    let mut comparison = Comparison::new(
        "frames_fit",
        ["frames", "fixed", "actions", "out"],
        ["dof"],
        call,
        &model,
    );
    for frames in (1..20).chain([MAX_FRAMES - 1, MAX_FRAMES]) {
        for _ in 0..4 {
            comparison.check(&Case::of(frames, generator).lent(), report);
        }
    }
    for _ in 0..10 {
        every_pair(&faults(), accepted, generator, |case, _| {
            comparison.check(&case.lent(), report);
        });
    }
    let mut frames = 0;
    while frames < count {
        let case = Case::of(some_frames(generator), generator);
        comparison.check(&case.lent(), report);
        frames += case.scene.len() as u64;
    }
}

/// A case of few frames; no content is refused.
fn accepted(generator: &mut Generator) -> Case {
    Case::of(1 + generator.below(3) as usize, generator)
}

/// What a call can be refused for.
fn faults() -> Vec<Fault<Case>> {
    let of_scene = Scene::faults().into_iter();
    let mut faults: Vec<_> = of_scene
        .map(|fault| fault.within(|case: &mut Case| &mut case.scene))
        .collect();
    faults.push(Fault::new(LENGTH, |case: &mut Case, generator| {
        case.out = old(generator.pick(&[0, 3, 11, 13, 24]), generator);
    }));
    faults
}

#[cfg(test)]
mod tests {
    use super::*;
    use crate::called::{answer, check_faults};
    use crate::model::{congruent, matrix, sum_from_zero, vector, Matrix, Vector};
    use crate::model::{ACTIONS, DOF, EMPTY_LIST};
    use maghnelt::ACTION;
    use model::{Action, Centred, Sets};

    fn mismatches(call: &Call<'_, 4, 1>) -> u64 {
        let mut report = Report::new("frames_fit");
        compare(call, &mut Generator::new(1), 5_000, &mut report);
        report.mismatches()
    }

    fn with(fit: fn(&Sets) -> (Vector, Matrix<3>)) -> u64 {
        mismatches(&model::fit_call(fit))
    }

    fn right(numbers: [&mut [f64]; 4], words: [&mut [u32]; 1]) -> u32 {
        model::fit_call(model::fit)(numbers, words)
    }

    #[test]
    fn the_model_itself_passes() {
        assert_eq!(with(model::fit), 0);
    }

    #[test]
    fn faults_are_refused_by_their_numbers() {
        check_faults(&faults(), accepted, |case| {
            answer(&model::fit_call(model::fit), case.lent())
        });
    }

    #[test]
    fn tests_in_another_order_are_found() {
        let orders: [[u32; 2]; 4] = [
            [DOF, EMPTY_LIST],
            [EMPTY_LIST, LENGTH],
            [LENGTH, ACTIONS],
            [DOF, ACTIONS],
        ];
        for [first, second] in orders {
            let swapped = |numbers: [&mut [f64]; 4], words: [&mut [u32]; 1]| {
                let [frames, fixed, actions, out] = numbers;
                // Whether the second reason applies to a call without the first.
                let applies = match second {
                    EMPTY_LIST => frames.is_empty(),
                    LENGTH => fixed.len() == 1,
                    _ => actions.len() % ACTION != 0,
                };
                match right([frames, fixed, actions, out], words) {
                    answer if answer == first && applies => second,
                    answer => answer,
                }
            };
            assert!(mismatches(&swapped) > 0, "{first} and {second}");
        }
    }

    /// The scatter with parts that are made by `of_frame` from A·S·Aᵀ, o, count and the scatter so far.
    fn scatter_by(
        sets: &Sets,
        mean: Vector,
        part: fn(f64, f64, f64, f64, f64) -> f64,
    ) -> Matrix<3> {
        let mut sum = [[0.0; 3]; 3];
        let mut add = |scatter: Matrix<3>, centre: Vector, count: f64| {
            let o = vector(|r| centre[r] - mean[r]);
            sum = matrix(|r, c| part(sum[r][c], scatter[r][c], o[r], o[c], count));
        };
        for (frame, action) in &sets.frames {
            let turned = congruent(action.a, frame.scatter);
            add(turned, action.carried(frame.mean), frame.count);
        }
        if let Some(fixed) = sets.fixed {
            add(fixed.scatter, fixed.mean, fixed.count);
        }
        sum
    }

    fn with_part(part: fn(f64, f64, f64, f64, f64) -> f64) -> u64 {
        mismatches(&model::fit_call(move |sets: &Sets| {
            let mean = model::fit_mean(sets);
            (mean, scatter_by(sets, mean, part))
        }))
    }

    #[test]
    fn other_brackets_are_found() {
        assert_eq!(with_part(|sum, s, x, y, n| sum + (s + (x * y) * n)), 0);
        for wrong in [
            with_part(|sum, s, x, y, n| (sum + s) + (x * y) * n),
            with_part(|sum, s, x, y, n| sum + (s + (x * n) * y)),
            with_part(|sum, s, x, y, n| sum + (x * y).mul_add(n, s)),
            with_part(|sum, s, x, y, _| sum + (s + x * y)),
            with_part(|sum, s, _, _, _| sum + s),
        ] {
            assert!(wrong > 0);
        }
    }

    /// The right fit with another mean.
    fn with_mean(mean: fn(&Sets) -> Vector) -> u64 {
        mismatches(&model::fit_call(move |sets: &Sets| {
            let mean = mean(sets);
            (mean, model::fit_scatter(sets, mean))
        }))
    }

    #[test]
    fn other_means_are_found() {
        fn centres(sets: &Sets) -> Vec<(Vector, f64)> {
            let moved =
                |(frame, action): &(Centred, Action)| (action.carried(frame.mean), frame.count);
            let frames = sets.frames.iter().map(moved);
            let fixed = sets.fixed.iter().map(|fixed| (fixed.mean, fixed.count));
            frames.chain(fixed).collect()
        }
        // Counts that do not count.
        let plain = |sets: &Sets| {
            let centres = centres(sets);
            let all = centres.len() as f64;
            vector(|r| sum_from_zero(centres.iter().map(|(centre, _)| centre[r])) / all)
        };
        // A product with the reciprocal.
        let reciprocal = |sets: &Sets| {
            let centres = centres(sets);
            let total = sum_from_zero(centres.iter().map(|(_, count)| *count));
            vector(|r| {
                sum_from_zero(centres.iter().map(|(centre, count)| centre[r] * count))
                    * (1.0 / total)
            })
        };
        // Sums that start from the first term.
        let from_first = |sets: &Sets| {
            let centres = centres(sets);
            let total = sum_from_zero(centres.iter().map(|(_, count)| *count));
            vector(|r| {
                crate::model::sum(centres.iter().map(|(centre, count)| centre[r] * count)) / total
            })
        };
        // The fixed set before the frames.
        let fixed_first = |sets: &Sets| {
            let mut centres = centres(sets);
            if sets.fixed.is_some() {
                centres.rotate_right(1);
            }
            let total = sum_from_zero(centres.iter().map(|(_, count)| *count));
            vector(|r| {
                sum_from_zero(centres.iter().map(|(centre, count)| centre[r] * count)) / total
            })
        };
        for mean in [plain, reciprocal, from_first, fixed_first] {
            assert!(with_mean(mean) > 0);
        }
    }

    #[test]
    fn a_scatter_that_is_divided_or_made_symmetric_is_found() {
        assert!(
            with(|sets| {
                let (mean, scatter) = model::fit(sets);
                (mean, matrix(|r, c| (scatter[r][c] + scatter[c][r]) * 0.5))
            }) > 0
        );
        assert!(
            with(|sets| {
                let (mean, scatter) = model::fit(sets);
                let total = sum_from_zero(sets.frames.iter().map(|(frame, _)| frame.count));
                (mean, matrix(|r, c| scatter[r][c] / total))
            }) > 0
        );
    }

    #[test]
    fn frames_that_are_left_out_are_found() {
        assert!(
            with(|sets| {
                let frames = sets.frames[..1].to_vec();
                model::fit(&Sets { frames, ..*sets })
            }) > 0
        );
        assert!(
            with(|sets| {
                let frames = sets.frames[..sets.frames.len().min(255)].to_vec();
                model::fit(&Sets { frames, ..*sets })
            }) > 0
        );
        assert!(
            with(|sets| {
                let frames = sets.frames.clone();
                model::fit(&Sets {
                    frames,
                    fixed: None,
                })
            }) > 0
        );
        // A fixed set without points is used as it comes.
        assert!(
            with(|sets| {
                let frames = sets.frames.clone();
                let fixed = sets
                    .fixed
                    .filter(|fixed| fixed.count > 0.0 || fixed.count.is_nan());
                model::fit(&Sets { frames, fixed })
            }) > 0
        );
    }

    #[test]
    fn an_action_on_the_fixed_set_is_found() {
        assert!(
            with(|sets| {
                let fixed = sets.fixed.map(|fixed| {
                    let action = sets.frames[0].1;
                    Centred {
                        mean: action.carried(fixed.mean),
                        scatter: congruent(action.a, fixed.scatter),
                        ..fixed
                    }
                });
                let frames = sets.frames.clone();
                model::fit(&Sets { frames, fixed })
            }) > 0
        );
    }

    #[test]
    fn the_first_action_for_all_frames_is_found() {
        assert!(
            with(|sets| {
                let action = sets.frames[0].1;
                let frames = sets.frames.iter().map(|(frame, _)| (*frame, action));
                model::fit(&Sets {
                    frames: frames.collect(),
                    fixed: sets.fixed,
                })
            }) > 0
        );
    }

    #[test]
    fn a_centre_that_is_summed_from_the_shift_is_found() {
        assert!(
            with_mean(|sets| {
                let moved = |(frame, action): &(Centred, Action)| {
                    let (a, p) = (action.a, frame.mean);
                    let centre = vector(|r| {
                        ((action.b[r] + a[r][0] * p[0]) + a[r][1] * p[1]) + a[r][2] * p[2]
                    });
                    (centre, frame.count)
                };
                let fixed = sets.fixed.iter().map(|fixed| (fixed.mean, fixed.count));
                let centres: Vec<_> = sets.frames.iter().map(moved).chain(fixed).collect();
                let total = sum_from_zero(centres.iter().map(|(_, count)| *count));
                let weighted = |r: usize| centres.iter().map(move |(centre, n)| centre[r] * n);
                vector(|r| sum_from_zero(weighted(r)) / total)
            }) > 0
        );
    }
}
