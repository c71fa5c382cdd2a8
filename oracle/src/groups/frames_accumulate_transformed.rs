//! Accumulating the normal equations of frames with transforms beside the map, against the model and, where there are none,
//! against the call without them.

use crate::called::{each_alone, every_pair, with_the_models_nans, Call, Comparison, Fault, Lent};
use crate::draws::old;
use crate::generator::Generator;
use crate::groups::frames_accumulate::{self as plain, Case};
use crate::lent::number;
use crate::model::frames as model;
use crate::report::Report;
use crate::scenes::{some_frames, Scene};
use crate::targets::{each_largest_transform, each_run, each_turning_transform, Destination};
use maghnelt::{slices as library, ACTION, CENTRED, DECOMPOSITION, MAX_FRAMES, TRANSFORM};

/// Compares the library.
pub fn run(generator: &mut Generator, count: u64, report: &mut Report) {
    let plain = without(&plain::library_call);
    compare([&library_call, &plain], each_case, generator, count, report);
}

fn library_call(numbers: [&mut [f64]; 9], [dof, map, shapes]: [&mut [u32]; 3]) -> u32 {
    let [frames, fixed, sigma, actions, decomposition, transforms, hessian, gradient, cost] =
        numbers;
    number(library::frames_accumulate_transformed(
        dof[0],
        frames,
        fixed,
        sigma[0],
        actions,
        decomposition,
        map,
        shapes,
        transforms,
        hessian,
        gradient,
        &mut cost[0],
    ))
}

fn model_call(numbers: [&mut [f64]; 9], words: [&mut [u32]; 3]) -> u32 {
    let call = model::accumulate_transformed_call(
        |inputs, target| inputs.refusal(target),
        |inputs| inputs.work(),
    );
    call(numbers, words)
}

/// The call without transforms on the same memory.
fn without<'a>(call: &'a Call<'a, 8, 2>) -> impl Fn([&mut [f64]; 9], [&mut [u32]; 3]) -> u32 + 'a {
    move |numbers, [dof, map, _]| {
        let [frames, fixed, sigma, actions, decomposition, _, hessian, gradient, cost] = numbers;
        let [h, g, c] = [&mut *hessian, &mut *gradient, &mut *cost];
        let numbers = [frames, fixed, sigma, actions, decomposition, h, g, c];
        let answer = call(numbers, [dof, map]);
        with_the_models_nans(answer, [hessian, gradient, cost])
    }
}

/// Goes through cases of so much work in all: a frame counts two, for its block and for its transform.
type Cases = fn(u64, &mut Generator, &mut dyn FnMut(Case, &mut Generator));

/// Compares a call with the model and, where nothing lies beside the map, with the second call, the one without transforms.
fn compare(
    [call, plain]: [&Call<'_, 9, 3>; 2],
    cases: Cases,
    generator: &mut Generator,
    count: u64,
    report: &mut Report,
) {
    let comparison = |name: &'static str, model| {
        Comparison::new(
            name,
            [
                "frames",
                "fixed",
                "sigma",
                "actions",
                "decomposition",
                "transforms",
                "hessian",
                "gradient",
                "cost",
            ],
            ["dof", "map", "shapes"],
            call,
            model,
        )
    };
    let mut with_model = comparison("frames_accumulate_transformed", &model_call);
    let mut with_plain = comparison(
        "with nothing beside the map, frames_accumulate being the model",
        plain,
    );
    cases(count, generator, &mut |case, generator| {
        let nothing = case.target.beside.is_empty();
        let lent = lent(case, generator);
        with_model.check(&lent, report);
        if nothing {
            with_plain.check(&lent, report);
        }
    });
}

/// What a call is lent for a case.
fn lent(case: Case, generator: &mut Generator) -> Lent<9, 3> {
    let (scene, target) = (case.scene, case.target);
    Lent {
        numbers: [
            scene.frames,
            scene.fixed,
            vec![case.sigma],
            scene.actions,
            case.decomposition,
            target.beside.transforms,
            target.hessian,
            target.gradient,
            old(1, generator),
        ],
        words: [vec![scene.dof], target.map, target.beside.shapes],
    }
}

fn each_case(count: u64, generator: &mut Generator, check: &mut dyn FnMut(Case, &mut Generator)) {
    let mut draws = Generator::new(generator.bits());
    let faults = faults();
    each_alone(&faults, accepted, generator, |case| check(case, &mut draws));
    every_pair(&faults, accepted, generator, |case, _| {
        check(case, &mut draws)
    });
    each_largest_transform(generator, |target, generator| {
        check(at(target, generator), generator);
    });
    each_without_faults(count, generator, check);
}

/// The cases that are chosen, and then random ones.
fn each_without_faults(
    count: u64,
    generator: &mut Generator,
    check: &mut dyn FnMut(Case, &mut Generator),
) {
    check(whole_numbers(), generator);
    each_turning_transform(generator, |target, generator| {
        check(at(target, generator), generator);
    });
    each_run(generator, |frames, target, generator| {
        let mut scene = Scene::of_a_wall(frames, generator);
        scene.dof = target.dof as u32;
        check(Case::with_target(scene, target, generator), generator);
    });
    for frames in (1..8).chain([MAX_FRAMES - 1, MAX_FRAMES]) {
        check(of(Scene::of(frames, generator), generator), generator);
    }
    let mut frames = 0;
    while frames < count {
        let case = of(Scene::of(some_frames(generator), generator), generator);
        frames += 2 + 2 * case.scene.len() as u64;
        check(case, generator);
    }
}

/// A case in whole numbers: the block M has the columns (1,4) and (3,5), the vector is (5,6), and T is (1,2)ᵀ. M is the
/// frame's scatter, and the vector its product with the normal as the frame sees it, (-1,2).
fn whole_numbers() -> Case {
    let mut frame = [0.0; CENTRED];
    frame[0] = 4.0;
    frame[4..6].copy_from_slice(&[1.0, 4.0]);
    frame[7..9].copy_from_slice(&[3.0, 5.0]);
    // The normal is (1,0,0), so that the first row of every matrix counts.
    let mut action = [0.0; ACTION];
    (action[0], action[3]) = (-1.0, 2.0);
    (action[39], action[66 + 3]) = (1.0, 1.0);
    let mut decomposition = [0.0; DECOMPOSITION];
    decomposition[..6].copy_from_slice(&[0.0, 1.0, 2.0, 1.0, 0.0, 0.0]);
    let mut target = Destination::nowhere(2);
    target.map = vec![0];
    target.hessian = vec![100.0];
    target.gradient = vec![1000.0];
    target.beside.shapes = vec![2, 1];
    target.beside.transforms = vec![f64::NAN; TRANSFORM];
    target.beside.transforms[..2].copy_from_slice(&[1.0, 2.0]);
    Case {
        scene: Scene {
            dof: 2,
            frames: frame.to_vec(),
            fixed: Vec::new(),
            actions: action.to_vec(),
        },
        sigma: 1.0,
        decomposition: decomposition.to_vec(),
        target,
    }
}

fn of(scene: Scene, generator: &mut Generator) -> Case {
    let target = Destination::transformed(scene.dof as usize, scene.len(), generator);
    Case::with_target(scene, target, generator)
}

/// A case of two frames of a wall with that destination.
fn at(target: Destination, generator: &mut Generator) -> Case {
    let mut scene = Scene::of_a_wall(2, generator);
    scene.dof = target.dof as u32;
    Case::with_target(scene, target, generator)
}

fn accepted(generator: &mut Generator) -> Case {
    let scene = Scene::of(1 + generator.below(3) as usize, generator);
    of(scene, generator)
}

/// What a call can be refused for.
fn faults() -> Vec<Fault<Case>> {
    let of_target = Destination::transform_faults().into_iter();
    let of_target = of_target.map(|fault| fault.within(|case: &mut Case| &mut case.target));
    plain::faults().into_iter().chain(of_target).collect()
}

#[cfg(test)]
mod tests {
    use super::*;
    use crate::beside::wrong::{
        columns_transformed, dof_wide, zeros_added, Changed, Shown, Tried, ADDED, AS_IT_IS, RIGHT,
    };
    use crate::called::{answer, check_faults};
    use crate::model::blocks::{Cell, Target, Work};
    use crate::model::transforms::Transforms;
    use crate::model::{ACTIONS, DOF, EMPTY_LIST, LENGTH, MAP_WORD, SEGMENT, SHAPE, SIGMA};
    use model::Accumulate;
    use std::cell::RefCell;

    /// Its tests, in order.
    const ORDER: [u32; 8] = [
        DOF, EMPTY_LIST, LENGTH, SIGMA, ACTIONS, MAP_WORD, SHAPE, SEGMENT,
    ];

    fn mismatches_of(calls: [&Call<'_, 9, 3>; 2], cases: Cases) -> u64 {
        let mut report = Report::new("frames_accumulate_transformed");
        compare(calls, cases, &mut Generator::new(1), 3_000, &mut report);
        report.mismatches()
    }

    fn mismatches(call: &Call<'_, 9, 3>) -> u64 {
        mismatches_of([call, &without(&plain::model_call)], each_case)
    }

    /// What is right, but afterwards `spoil` gets the answer, the words, and Hessian, gradient and cost.
    fn spoilt(
        spoil: impl Fn(u32, [&[u32]; 3], [&mut [f64]; 3]),
    ) -> impl Fn([&mut [f64]; 9], [&mut [u32]; 3]) -> u32 {
        move |numbers, [dof, map, shapes]| {
            let [frames, fixed, sigma, actions, decomposition, transforms, hessian, gradient, cost] =
                numbers;
            let [h, g, c] = [&mut *hessian, &mut *gradient, &mut *cost];
            let numbers = [
                frames,
                fixed,
                sigma,
                actions,
                decomposition,
                transforms,
                h,
                g,
                c,
            ];
            let answer = model_call(numbers, [&mut *dof, &mut *map, &mut *shapes]);
            spoil(answer, [dof, map, shapes], [hessian, gradient, cost]);
            answer
        }
    }

    #[test]
    fn the_model_itself_passes() {
        assert_eq!(mismatches(&model_call), 0);
    }

    #[test]
    fn the_case_in_whole_numbers_is_as_on_paper() {
        let case = whole_numbers();
        let work = case.inputs().work();
        let terms = [(Cell::Hessian(0, 0), 35.0), (Cell::Gradient(0), 17.0)];
        assert_eq!(work.terms, terms);
        // The normal times the scatter times the normal, as the frame sees it: -5 + 12.
        assert_eq!(work.cost, 7.0);
    }

    #[test]
    fn faults_are_refused_by_their_numbers() {
        check_faults(&faults(), accepted, |case| {
            answer(&model_call, lent(case, &mut Generator::new(1)))
        });
    }

    /// Whether a call is found that works out other things.
    fn finds(work: impl Fn(&Accumulate) -> Work) -> bool {
        let refusal = |inputs: &Accumulate, target: Target| inputs.refusal(target);
        let call = model::accumulate_transformed_call(refusal, work);
        let plain = without(&plain::model_call);
        mismatches_of([&call, &plain], each_without_faults) > 0
    }

    #[test]
    fn other_ways_to_add_are_found() {
        assert!(!finds(|inputs| inputs.work_by(RIGHT)));
        for (name, added) in ADDED {
            assert!(finds(|inputs| inputs.work_by(added)), "{name}");
        }
    }

    #[test]
    fn derivatives_that_are_transformed_are_found() {
        assert!(finds(|inputs| {
            let actions = inputs.actions.chunks(ACTION).enumerate();
            let moved = actions.map(|(frame, action)| match inputs.transforms.of(frame) {
                Some(t) if frame < inputs.map.len() => columns_transformed(action, &t),
                _ => action.to_vec(),
            });
            let actions: Vec<f64> = moved.flatten().collect();
            let with_cost = inputs.work();
            let moved = Accumulate {
                actions: &actions,
                ..*inputs
            };
            Work {
                terms: moved.work_by(AS_IT_IS).terms,
                ..with_cost
            }
        }));
    }

    #[test]
    fn blocks_that_are_weighted_afterwards_are_found() {
        assert!(finds(|inputs| {
            let weight = 1.0 / (inputs.sigma * inputs.sigma);
            let unweighted = Accumulate {
                sigma: 1.0,
                ..*inputs
            };
            let terms = unweighted.work().terms.into_iter();
            Work {
                terms: terms.map(|(cell, term)| (cell, term * weight)).collect(),
                ..inputs.work()
            }
        }));
    }

    #[test]
    fn other_answers_and_orders_are_found() {
        let shown = RefCell::new(Shown::none());
        let look = |inputs: &Accumulate, target: Target| {
            let plain = Accumulate {
                transforms: Transforms::NONE,
                ..*inputs
            };
            shown.borrow_mut().look(&Tried {
                blocks: inputs.blocks(),
                target,
                frames: inputs.frames.len() / CENTRED,
                reasons: inputs.reasons(target),
                plain: plain.reasons(target),
            });
            inputs.refusal(target)
        };
        let call = model::accumulate_transformed_call(look, |inputs| inputs.work());
        assert_eq!(mismatches(&call), 0);
        // Without frames there is no segment.
        shown.borrow().check(&ORDER, &[[EMPTY_LIST, SEGMENT]]);
    }

    #[test]
    fn segments_of_dof_rows_are_found() {
        let too_wide = spoilt(|answer, words, [_, gradient, _]| {
            if answer == 0 {
                dof_wide(words, gradient);
            }
        });
        assert!(mismatches(&too_wide) > 0);
    }

    #[test]
    fn refused_calls_that_write_are_found() {
        let changed = RefCell::new(Changed::default());
        let writes = spoilt(|answer, _, outputs| {
            if answer != 0 {
                let outputs = outputs.map(zeros_added);
                changed.borrow_mut().note(answer, &outputs);
            }
        });
        let mismatches = mismatches(&writes);
        changed.borrow().check(&ORDER, 3, mismatches);
    }

    #[test]
    fn a_call_without_transforms_that_differs_is_found() {
        let with_plain =
            |plain: &Call<'_, 8, 2>| mismatches_of([&model_call, &without(plain)], each_case);
        assert_eq!(with_plain(&plain::model_call), 0);
        // By its answer, by what it adds, and by what it writes though it is refused.
        assert!(
            with_plain(&|numbers, words| match plain::model_call(numbers, words) {
                SEGMENT => SHAPE,
                answer => answer,
            }) > 0
        );
        for refused in [false, true] {
            let differs = with_plain(&|numbers, words| {
                let [frames, fixed, sigma, actions, decomposition, hessian, gradient, cost] =
                    numbers;
                let numbers = [
                    frames,
                    fixed,
                    sigma,
                    actions,
                    decomposition,
                    hessian,
                    &mut *gradient,
                    cost,
                ];
                let answer = plain::model_call(numbers, words);
                if (answer != 0) == refused {
                    gradient.iter_mut().for_each(|cell| *cell += 0.0);
                }
                answer
            });
            assert!(differs > 0, "refused: {refused}");
        }
    }
}
