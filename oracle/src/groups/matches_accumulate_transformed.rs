//! Accumulating the normal equations of matches with transforms beside the map, against the model and, where there are none,
//! against the call without them.

use crate::beside::some_columns;
use crate::called::{each_alone, every_pair, with_the_models_nans, Call, Comparison, Fault, Lent};
use crate::draws::old;
use crate::generator::Generator;
use crate::groups::matches_accumulate::{self as plain, Case};
use crate::lent::number;
use crate::matched::{some_matches, two_bad_matches, Matched, TURNING};
use crate::model::matches as model;
use crate::model::MAX_DOF;
use crate::report::Report;
use crate::targets::{each_largest_transform, each_turning_transform, Destination};
use maghnelt::slices as library;

/// Compares the library.
pub fn run(generator: &mut Generator, count: u64, report: &mut Report) {
    let plain = without(&plain::library_call);
    compare([&library_call, &plain], each_case, generator, count, report);
}

fn library_call(numbers: [&mut [f64]; 6], [dof, map, shapes]: [&mut [u32]; 3]) -> u32 {
    let [matches, action, transforms, hessian, gradient, cost] = numbers;
    number(library::matches_accumulate_transformed(
        dof[0],
        matches,
        action,
        map,
        shapes,
        transforms,
        hessian,
        gradient,
        &mut cost[0],
    ))
}

fn model_call(numbers: [&mut [f64]; 6], words: [&mut [u32]; 3]) -> u32 {
    let call = model::accumulate_transformed_call(
        |inputs, target| inputs.accumulate_refusal(target),
        |inputs| inputs.work(),
    );
    call(numbers, words)
}

/// The call without transforms on the same memory.
fn without<'a>(call: &'a Call<'a, 5, 2>) -> impl Fn([&mut [f64]; 6], [&mut [u32]; 3]) -> u32 + 'a {
    move |[matches, action, _, hessian, gradient, cost], [dof, map, _]| {
        let [h, g, c] = [&mut *hessian, &mut *gradient, &mut *cost];
        let answer = call([matches, action, h, g, c], [dof, map]);
        with_the_models_nans(answer, [hessian, gradient, cost])
    }
}

/// Goes through cases of about so many matches in all.
type Cases = fn(u64, &mut Generator, &mut dyn FnMut(Case, &mut Generator));

/// Compares a call with the model and, where nothing lies beside the map, with the second call, the one without transforms.
fn compare(
    [call, plain]: [&Call<'_, 6, 3>; 2],
    cases: Cases,
    generator: &mut Generator,
    count: u64,
    report: &mut Report,
) {
    let comparison = |name: &'static str, model| {
        Comparison::new(
            name,
            [
                "matches",
                "action",
                "transforms",
                "hessian",
                "gradient",
                "cost",
            ],
            ["dof", "map", "shapes"],
            call,
            model,
        )
    };
    let mut with_model = comparison("matches_accumulate_transformed", &model_call);
    let mut with_plain = comparison(
        "with nothing beside the map, matches_accumulate being the model",
        plain,
    );
    cases(count, generator, &mut |case, generator| {
        let nothing = case.target.beside.is_empty();
        let lent = lent(case, generator);
        with_model.check(&lent, report);
        if nothing {
            with_plain.check(&lent, report);
        }
    });
}

/// What a call is lent for a case.
fn lent(case: Case, generator: &mut Generator) -> Lent<6, 3> {
    let (matched, target) = (case.matched, case.target);
    Lent {
        numbers: [
            matched.matches,
            matched.action,
            target.beside.transforms,
            target.hessian,
            target.gradient,
            old(1, generator),
        ],
        words: [vec![matched.dof], target.map, target.beside.shapes],
    }
}

fn each_case(count: u64, generator: &mut Generator, check: &mut dyn FnMut(Case, &mut Generator)) {
    let mut draws = Generator::new(generator.bits());
    let faults = faults();
    each_alone(&faults, accepted, generator, |case| {
        check(case, &mut draws);
    });
    every_pair(&faults, accepted, generator, |case, _| {
        check(case, &mut draws);
    });
    for matched in two_bad_matches(generator) {
        check(of(matched, generator), generator);
    }
    each_largest_transform(generator, |target, generator| {
        check(at(target, generator), generator);
    });
    each_without_faults(count, generator, check);
}

/// The cases that are chosen, and then random ones.
fn each_without_faults(
    count: u64,
    generator: &mut Generator,
    check: &mut dyn FnMut(Case, &mut Generator),
) {
    each_turning_transform(generator, |target, generator| {
        check(at(target, generator), generator);
    });
    // The most matches are in the comparison without transforms: one group is summed as another.
    for matches in TURNING.into_iter().filter(|&matches| matches < 2000) {
        for dof in 0..=MAX_DOF {
            let matched = Matched::with(dof, matches, generator);
            let mut target = Destination::of_order(11, dof as usize, vec![1], generator);
            let shape = [dof, some_columns(generator)];
            target.beside.push(shape, generator);
            check(Case { matched, target }, generator);
        }
    }
    let mut matches = 0;
    while matches < count {
        let case = of(Matched::of(some_matches(generator), generator), generator);
        matches += 2 + case.matched.len() as u64;
        check(case, generator);
    }
}

fn of(matched: Matched, generator: &mut Generator) -> Case {
    let target = Destination::transformed(matched.dof as usize, 1, generator);
    Case { matched, target }
}

/// A case of two matches with that destination.
fn at(target: Destination, generator: &mut Generator) -> Case {
    let matched = Matched::with(target.dof as u32, 2, generator);
    Case { matched, target }
}

fn accepted(generator: &mut Generator) -> Case {
    let matched = Matched::of(1 + generator.below(4) as usize, generator);
    of(matched, generator)
}

/// What a call can be refused for.
fn faults() -> Vec<Fault<Case>> {
    let of_target = Destination::transform_faults().into_iter();
    let of_target = of_target.map(|fault| fault.within(|case: &mut Case| &mut case.target));
    plain::faults().into_iter().chain(of_target).collect()
}

#[cfg(test)]
mod tests {
    use super::*;
    use crate::beside::wrong::{
        columns_transformed, dof_wide, zeros_added, Changed, Shown, Tried, ADDED, FIRST_WORD, RIGHT,
    };
    use crate::called::{answer, check_faults};
    use crate::model::blocks::{added, Target, Work};
    use crate::model::transforms::Transforms;
    use crate::model::{
        ACTIONS, DOF, EMPTY_LIST, LENGTH, MAP_WORD, NOT_FINITE, SEGMENT, SHAPE, SIGMA,
    };
    use maghnelt::MATCH;
    use model::{Matches, GROUP};
    use std::cell::RefCell;

    /// Its tests, in order; which of 6 and 7 comes first is the matches'.
    const ORDER: [u32; 9] = [
        DOF, EMPTY_LIST, LENGTH, NOT_FINITE, SIGMA, ACTIONS, MAP_WORD, SHAPE, SEGMENT,
    ];

    fn mismatches_of(calls: [&Call<'_, 6, 3>; 2], cases: Cases) -> u64 {
        let mut report = Report::new("matches_accumulate_transformed");
        compare(calls, cases, &mut Generator::new(1), 4_000, &mut report);
        report.mismatches()
    }

    fn mismatches(call: &Call<'_, 6, 3>) -> u64 {
        mismatches_of([call, &without(&plain::model_call)], each_case)
    }

    /// What is right, but afterwards `spoil` gets the answer, the words, and Hessian, gradient and cost.
    fn spoilt(
        spoil: impl Fn(u32, [&[u32]; 3], [&mut [f64]; 3]),
    ) -> impl Fn([&mut [f64]; 6], [&mut [u32]; 3]) -> u32 {
        move |[matches, action, transforms, hessian, gradient, cost], [dof, map, shapes]| {
            let [h, g, c] = [&mut *hessian, &mut *gradient, &mut *cost];
            let numbers = [matches, action, transforms, h, g, c];
            let answer = model_call(numbers, [&mut *dof, &mut *map, &mut *shapes]);
            spoil(answer, [dof, map, shapes], [hessian, gradient, cost]);
            answer
        }
    }

    /// Whether a call is found that works out other things.
    fn finds(work: impl Fn(&Matches) -> Work) -> bool {
        let refusal = |inputs: &Matches, target: Target| inputs.accumulate_refusal(target);
        let call = model::accumulate_transformed_call(refusal, work);
        let plain = without(&plain::model_call);
        mismatches_of([&call, &plain], each_without_faults) > 0
    }

    #[test]
    fn the_model_itself_passes() {
        assert_eq!(mismatches(&model_call), 0);
    }

    #[test]
    fn faults_are_refused_by_their_numbers() {
        check_faults(&faults(), accepted, |case| {
            answer(&model_call, lent(case, &mut Generator::new(1)))
        });
    }

    #[test]
    fn other_ways_to_add_are_found() {
        assert!(!finds(|inputs| inputs.work_by(GROUP, RIGHT)));
        for (name, added) in ADDED {
            let found = finds(|inputs| inputs.work_by(GROUP, added));
            // A match list has the first word.
            assert_eq!(found, name != FIRST_WORD, "{name}");
        }
    }

    #[test]
    fn transforms_of_a_group_or_of_a_match_are_found() {
        // One sum over all matches; and what each group, or each match, adds is transformed by itself.
        assert!(finds(|inputs| inputs.work_by(usize::MAX, added)));
        for matches in [GROUP, 1] {
            assert!(finds(|inputs| {
                let mut whole = inputs.work();
                whole.terms.clear();
                for part in inputs.matches.chunks(matches * MATCH) {
                    let part = Matches {
                        matches: part,
                        ..*inputs
                    };
                    whole.terms.extend(part.work().terms);
                }
                whole
            }));
        }
    }

    #[test]
    fn derivatives_that_are_transformed_are_found() {
        assert!(finds(|inputs| match inputs.transforms.of(0) {
            Some(t) if !inputs.map.is_empty() => {
                let columns = columns_transformed(inputs.action, &t);
                let mut moved = Matches {
                    dof: t.columns as u32,
                    action: &columns,
                    ..*inputs
                };
                moved.transforms = Transforms::NONE;
                moved.work()
            }
            _ => inputs.work(),
        }));
    }

    #[test]
    fn other_answers_and_orders_are_found() {
        let shown = RefCell::new(Shown::none());
        let look = |inputs: &Matches, target: Target| {
            let plain = Matches {
                transforms: Transforms::NONE,
                ..*inputs
            };
            shown.borrow_mut().look(&Tried {
                blocks: inputs.blocks(),
                target,
                frames: 1,
                reasons: inputs.accumulate_reasons(target),
                plain: plain.accumulate_reasons(target),
            });
            inputs.accumulate_refusal(target)
        };
        let call = model::accumulate_transformed_call(look, |inputs| inputs.work());
        assert_eq!(mismatches(&call), 0);
        // Without matches none is bad, and the first bad one is refused for one reason.
        let never = [
            [EMPTY_LIST, NOT_FINITE],
            [EMPTY_LIST, SIGMA],
            [NOT_FINITE, SIGMA],
        ];
        shown.borrow().check(&ORDER, &never);
    }

    #[test]
    fn segments_of_dof_rows_are_found() {
        let too_wide = spoilt(|answer, words, [_, gradient, _]| {
            if answer == 0 {
                dof_wide(words, gradient);
            }
        });
        assert!(mismatches(&too_wide) > 0);
    }

    #[test]
    fn refused_calls_that_write_are_found() {
        let changed = RefCell::new(Changed::default());
        let writes = spoilt(|answer, _, outputs| {
            if answer != 0 {
                let outputs = outputs.map(zeros_added);
                changed.borrow_mut().note(answer, &outputs);
            }
        });
        let mismatches = mismatches(&writes);
        changed.borrow().check(&ORDER, 3, mismatches);
    }

    #[test]
    fn a_call_without_transforms_that_differs_is_found() {
        let with_plain =
            |plain: &Call<'_, 5, 2>| mismatches_of([&model_call, &without(plain)], each_case);
        assert_eq!(with_plain(&plain::model_call), 0);
        // By its answer, by what it adds, and by what it writes though it is refused.
        let other = |numbers: [&mut [f64]; 5], words: [&mut [u32]; 2]| match plain::model_call(
            numbers, words,
        ) {
            SEGMENT => SHAPE,
            answer => answer,
        };
        assert!(with_plain(&other) > 0);
        for refused in [false, true] {
            let writes = |numbers: [&mut [f64]; 5], words: [&mut [u32]; 2]| {
                let [matches, action, hessian, gradient, cost] = numbers;
                let numbers = [matches, action, hessian, &mut *gradient, cost];
                let answer = plain::model_call(numbers, words);
                if (answer != 0) == refused {
                    gradient.iter_mut().for_each(|cell| *cell += 0.0);
                }
                answer
            };
            assert!(with_plain(&writes) > 0, "refused: {refused}");
        }
    }
}
