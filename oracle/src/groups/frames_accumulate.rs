//! Accumulating the normal equations of frames, against the model.

use crate::called::{every_pair, Call, Comparison, Fault, Lent};
use crate::draws::{old, within};
use crate::generator::Generator;
use crate::lent::number;
use crate::model::frames::{self as model, Accumulate};
use crate::model::{LENGTH, SIGMA};
use crate::report::Report;
use crate::scenes::{
    bad_sigma, fit_decomposition, some_frames, some_sigma, turning_eigenvalues, Scene,
    GAPS_OF_THE_FIT,
};
use crate::targets::{ends_of_segments, Destination};
use maghnelt::{slices as library, DECOMPOSITION, MAX_FRAMES, MAX_ORDER, UNMAPPED};

/// What a call takes.
pub(crate) struct Case {
    pub(crate) scene: Scene,
    pub(crate) sigma: f64,
    pub(crate) decomposition: Vec<f64>,
    pub(crate) target: Destination,
}

impl Case {
    fn of(scene: Scene, generator: &mut Generator) -> Case {
        let target = Destination::random(scene.dof as usize, scene.len(), generator);
        Case::with_target(scene, target, generator)
    }

    /// A case with that destination.
    pub(crate) fn with_target(
        scene: Scene,
        target: Destination,
        generator: &mut Generator,
    ) -> Case {
        Case {
            sigma: match generator.below(4) {
                0 => some_sigma(generator),
                _ => within(0.001, 2.0, generator),
            },
            decomposition: fit_decomposition(&scene, generator).to_vec(),
            scene,
            target,
        }
    }

    /// The same as the model takes it.
    pub(crate) fn inputs(&self) -> Accumulate<'_> {
        Accumulate {
            dof: self.scene.dof,
            frames: &self.scene.frames,
            fixed: &self.scene.fixed,
            sigma: self.sigma,
            actions: &self.scene.actions,
            decomposition: &self.decomposition,
            map: &self.target.map,
            transforms: self.target.beside.read(),
        }
    }

    fn lent(self, generator: &mut Generator) -> Lent<8, 2> {
        Lent {
            numbers: [
                self.scene.frames,
                self.scene.fixed,
                vec![self.sigma],
                self.scene.actions,
                self.decomposition,
                self.target.hessian,
                self.target.gradient,
                old(1, generator),
            ],
            words: [vec![self.scene.dof], self.target.map],
        }
    }
}

/// The library's call.
pub(crate) fn library_call(numbers: [&mut [f64]; 8], [dof, map]: [&mut [u32]; 2]) -> u32 {
    let [frames, fixed, sigma, actions, decomposition, hessian, gradient, cost] = numbers;
    number(library::frames_accumulate(
        dof[0],
        frames,
        fixed,
        sigma[0],
        actions,
        decomposition,
        map,
        hessian,
        gradient,
        &mut cost[0],
    ))
}

/// The model's.
pub(crate) fn model_call(numbers: [&mut [f64]; 8], words: [&mut [u32]; 2]) -> u32 {
    let call = model::accumulate_call(
        |inputs, target| inputs.refusal(target),
        |inputs| inputs.work(),
    );
    call(numbers, words)
}

/// Compares the library.
pub fn run(generator: &mut Generator, count: u64, report: &mut Report) {
    compare(&library_call, generator, count, report);
}

fn compare(call: &Call<'_, 8, 2>, generator: &mut Generator, count: u64, report: &mut Report) {
    let mut comparison = Comparison::new(
        "frames_accumulate",
        [
            "frames",
            "fixed",
            "sigma",
            "actions",
            "decomposition",
            "hessian",
            "gradient",
            "cost",
        ],
        ["dof", "map"],
        call,
        &model_call,
    );
    for frames in (1..20).chain([MAX_FRAMES - 1, MAX_FRAMES]) {
        for _ in 0..10 {
            let case = Case::of(Scene::of(frames, generator), generator);
            comparison.check(&case.lent(generator), report);
        }
    }
    for eigenvalues in turning_eigenvalues(GAPS_OF_THE_FIT) {
        let mut case = Case::of(Scene::of_a_wall(1, generator), generator);
        case.decomposition[..3].copy_from_slice(&eigenvalues);
        comparison.check(&case.lent(generator), report);
    }
    for (dof, order, offset) in ends_of_segments() {
        let mut scene = Scene::of_a_wall(2, generator);
        scene.dof = dof;
        // The offset is the first frame's, the second's, or that of none.
        for place in 0..3 {
            let mut map = vec![UNMAPPED; 3];
            map[place] = offset;
            let target = Destination::of_order(order, dof as usize, map, generator);
            let case = Case::with_target(scene.clone(), target, generator);
            comparison.check(&case.lent(generator), report);
        }
    }
    // The largest order, every row of it in some segment.
    let mut scene = Scene::of_a_wall(MAX_FRAMES, generator);
    scene.dof = 4;
    let map = (0..MAX_FRAMES as u32).map(|frame| 4 * frame).collect();
    let target = Destination::of_order(MAX_ORDER, 4, map, generator);
    let case = Case::with_target(scene, target, generator);
    comparison.check(&case.lent(generator), report);
    let mut draws = Generator::new(generator.bits());
    every_pair(&faults(), accepted, generator, |case, _| {
        comparison.check(&case.lent(&mut draws), report);
    });
    let mut frames = 0;
    while frames < count {
        let case = Case::of(Scene::of(some_frames(generator), generator), generator);
        frames += 1 + case.scene.len() as u64;
        comparison.check(&case.lent(generator), report);
    }
}

fn accepted(generator: &mut Generator) -> Case {
    let scene = Scene::of(1 + generator.below(3) as usize, generator);
    Case::of(scene, generator)
}

/// What a call can be refused for.
pub(crate) fn faults() -> Vec<Fault<Case>> {
    let of_scene = Scene::faults().into_iter();
    let of_target = Destination::faults().into_iter();
    let mut faults: Vec<_> = of_scene
        .map(|fault| fault.within(|case: &mut Case| &mut case.scene))
        .chain(of_target.map(|fault| fault.within(|case: &mut Case| &mut case.target)))
        .collect();
    faults.push(Fault::new(SIGMA, |case: &mut Case, generator| {
        case.sigma = bad_sigma(generator);
    }));
    faults.push(Fault::new(LENGTH, |case: &mut Case, generator| {
        let wrong = [
            0,
            3,
            DECOMPOSITION - 1,
            DECOMPOSITION + 1,
            2 * DECOMPOSITION,
        ];
        case.decomposition.resize(generator.pick(&wrong), 1.0);
    }));
    faults
}

#[cfg(test)]
mod tests {
    use super::*;
    use crate::called::{answer, check_faults};
    use crate::model::blocks::{Block, Cell, Target, Work};
    use crate::model::moments::Decomposition;
    use crate::model::{dot, ACTIONS, SEGMENT};
    use model::{FrameTerms, Plane, Sets};

    fn mismatches(call: &Call<'_, 8, 2>) -> u64 {
        let mut report = Report::new("frames_accumulate");
        compare(call, &mut Generator::new(1), 5_000, &mut report);
        report.mismatches()
    }

    fn with_refusal(refusal: fn(&Accumulate, Target) -> u32) -> u64 {
        mismatches(&model::accumulate_call(refusal, |inputs| inputs.work()))
    }

    fn with_work(work: fn(&Accumulate) -> Work) -> u64 {
        mismatches(&model::accumulate_call(
            |inputs, target| inputs.refusal(target),
            work,
        ))
    }

    /// The work with other parts: the plane, the weight, what a frame adds and what the fixed set costs.
    #[derive(Clone, Copy)]
    struct Parts {
        plane: fn(&Accumulate) -> Option<Plane>,
        weight: fn(f64) -> f64,
        frame: fn(&Sets, usize, &Plane, f64) -> FrameTerms,
        fixed: fn(&Sets, &Plane, f64) -> f64,
    }

    const RIGHT: Parts = Parts {
        plane: |inputs| inputs.plane(),
        weight: |sigma| 1.0 / (sigma * sigma),
        frame: |sets, k, plane, weight| {
            let (frame, action) = &sets.frames[k];
            model::frame_terms(frame, action, plane, weight)
        },
        fixed: |sets, plane, weight| match &sets.fixed {
            Some(fixed) => model::fixed_cost(fixed, plane, weight),
            None => -0.0,
        },
    };

    fn with(parts: Parts) -> u64 {
        mismatches(&model::accumulate_call(
            |inputs, target| inputs.refusal(target),
            move |inputs| {
                let mut work = Work {
                    cost: 0.0,
                    terms: Vec::new(),
                };
                let Some(plane) = (parts.plane)(inputs) else {
                    return work;
                };
                let weight = (parts.weight)(inputs.sigma);
                let sets = inputs.sets();
                for k in 0..sets.frames.len() {
                    let FrameTerms { cost, block } = (parts.frame)(&sets, k, &plane, weight);
                    work.cost += cost;
                    if let Some(segment) = inputs.blocks().segment(k) {
                        work.add(segment, &block);
                    }
                }
                work.cost += (parts.fixed)(&sets, &plane, weight);
                work
            },
        ))
    }

    #[test]
    fn the_model_itself_passes() {
        assert_eq!(with_work(|inputs| inputs.work()), 0);
        assert_eq!(with(RIGHT), 0);
    }

    #[test]
    fn faults_are_refused_by_their_numbers() {
        check_faults(&faults(), accepted, |case| {
            answer(&model_call, case.lent(&mut Generator::new(1)))
        });
    }

    #[test]
    fn other_weights_are_found() {
        for weight in [
            |sigma: f64| (1.0 / sigma) * (1.0 / sigma),
            |sigma: f64| (1.0 / sigma).powi(2),
            |sigma: f64| 1.0 / sigma,
        ] {
            assert!(with(Parts { weight, ..RIGHT }) > 0);
        }
    }

    #[test]
    fn a_fixed_set_that_costs_nothing_or_by_an_action_is_found() {
        assert!(
            with(Parts {
                fixed: |_, _, _| -0.0,
                ..RIGHT
            }) > 0
        );
        assert!(
            with(Parts {
                fixed: |sets, plane, weight| match &sets.fixed {
                    Some(fixed) => {
                        model::frame_terms(fixed, &sets.frames[0].1, plane, weight).cost
                    }
                    None => -0.0,
                },
                ..RIGHT
            }) > 0
        );
    }

    #[test]
    fn other_planes_are_found() {
        fn by_gap(inputs: &Accumulate, enough: fn([f64; 3]) -> bool) -> Option<Plane> {
            let decomposition = Decomposition::read(inputs.decomposition);
            let order = decomposition.order();
            let values = order.map(|k| f64::from_bits(decomposition.eigenvalues[k]));
            let normal = decomposition.vectors[order[0]];
            let mean = model::fit_mean(&inputs.sets());
            enough(values).then(|| Plane {
                normal,
                offset: -dot(normal, mean),
            })
        }
        let right =
            |inputs: &Accumulate| by_gap(inputs, |v| v[1] - v[0] > 1e-14 * v[2].abs().max(1.0));
        assert_eq!(
            with(Parts {
                plane: right,
                ..RIGHT
            }),
            0
        );
        let planes: [fn(&Accumulate) -> Option<Plane>; 6] = [
            |inputs| by_gap(inputs, |_| true),
            |inputs| by_gap(inputs, |v| !matches!(v[1] - v[0], gap if gap < 1e-14)),
            |inputs| by_gap(inputs, |v| v[1] - v[0] >= 1e-14 * v[2].abs().max(1.0)),
            |inputs| by_gap(inputs, |v| v[1] - v[0] > 1e-14 * v[2].max(1.0)),
            |inputs| by_gap(inputs, |v| v[1] - v[0] > 1e-14 * v[2].abs()),
            // A NaN gap passes.
            |inputs| {
                by_gap(
                    inputs,
                    |v| !matches!(v[1] - v[0], gap if gap <= 1e-14 * v[2].abs().max(1.0)),
                )
            },
        ];
        for (k, plane) in planes.into_iter().enumerate() {
            assert!(with(Parts { plane, ..RIGHT }) > 0, "{k}");
        }
    }

    #[test]
    fn frames_by_another_frames_centre_or_action_are_found() {
        assert!(
            with(Parts {
                frame: |sets, k, plane, weight| {
                    let (mut frame, action) = sets.frames[k];
                    frame.mean = sets.frames[0].0.mean;
                    model::frame_terms(&frame, &action, plane, weight)
                },
                ..RIGHT
            }) > 0
        );
        assert!(
            with(Parts {
                frame: |sets, k, plane, weight| {
                    let (frame, _) = &sets.frames[k];
                    model::frame_terms(frame, &sets.frames[0].1, plane, weight)
                },
                ..RIGHT
            }) > 0
        );
    }

    #[test]
    fn blocks_that_are_mirrored_or_bracketed_otherwise_are_found() {
        assert!(
            with(Parts {
                frame: |sets, k, plane, weight| {
                    let mut terms = (RIGHT.frame)(sets, k, plane, weight);
                    for i in 0..9 {
                        for j in 0..i {
                            terms.block.h[i][j] = terms.block.h[j][i];
                        }
                    }
                    terms
                },
                ..RIGHT
            }) > 0
        );
        assert!(
            with(Parts {
                frame: |sets, k, plane, weight| {
                    let unweighted = (RIGHT.frame)(sets, k, plane, 1.0);
                    let root = weight.sqrt();
                    let FrameTerms { cost, block } = (RIGHT.frame)(sets, k, plane, weight);
                    let g = unweighted.block.g.map(|g| (g * root) * root);
                    let block = Block { g, ..block };
                    FrameTerms { cost, block }
                },
                ..RIGHT
            }) > 0
        );
    }

    #[test]
    fn unmapped_frames_that_cost_nothing_are_found() {
        assert!(
            with_work(|inputs| {
                let sets = inputs.sets();
                let mut work = inputs.work();
                if let Some(plane) = inputs.plane() {
                    let weight = 1.0 / (inputs.sigma * inputs.sigma);
                    work.cost = 0.0;
                    for k in 0..sets.frames.len() {
                        if inputs.blocks().segment(k).is_some() {
                            work.cost += (RIGHT.frame)(&sets, k, &plane, weight).cost;
                        }
                    }
                    work.cost += (RIGHT.fixed)(&sets, &plane, weight);
                }
                work
            }) > 0
        );
    }

    #[test]
    fn terms_in_another_order_are_found() {
        // Seen only where frames share rows.
        assert!(
            with_work(|inputs| {
                let mut work = inputs.work();
                work.terms.reverse();
                work
            }) > 0
        );
    }

    #[test]
    fn terms_off_the_diagonal_block_are_found() {
        assert!(
            with_work(|inputs| {
                let mut work = inputs.work();
                let rows: Vec<usize> = work
                    .terms
                    .iter()
                    .filter_map(|(cell, _)| match cell {
                        Cell::Gradient(row) => Some(*row),
                        Cell::Hessian(..) => None,
                    })
                    .collect();
                if let (Some(&first), Some(&last)) = (rows.first(), rows.last()) {
                    work.terms.push((Cell::Hessian(first, last), 0.0));
                }
                work
            }) > 0
        );
    }

    #[test]
    fn tests_that_differ_are_found() {
        // A segment is not looked at without a plane, and not where dof is 0.
        assert!(
            with_refusal(|inputs, target| match inputs.refusal(target) {
                SEGMENT if inputs.plane().is_none() => 0,
                answer => answer,
            }) > 0
        );
        assert!(
            with_refusal(|inputs, target| match inputs.refusal(target) {
                SEGMENT if inputs.dof == 0 => 0,
                answer => answer,
            }) > 0
        );
        // A word that no frame has counts.
        assert!(
            with_refusal(|inputs, target| match inputs.refusal(target) {
                0 if target.exceeded(&inputs.blocks(), inputs.map.len()) => SEGMENT,
                answer => answer,
            }) > 0
        );
        // 8 before 7.
        assert!(
            with_refusal(|inputs, target| match inputs.refusal(target) {
                SIGMA if model::bad_actions(inputs.actions, inputs.frames) => ACTIONS,
                answer => answer,
            }) > 0
        );
    }
}
