//! Residuals and Jacobians of frames, against the model.

use crate::called::{every_pair, Call, Comparison, Fault, Lent};
use crate::draws::{old, within};
use crate::generator::Generator;
use crate::lent::number;
use crate::model::{frames as model, LENGTH, SIGMA};
use crate::report::Report;
use crate::scenes::{
    bad_sigma, fit_decomposition, set_decomposition, some_frames, some_sigma, turning_eigenvalues,
    Scene, GAPS_OF_THE_FIT,
};
use maghnelt::{slices as library, CENTRED, DECOMPOSITION, MAX_FRAMES};

/// What a call takes, and its outputs.
struct Case {
    scene: Scene,
    sigma: f64,
    decompositions: Vec<f64>,
    residual: Vec<f64>,
    jacobian: Vec<f64>,
}

impl Case {
    fn of(scene: Scene, generator: &mut Generator) -> Case {
        let mut decompositions = fit_decomposition(&scene, generator).to_vec();
        let sets = scene
            .frames
            .chunks(CENTRED)
            .chain(scene.fixed.chunks(CENTRED));
        for set in sets {
            decompositions.extend(set_decomposition(set, generator));
        }
        let rows = 4 * scene.len() + 4;
        let columns = match generator.below(4) {
            0 => 0,
            _ => scene.len() * scene.dof as usize,
        };
        Case {
            sigma: match generator.below(4) {
                0 => some_sigma(generator),
                _ => within(0.001, 2.0, generator),
            },
            decompositions,
            residual: old(rows, generator),
            jacobian: old(rows * columns, generator),
            scene,
        }
    }

    fn lent(self) -> Lent<7, 1> {
        Lent {
            numbers: [
                self.scene.frames,
                self.scene.fixed,
                vec![self.sigma],
                self.scene.actions,
                self.decompositions,
                self.residual,
                self.jacobian,
            ],
            words: [vec![self.scene.dof]],
        }
    }
}

/// Compares the library.
pub fn run(generator: &mut Generator, count: u64, report: &mut Report) {
    let call = |numbers: [&mut [f64]; 7], [dof]: [&mut [u32]; 1]| {
        let [frames, fixed, sigma, actions, decompositions, residual, jacobian] = numbers;
        number(library::frames_linearize(
            dof[0],
            frames,
            fixed,
            sigma[0],
            actions,
            decompositions,
            residual,
            jacobian,
        ))
    };
    compare(
        &call,
        &[MAX_FRAMES - 1, MAX_FRAMES],
        generator,
        count,
        report,
    );
}

fn compare(
    call: &Call<'_, 7, 1>,
    largest: &[usize],
    generator: &mut Generator,
    count: u64,
    report: &mut Report,
) {
    let model = model::linearize_call(
        |inputs, residual, jacobian| inputs.refusal(residual, jacobian),
        |inputs| inputs.rows(),
    );
    let mut comparison = Comparison::new(
        "frames_linearize",
        [
            "frames",
            "fixed",
            "sigma",
            "actions",
            "decompositions",
            "residual",
            "jacobian",
        ],
        ["dof"],
        call,
        &model,
    );
    for frames in (1..20).chain(largest.iter().copied()) {
        for _ in 0..4 {
            let case = Case::of(Scene::of(frames, generator), generator);
            comparison.check(&case.lent(), report);
        }
    }
    // Of the fit, and of the frame.
    for eigenvalues in turning_eigenvalues(GAPS_OF_THE_FIT) {
        for place in [0, DECOMPOSITION] {
            let mut case = Case::of(Scene::of_a_wall(1, generator), generator);
            case.decompositions[place..place + 3].copy_from_slice(&eigenvalues);
            comparison.check(&case.lent(), report);
        }
    }
    every_pair(&faults(), accepted, generator, |case, _| {
        comparison.check(&case.lent(), report);
    });
    let mut work = 0;
    while work < count {
        // The Jacobian grows with the square of the frames.
        let frames = match some_frames(generator) {
            frames if frames > 60 => frames / 4,
            frames => frames,
        };
        let case = Case::of(Scene::of(frames, generator), generator);
        work += 1 + frames as u64 + case.jacobian.len() as u64 / 200;
        comparison.check(&case.lent(), report);
    }
}

fn accepted(generator: &mut Generator) -> Case {
    let scene = Scene::of(1 + generator.below(3) as usize, generator);
    Case::of(scene, generator)
}

/// Any of these lengths but the right ones.
fn other(right: &[usize], wrong: &[usize], generator: &mut Generator) -> usize {
    let wrong = wrong.iter().copied().filter(|k| !right.contains(k));
    generator.pick(&wrong.collect::<Vec<_>>())
}

/// What a call can be refused for.
fn faults() -> Vec<Fault<Case>> {
    let of_scene = Scene::faults().into_iter();
    let mut faults: Vec<_> = of_scene
        .map(|fault| fault.within(|case: &mut Case| &mut case.scene))
        .collect();
    faults.push(Fault::new(SIGMA, |case: &mut Case, generator| {
        case.sigma = bad_sigma(generator);
    }));
    faults.push(Fault::new(LENGTH, |case: &mut Case, generator| {
        let sets = case.scene.len() + usize::from(!case.scene.fixed.is_empty());
        let right = (1 + sets) * DECOMPOSITION;
        let wrong = [
            0,
            right - 1,
            right + 1,
            right - DECOMPOSITION,
            right + DECOMPOSITION,
        ];
        case.decompositions
            .resize(other(&[right], &wrong, generator), 1.0);
    }));
    faults.push(Fault::new(LENGTH, |case: &mut Case, generator| {
        let right = 4 * case.scene.len() + 4;
        let wrong = [0, right - 4, right - 1, right + 1, right + 4];
        case.residual = old(other(&[right], &wrong, generator), generator);
    }));
    faults.push(Fault::new(LENGTH, |case: &mut Case, generator| {
        let frames = case.scene.len();
        let (rows, columns) = (4 * frames + 4, frames * case.scene.dof.min(11) as usize);
        let right = [0, rows * columns];
        let wrong = [
            1,
            rows * columns + 1,
            rows * (columns + 1),
            4 * frames * columns,
            rows + 7,
        ];
        case.jacobian = old(other(&right, &wrong, generator), generator);
    }));
    faults
}

#[cfg(test)]
mod tests {
    use super::*;
    use crate::called::{answer, check_faults};
    use crate::model::moments::Decomposition;
    use crate::model::{dot, vector};
    use model::{Linearize, Rows, Sets};

    fn mismatches(call: &Call<'_, 7, 1>) -> u64 {
        let mut report = Report::new("frames_linearize");
        compare(call, &[], &mut Generator::new(1), 3_000, &mut report);
        report.mismatches()
    }

    fn with(rows: fn(&Linearize) -> Rows) -> u64 {
        mismatches(&model::linearize_call(
            |inputs, residual, jacobian| inputs.refusal(residual, jacobian),
            rows,
        ))
    }

    #[test]
    fn the_model_itself_passes() {
        assert_eq!(with(|inputs| inputs.rows()), 0);
    }

    #[test]
    fn faults_are_refused_by_their_numbers() {
        let call = model::linearize_call(
            |inputs, residual, jacobian| inputs.refusal(residual, jacobian),
            |inputs| inputs.rows(),
        );
        check_faults(&faults(), accepted, |case| answer(&call, case.lent()));
    }

    /// The right rows, from decompositions that are changed.
    fn with_decompositions(change: fn(&mut [f64])) -> u64 {
        mismatches(&model::linearize_call(
            |inputs, residual, jacobian| inputs.refusal(residual, jacobian),
            move |inputs: &Linearize| {
                let mut decompositions = inputs.decompositions.to_vec();
                decompositions[DECOMPOSITION..]
                    .chunks_mut(DECOMPOSITION)
                    .for_each(change);
                let decompositions = &decompositions;
                Linearize {
                    decompositions,
                    ..*inputs
                }
                .rows()
            },
        ))
    }

    #[test]
    fn other_roots_are_found() {
        assert_eq!(with_decompositions(|_| {}), 0);
        // Sorted eigenvalues with their vectors.
        assert!(
            with_decompositions(|decomposition| {
                let read = Decomposition::read(decomposition);
                for (place, k) in read.order().into_iter().enumerate() {
                    decomposition[place] = f64::from_bits(read.eigenvalues[k]);
                    decomposition[3 + 3 * place..6 + 3 * place].copy_from_slice(&read.vectors[k]);
                }
            }) > 0
        );
        // Eigenvalues by their size, and a NaN as it comes.
        assert!(
            with_decompositions(|decomposition| {
                for value in &mut decomposition[..3] {
                    *value = value.abs();
                }
            }) > 0
        );
        // Vectors by rows.
        assert!(
            with_decompositions(|decomposition| {
                let vectors: Vec<f64> = decomposition[3..].to_vec();
                for k in 0..3 {
                    for c in 0..3 {
                        decomposition[3 + 3 * k + c] = vectors[3 * c + k];
                    }
                }
            }) > 0
        );
    }

    #[test]
    fn a_root_of_minus_0_that_keeps_its_sign_is_found() {
        assert!(
            with(|inputs| {
                let mut rows = inputs.rows();
                let values = inputs.decompositions.chunks(DECOMPOSITION).skip(1);
                for (set, decomposition) in values.enumerate() {
                    for k in 0..3 {
                        let minus_zero = decomposition[k].to_bits() == (-0.0f64).to_bits();
                        let residual = &mut rows.residual[4 * set + k];
                        if minus_zero && *residual == 0.0 {
                            *residual = -*residual;
                        }
                    }
                }
                rows
            }) > 0
        );
    }

    #[test]
    fn the_next_frames_decomposition_is_found() {
        assert!(
            with(|inputs| {
                let mut decompositions = inputs.decompositions.to_vec();
                decompositions[DECOMPOSITION..].rotate_left(DECOMPOSITION);
                let decompositions = &decompositions;
                Linearize {
                    decompositions,
                    ..*inputs
                }
                .rows()
            }) > 0
        );
    }

    #[test]
    fn blocks_in_other_columns_are_found() {
        assert!(
            with(|inputs| {
                let mut rows = inputs.rows();
                for row in &mut rows.jacobian {
                    if !row.is_empty() {
                        row.rotate_right(1);
                    }
                }
                rows
            }) > 0
        );
    }

    #[test]
    fn rows_that_are_divided_by_sigma_are_found() {
        assert!(
            with(|inputs| {
                let mut rows = inputs.rows();
                let sets = Sets::read(inputs.frames, inputs.fixed, inputs.actions);
                let fit = Decomposition::read(inputs.decompositions);
                if let Some(plane) = model::smallest_axis(&fit, model::fit_mean(&sets)) {
                    for (f, (frame, action)) in sets.frames.iter().enumerate() {
                        let along = plane.along(action.carried(frame.mean));
                        rows.residual[4 * f + 3] = (frame.count.sqrt() * along) / inputs.sigma;
                    }
                }
                rows
            }) > 0
        );
    }

    #[test]
    fn a_fixed_set_by_the_first_action_is_found() {
        assert!(
            with(|inputs| {
                let mut rows = inputs.rows();
                let sets = Sets::read(inputs.frames, inputs.fixed, inputs.actions);
                let fit = Decomposition::read(inputs.decompositions);
                let plane = model::smallest_axis(&fit, model::fit_mean(&sets));
                if let (Some(plane), Some(fixed)) = (plane, sets.fixed) {
                    let action = sets.frames[0].1;
                    let a_n = vector(|c| dot(vector(|r| action.a[r][c]), plane.normal));
                    let last = inputs.decompositions.len() - DECOMPOSITION;
                    let root = model::root(&Decomposition::read(&inputs.decompositions[last..]));
                    for k in 0..3 {
                        let row = 4 * sets.frames.len() + k;
                        rows.residual[row] = dot(root[k], a_n) * (1.0 / inputs.sigma);
                    }
                    _ = fixed;
                }
                rows
            }) > 0
        );
    }

    #[test]
    fn what_is_left_without_a_plane_is_found() {
        let call = model::linearize_call(
            |inputs, residual, jacobian| inputs.refusal(residual, jacobian),
            |inputs| inputs.rows(),
        );
        let keeps = |numbers: [&mut [f64]; 7], words: [&mut [u32]; 1]| {
            let [a, b, c, d, decompositions, residual, jacobian] = numbers;
            let before = jacobian.to_vec();
            let answer = call(
                [a, b, c, d, decompositions, residual, &mut *jacobian],
                words,
            );
            if answer == 0 && residual.iter().all(|&x| x == 0.0) {
                jacobian.copy_from_slice(&before);
            }
            answer
        };
        assert!(mismatches(&keeps) > 0);
    }
}
