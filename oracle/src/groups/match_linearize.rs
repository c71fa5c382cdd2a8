//! One match below its chain, against the model.

use crate::called::{every_pair, Call, Comparison, Fault, Lent};
use crate::draws::{fill, old, slices, within, Wall};
use crate::generator::Generator;
use crate::lent::number;
use crate::model::{matches as model, DOF, EMPTY_LIST, LENGTH, MAX_DOF, NOT_FINITE, SIGMA};
use crate::report::Report;
use crate::scenes::{bad_sigma, not_finite, some_sigma};
use maghnelt::{slices as library, MATCH};

/// What a call takes, and its row.
struct Case {
    dof: u32,
    record: Vec<f64>,
    world: Vec<f64>,
    d_state: Vec<f64>,
    d_extrinsic: Vec<f64>,
    row: Vec<f64>,
}

impl Case {
    fn lent(self, generator: &mut Generator) -> Lent<6, 1> {
        Lent {
            numbers: [
                self.record,
                self.world,
                self.d_state,
                self.d_extrinsic,
                old(1, generator),
                self.row,
            ],
            words: [vec![self.dof]],
        }
    }
}

/// Compares the library.
pub fn run(generator: &mut Generator, count: u64, report: &mut Report) {
    let call = |numbers: [&mut [f64]; 6], [dof]: [&mut [u32]; 1]| {
        let [record, world, d_state, d_extrinsic, residual, row] = numbers;
        number(library::match_linearize(
            dof[0],
            record,
            world,
            d_state,
            d_extrinsic,
            &mut residual[0],
            row,
        ))
    };
    compare(&call, generator, count, report);
}

fn compare(call: &Call<'_, 6, 1>, generator: &mut Generator, count: u64, report: &mut Report) {
    let model = model::single_call(
        |inputs, row| inputs.refusal(row),
        |inputs| inputs.residual(),
        |inputs| inputs.row(),
    );
    let mut comparison = Comparison::new(
        "match_linearize",
        [
            "match",
            "world",
            "d_state",
            "d_extrinsic",
            "residual",
            "row",
        ],
        ["dof"],
        call,
        &model,
    );
    let mut draws = Generator::new(generator.bits());
    for _ in 0..20 {
        every_pair(&faults(), accepted, generator, |case, _| {
            comparison.check(&case.lent(&mut draws), report);
        });
    }
    while report.cases() < count {
        let mut case = accepted(generator);
        if generator.below(8) == 0 {
            fill(&mut case.record, generator);
        }
        comparison.check(&case.lent(generator), report);
    }
}

/// A match that is accepted: of a wall, or of any numbers but for its own point.
fn accepted(generator: &mut Generator) -> Case {
    let dof = generator.below(1 + u64::from(MAX_DOF)) as usize;
    let [mut record, world, d_state, d_extrinsic] = slices([MATCH, 3, 3 * dof, 18], generator);
    let wall = Wall::random(generator);
    let point = wall.point(generator);
    record[..3].copy_from_slice(&point);
    if generator.below(2) == 0 {
        record[3..6].copy_from_slice(&wall.axes[2]);
        record[6] = within(-50.0, 50.0, generator);
    }
    record[7] = some_sigma(generator);
    let row = match generator.below(4) {
        0 => 0,
        _ => dof + 6,
    };
    Case {
        dof: dof as u32,
        record,
        world,
        d_state,
        d_extrinsic,
        row: old(row, generator),
    }
}

/// What a call can be refused for.
fn faults() -> Vec<Fault<Case>> {
    /// Any of these lengths but the right one.
    fn other(right: usize, wrong: &[usize], generator: &mut Generator) -> usize {
        let wrong: Vec<usize> = wrong.iter().copied().filter(|&k| k != right).collect();
        generator.pick(&wrong)
    }
    vec![
        Fault::new(DOF, |case: &mut Case, generator| {
            case.dof = generator.pick(&[MAX_DOF + 1, u32::MAX, 0x5555_5555]);
        }),
        // As many columns as there would be.
        Fault::new(DOF, |case: &mut Case, generator| {
            case.dof = MAX_DOF + 1;
            case.d_state.resize(30, 1.0);
            case.row = old(16, generator);
        }),
        Fault::new(EMPTY_LIST, |case: &mut Case, _| case.record.clear()),
        Fault::new(LENGTH, |case: &mut Case, generator| {
            let wrong = generator.pick(&[1, 3, MATCH - 1, MATCH + 1, 2 * MATCH]);
            case.record.resize(wrong, 1.0);
        }),
        Fault::new(LENGTH, |case: &mut Case, generator| {
            case.world.resize(generator.pick(&[0, 1, 2, 4, 6]), 1.0);
        }),
        Fault::new(LENGTH, |case: &mut Case, generator| {
            let right = 3 * case.dof.min(MAX_DOF + 1) as usize;
            let wrong = [0, right + 1, right + 3, right / 3, 27];
            case.d_state.resize(other(right, &wrong, generator), 1.0);
        }),
        Fault::new(LENGTH, |case: &mut Case, generator| {
            case.d_extrinsic
                .resize(generator.pick(&[0, 1, 6, 17, 19, 36]), 1.0);
        }),
        Fault::new(LENGTH, |case: &mut Case, generator| {
            let right = case.dof.min(MAX_DOF + 1) as usize + 6;
            let wrong = [1, 6, right - 1, right + 1, 2 * right];
            case.row = old(other(right, &wrong, generator), generator);
        }),
        Fault::new(NOT_FINITE, |case: &mut Case, generator| {
            let bad = not_finite(generator);
            if case.record.len() >= 3 {
                case.record[generator.below(3) as usize] = bad;
            }
        }),
        Fault::new(SIGMA, |case: &mut Case, generator| {
            if case.record.len() == MATCH {
                case.record[7] = bad_sigma(generator);
            }
        }),
    ]
}

#[cfg(test)]
mod tests {
    use super::*;
    use crate::called::{answer, check_faults};
    use crate::model::{dot, stored_vector, vector};
    use model::{Match, Single};

    fn mismatches(call: &Call<'_, 6, 1>) -> u64 {
        let mut report = Report::new("match_linearize");
        compare(call, &mut Generator::new(1), 10_000, &mut report);
        report.mismatches()
    }

    fn with_refusal(refusal: fn(&Single, usize) -> u32) -> u64 {
        mismatches(&model::single_call(
            refusal,
            |inputs| inputs.residual(),
            |inputs| inputs.row(),
        ))
    }

    fn with_row(row: fn(&Single) -> Vec<f64>) -> u64 {
        mismatches(&model::single_call(
            |inputs, row| inputs.refusal(row),
            |inputs| inputs.residual(),
            row,
        ))
    }

    fn with_residual(residual: fn(&Single) -> f64) -> u64 {
        mismatches(&model::single_call(
            |inputs, row| inputs.refusal(row),
            residual,
            |inputs| inputs.row(),
        ))
    }

    #[test]
    fn the_model_itself_passes() {
        assert_eq!(with_row(|inputs| inputs.row()), 0);
    }

    #[test]
    fn faults_are_refused_by_their_numbers() {
        let call = model::single_call(
            |inputs, row| inputs.refusal(row),
            |inputs| inputs.residual(),
            |inputs| inputs.row(),
        );
        check_faults(&faults(), accepted, |case| {
            answer(&call, case.lent(&mut Generator::new(1)))
        });
    }

    #[test]
    fn columns_that_are_scaled_otherwise_are_found() {
        // The extrinsic ones last.
        assert!(
            with_row(|inputs| {
                let m = Match::read(inputs.record);
                let columns = [inputs.d_state, inputs.d_extrinsic].concat();
                let columns = columns.chunks(3).map(stored_vector);
                columns
                    .map(|c| (1.0 / m.sigma) * dot(m.normal, c))
                    .collect()
            }) > 0
        );
        // The state's ones first.
        assert!(
            with_row(|inputs| {
                let m = Match::read(inputs.record);
                let weighted = vector(|r| (1.0 / m.sigma) * m.normal[r]);
                let columns = [inputs.d_state, inputs.d_extrinsic].concat();
                let columns = columns.chunks(3).map(stored_vector);
                columns.map(|c| dot(weighted, c)).collect()
            }) > 0
        );
        // Divided.
        assert!(
            with_residual(|inputs| {
                let m = Match::read(inputs.record);
                (dot(m.normal, stored_vector(inputs.world)) + m.offset) / m.sigma
            }) > 0
        );
        // The match's own point.
        assert!(
            with_residual(|inputs| {
                let m = Match::read(inputs.record);
                (1.0 / m.sigma) * (dot(m.normal, m.point) + m.offset)
            }) > 0
        );
    }

    #[test]
    fn tests_of_other_things_are_found() {
        // The world point too.
        assert!(
            with_refusal(|inputs, row| match inputs.refusal(row) {
                0 if inputs.world.iter().any(|x| !x.is_finite()) => NOT_FINITE,
                answer => answer,
            }) > 0
        );
        // The normal too.
        assert!(
            with_refusal(|inputs, row| match inputs.refusal(row) {
                0 if inputs.record[3..7].iter().any(|x| !x.is_finite()) => NOT_FINITE,
                answer => answer,
            }) > 0
        );
        // 7 before 6.
        assert!(
            with_refusal(|inputs, row| match inputs.refusal(row) {
                NOT_FINITE if crate::model::bad_sigma(inputs.record[7]) => SIGMA,
                answer => answer,
            }) > 0
        );
        // No row is not wanted.
        assert!(
            with_refusal(|inputs, row| match (row, inputs.refusal(row)) {
                (0, 0 | NOT_FINITE | SIGMA) => LENGTH,
                (_, answer) => answer,
            }) > 0
        );
        // An empty record by its length.
        assert!(
            with_refusal(|inputs, row| match inputs.refusal(row) {
                EMPTY_LIST => LENGTH,
                answer => answer,
            }) > 0
        );
    }
}
