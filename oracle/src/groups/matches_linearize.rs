//! Residuals and Jacobians of matches, against the model.

use crate::called::{every_pair, Call, Comparison, Fault, Lent};
use crate::draws::old;
use crate::generator::Generator;
use crate::lent::number;
use crate::matched::{some_matches, two_bad_matches, Matched, TURNING};
use crate::model::{matches as model, LENGTH, MAX_DOF};
use crate::report::Report;
use maghnelt::slices as library;

/// What a call takes, and its outputs.
struct Case {
    matched: Matched,
    residual: Vec<f64>,
    jacobian: Vec<f64>,
}

impl Case {
    fn of(matched: Matched, generator: &mut Generator) -> Case {
        let wanted = generator.below(4) != 0;
        let columns = if wanted { matched.dof as usize } else { 0 };
        Case {
            residual: old(matched.len(), generator),
            jacobian: old(matched.len() * columns, generator),
            matched,
        }
    }

    fn lent(self) -> Lent<4, 1> {
        let Matched {
            dof,
            matches,
            action,
        } = self.matched;
        Lent {
            numbers: [matches, action, self.residual, self.jacobian],
            words: [vec![dof]],
        }
    }
}

/// Compares the library.
pub fn run(generator: &mut Generator, count: u64, report: &mut Report) {
    let call = |[matches, action, residual, jacobian]: [&mut [f64]; 4], [dof]: [&mut [u32]; 1]| {
        number(library::matches_linearize(
            dof[0], matches, action, residual, jacobian,
        ))
    };
    compare(&call, &TURNING, generator, count, report);
}

fn compare(
    call: &Call<'_, 4, 1>,
    turning: &[usize],
    generator: &mut Generator,
    count: u64,
    report: &mut Report,
) {
    let model = model::linearize_call(
        |inputs, residual, jacobian| inputs.linearize_refusal(residual, jacobian),
        |inputs| inputs.linearized(),
    );
    let mut comparison = Comparison::new(
        "matches_linearize",
        ["matches", "action", "residual", "jacobian"],
        ["dof"],
        call,
        &model,
    );
    for &matches in turning {
        for dof in 0..=MAX_DOF {
            let matched = Matched::with(dof, matches, generator);
            comparison.check(&Case::of(matched, generator).lent(), report);
        }
    }
    for matched in two_bad_matches(generator) {
        comparison.check(&Case::of(matched, generator).lent(), report);
    }
    every_pair(&faults(), accepted, generator, |case, _| {
        comparison.check(&case.lent(), report);
    });
    let mut matches = 0;
    while matches < count {
        let matched = Matched::of(some_matches(generator), generator);
        matches += 2 + matched.len() as u64;
        comparison.check(&Case::of(matched, generator).lent(), report);
    }
}

fn accepted(generator: &mut Generator) -> Case {
    let matched = Matched::of(1 + generator.below(4) as usize, generator);
    Case::of(matched, generator)
}

/// What a call can be refused for.
fn faults() -> Vec<Fault<Case>> {
    let of_matches = Matched::faults().into_iter();
    let mut faults: Vec<_> = of_matches
        .map(|fault| fault.within(|case: &mut Case| &mut case.matched))
        .collect();
    faults.push(Fault::new(LENGTH, |case: &mut Case, generator| {
        let right = case.matched.len();
        let wrong = [0, right + 1, right.saturating_sub(1), 2 * right + 1];
        let wrong: Vec<usize> = wrong.into_iter().filter(|&k| k != right).collect();
        case.residual = old(generator.pick(&wrong), generator);
    }));
    faults.push(Fault::new(LENGTH, |case: &mut Case, generator| {
        let (matches, dof) = (case.matched.len(), case.matched.dof.min(11) as usize);
        let wrong = [1, matches * dof + 1, matches * (dof + 1), matches * 10];
        let right = [0, matches * dof];
        let wrong: Vec<usize> = wrong.into_iter().filter(|k| !right.contains(k)).collect();
        case.jacobian = old(generator.pick(&wrong), generator);
    }));
    faults
}

#[cfg(test)]
mod tests {
    use super::*;
    use crate::called::{answer, check_faults};
    use crate::model::frames::{Action, Rows};
    use crate::model::{dot, vector};
    use model::{Match, Matches};

    fn mismatches(call: &Call<'_, 4, 1>) -> u64 {
        let mut report = Report::new("matches_linearize");
        compare(
            call,
            &[1, 2, 513],
            &mut Generator::new(1),
            10_000,
            &mut report,
        );
        report.mismatches()
    }

    fn with(rows: fn(&Matches) -> Rows) -> u64 {
        mismatches(&model::linearize_call(
            |inputs, residual, jacobian| inputs.linearize_refusal(residual, jacobian),
            rows,
        ))
    }

    /// The rows by another function of a match and the action.
    fn rows_by(inputs: &Matches, of_match: fn(&Match, &Action) -> (f64, [f64; 9])) -> Rows {
        let action = Action::read(inputs.action);
        let matches = inputs.matches.chunks(8).map(Match::read);
        let rows: Vec<_> = matches.map(|m| of_match(&m, &action)).collect();
        let dof = inputs.dof as usize;
        Rows {
            residual: rows.iter().map(|(residual, _)| *residual).collect(),
            jacobian: rows.iter().map(|(_, row)| row[..dof].to_vec()).collect(),
        }
    }

    #[test]
    fn the_model_itself_passes() {
        assert_eq!(with(|inputs| inputs.linearized()), 0);
        assert_eq!(with(|inputs| rows_by(inputs, model::residual_and_row)), 0);
    }

    #[test]
    fn faults_are_refused_by_their_numbers() {
        let call = model::linearize_call(
            |inputs, residual, jacobian| inputs.linearize_refusal(residual, jacobian),
            |inputs| inputs.linearized(),
        );
        check_faults(&faults(), accepted, |case| answer(&call, case.lent()));
    }

    #[test]
    fn rows_that_are_scaled_first_are_found() {
        assert!(
            with(|inputs| rows_by(inputs, |m, action| {
                let information = 1.0 / m.sigma;
                let normal = vector(|r| m.normal[r] * information);
                let scaled = Match {
                    normal,
                    sigma: 1.0,
                    ..*m
                };
                let (_, row) = model::residual_and_row(&scaled, action);
                (model::residual_and_row(m, action).0, row)
            })) > 0
        );
    }

    #[test]
    fn quotients_are_found() {
        assert!(
            with(|inputs| rows_by(inputs, |m, action| {
                let (_, row) = model::residual_and_row(m, action);
                let distance = dot(m.normal, action.carried(m.point)) + m.offset;
                (distance / m.sigma, row)
            })) > 0
        );
    }

    #[test]
    fn a_jacobian_by_rows_is_found() {
        assert!(
            with(|inputs| {
                let right = inputs.linearized();
                let (rows, dof) = (right.residual.len(), inputs.dof as usize);
                let flat: Vec<f64> = right.jacobian.concat();
                let entry = |row: usize, column: usize| flat[column * rows + row];
                let jacobian = (0..rows).map(|r| (0..dof).map(|c| entry(r, c)).collect());
                Rows {
                    jacobian: jacobian.collect(),
                    residual: right.residual,
                }
            }) > 0
        );
    }
}
