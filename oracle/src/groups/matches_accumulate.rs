//! Accumulating the normal equations of matches, against the model.

use crate::called::{every_pair, Call, Comparison, Fault, Lent};
use crate::draws::old;
use crate::generator::Generator;
use crate::lent::number;
use crate::matched::{some_matches, two_bad_matches, Matched, TURNING};
use crate::model::matches::{self as model, Matches};
use crate::model::MAX_DOF;
use crate::report::Report;
use crate::targets::{ends_of_segments, Destination};
use maghnelt::{slices as library, MAX_ORDER, UNMAPPED};

/// What a call takes.
pub(crate) struct Case {
    pub(crate) matched: Matched,
    pub(crate) target: Destination,
}

impl Case {
    fn of(matches: usize, generator: &mut Generator) -> Case {
        let matched = Matched::of(matches, generator);
        let target = Destination::random(matched.dof as usize, 1, generator);
        Case { matched, target }
    }

    /// The same as the model takes it.
    pub(crate) fn inputs(&self) -> Matches<'_> {
        Matches {
            dof: self.matched.dof,
            matches: &self.matched.matches,
            action: &self.matched.action,
            map: &self.target.map,
            transforms: self.target.beside.read(),
        }
    }

    fn lent(self, generator: &mut Generator) -> Lent<5, 2> {
        let Case { matched, target } = self;
        Lent {
            numbers: [
                matched.matches,
                matched.action,
                target.hessian,
                target.gradient,
                old(1, generator),
            ],
            words: [vec![matched.dof], target.map],
        }
    }
}

/// The library's call.
pub(crate) fn library_call(numbers: [&mut [f64]; 5], [dof, map]: [&mut [u32]; 2]) -> u32 {
    let [matches, action, hessian, gradient, cost] = numbers;
    number(library::matches_accumulate(
        dof[0],
        matches,
        action,
        map,
        hessian,
        gradient,
        &mut cost[0],
    ))
}

/// The model's.
pub(crate) fn model_call(numbers: [&mut [f64]; 5], words: [&mut [u32]; 2]) -> u32 {
    let call = model::accumulate_call(
        |inputs, target| inputs.accumulate_refusal(target),
        |inputs| inputs.work(),
    );
    call(numbers, words)
}

/// Compares the library.
pub fn run(generator: &mut Generator, count: u64, report: &mut Report) {
    compare(&library_call, &TURNING, generator, count, report);
}

fn compare(
    call: &Call<'_, 5, 2>,
    turning: &[usize],
    generator: &mut Generator,
    count: u64,
    report: &mut Report,
) {
    let mut comparison = Comparison::new(
        "matches_accumulate",
        ["matches", "action", "hessian", "gradient", "cost"],
        ["dof", "map"],
        call,
        &model_call,
    );
    for &matches in turning {
        for dof in 0..=MAX_DOF {
            let matched = Matched::with(dof, matches, generator);
            let target = Destination::of_order(11, dof as usize, vec![1], generator);
            comparison.check(&Case { matched, target }.lent(generator), report);
        }
    }
    for (dof, order, offset) in ends_of_segments() {
        let matched = Matched::with(dof, 1, generator);
        let target = Destination::of_order(order, dof as usize, vec![offset], generator);
        comparison.check(&Case { matched, target }.lent(generator), report);
    }
    // The largest order, mapped to its ends and not mapped.
    for word in [0, MAX_ORDER as u32 - 6, UNMAPPED] {
        let matched = Matched::with(6, 3, generator);
        let target = Destination::of_order(MAX_ORDER, 6, vec![word], generator);
        comparison.check(&Case { matched, target }.lent(generator), report);
    }
    for matched in two_bad_matches(generator) {
        let target = Destination::random(matched.dof as usize, 1, generator);
        comparison.check(&Case { matched, target }.lent(generator), report);
    }
    let mut draws = Generator::new(generator.bits());
    every_pair(&faults(), accepted, generator, |case, _| {
        comparison.check(&case.lent(&mut draws), report);
    });
    let mut matches = 0;
    while matches < count {
        let case = Case::of(some_matches(generator), generator);
        matches += 2 + case.matched.len() as u64;
        comparison.check(&case.lent(generator), report);
    }
}

fn accepted(generator: &mut Generator) -> Case {
    Case::of(1 + generator.below(4) as usize, generator)
}

/// What a call can be refused for.
pub(crate) fn faults() -> Vec<Fault<Case>> {
    let of_matches = Matched::faults().into_iter();
    let of_target = Destination::faults().into_iter();
    of_matches
        .map(|fault| fault.within(|case: &mut Case| &mut case.matched))
        .chain(of_target.map(|fault| fault.within(|case: &mut Case| &mut case.target)))
        .collect()
}

#[cfg(test)]
mod tests {
    use super::*;
    use crate::called::{answer, check_faults};
    use crate::model::blocks::{added, Cell, Target, Work};
    use crate::model::{sum_from_zero, ACTIONS, NOT_FINITE, SEGMENT, SIGMA};

    fn mismatches(call: &Call<'_, 5, 2>) -> u64 {
        let mut report = Report::new("matches_accumulate");
        let turning = &TURNING[..TURNING.len() - 1];
        compare(call, turning, &mut Generator::new(1), 10_000, &mut report);
        report.mismatches()
    }

    fn with_refusal(refusal: fn(&Matches, Target) -> u32) -> u64 {
        mismatches(&model::accumulate_call(refusal, |inputs| inputs.work()))
    }

    fn with_work(work: fn(&Matches) -> Work) -> u64 {
        mismatches(&model::accumulate_call(
            |inputs, target| inputs.accumulate_refusal(target),
            work,
        ))
    }

    #[test]
    fn the_model_itself_passes() {
        assert_eq!(with_work(|inputs| inputs.work()), 0);
    }

    #[test]
    fn faults_are_refused_by_their_numbers() {
        check_faults(&faults(), accepted, |case| {
            answer(&model_call, case.lent(&mut Generator::new(1)))
        });
    }

    #[test]
    fn other_groups_are_found() {
        assert!(with_work(|inputs| inputs.work_by(usize::MAX, added)) > 0);
        assert!(with_work(|inputs| inputs.work_by(256, added)) > 0);
        assert!(with_work(|inputs| inputs.work_by(511, added)) > 0);
        // The second group skipped.
        assert!(
            with_work(|inputs| {
                let end = inputs.matches.len().min(512 * 8);
                let matches = &inputs.matches[..end];
                Matches { matches, ..*inputs }.work()
            }) > 0
        );
    }

    #[test]
    fn groups_that_are_added_to_the_cells_are_found() {
        // Each group's terms are added to the cell by themselves.
        assert!(
            with_work(|inputs| {
                let mut whole = inputs.work();
                whole.terms.clear();
                for group in inputs.matches.chunks(8 * 512) {
                    let matches = Matches {
                        matches: group,
                        ..*inputs
                    };
                    whole.terms.extend(matches.work().terms);
                }
                whole
            }) > 0
        );
    }

    #[test]
    fn terms_at_other_cells_are_found() {
        assert!(
            with_work(|inputs| {
                let mut work = inputs.work();
                for (cell, _) in &mut work.terms {
                    if let Cell::Gradient(row) = cell {
                        *row = row.saturating_sub(1);
                    }
                }
                work
            }) > 0
        );
        // Another word than the first.
        assert!(
            with_work(|inputs| {
                let map = match inputs.map {
                    [UNMAPPED, rest @ ..] => rest,
                    map => map,
                };
                let map = if map.first().is_some_and(|&word| word > 40) {
                    &[]
                } else {
                    map
                };
                let mut work = Matches { map, ..*inputs }.work();
                work.terms
                    .retain(|(cell, _)| !matches!(cell, Cell::Hessian(..)) || map == inputs.map);
                if map != inputs.map {
                    work.terms.clear();
                    work.cost = sum_from_zero([work.cost, 1.0].into_iter());
                }
                work
            }) > 0
        );
    }

    #[test]
    fn zeros_that_are_added_where_nothing_is_mapped_are_found() {
        // Only to be seen by a -0, which would become +0.
        assert!(
            mismatches(&|[matches, action, hessian, gradient, cost], [dof, map]| {
                let numbers = [matches, action, &mut *hessian, &mut *gradient, cost];
                let answer = model_call(numbers, [dof, map]);
                if answer == 0 {
                    for cell in hessian {
                        *cell += 0.0;
                    }
                }
                answer
            }) > 0
        );
    }

    #[test]
    fn tests_that_differ_are_found() {
        // 7 before 6 in one match, and over all matches.
        assert!(
            with_refusal(|inputs, target| match inputs.accumulate_refusal(target) {
                NOT_FINITE
                    if inputs
                        .matches
                        .chunks(8)
                        .any(|m| crate::model::bad_sigma(m[7])) =>
                    SIGMA,
                answer => answer,
            }) > 0
        );
        // All points before the first sigma.
        assert!(
            with_refusal(|inputs, target| match inputs.accumulate_refusal(target) {
                SIGMA
                    if inputs
                        .matches
                        .chunks(8)
                        .any(|m| m[..3].iter().any(|x| !x.is_finite())) =>
                    NOT_FINITE,
                answer => answer,
            }) > 0
        );
        // The action before the matches.
        assert!(
            with_refusal(|inputs, target| match inputs.accumulate_refusal(target) {
                NOT_FINITE | SIGMA if inputs.action.len() != 120 => ACTIONS,
                answer => answer,
            }) > 0
        );
        // The segment is not looked at where dof is 0.
        assert!(
            with_refusal(|inputs, target| match inputs.accumulate_refusal(target) {
                SEGMENT if inputs.dof == 0 => 0,
                answer => answer,
            }) > 0
        );
    }
}
