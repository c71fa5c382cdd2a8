//! The model of the calls on matches: a list of them on one pose, and one below its chain.

use super::blocks::{added, Added, Block, Blocks, Target, Work};
use super::frames::{derivatives, Action, Rows};
use super::transforms::Transforms;
use super::{
    bad_sigma, dot, first, matrix, stored_vector, sum_from_zero, vector, written, Vector, ACTIONS,
    DOF, EMPTY_LIST, LENGTH, MAX_DOF, NOT_FINITE, SIGMA,
};
use maghnelt::{ACTION, MATCH, MAX_MATCHES};

/// Matches of one group.
pub const GROUP: usize = 512;

/// A point, its plane, and how sure the distance is.
#[derive(Clone, Copy)]
pub struct Match {
    /// The point.
    pub point: Vector,
    /// The plane's normal.
    pub normal: Vector,
    /// The plane's offset.
    pub offset: f64,
    /// The standard deviation of the distance.
    pub sigma: f64,
}

impl Match {
    /// What a record holds.
    pub fn read(record: &[f64]) -> Match {
        Match {
            point: stored_vector(record),
            normal: stored_vector(&record[3..]),
            offset: record[6],
            sigma: record[7],
        }
    }

    /// The reason for which it is refused: 6, and then 7.
    pub fn refusal(&self) -> u32 {
        first(&[
            (NOT_FINITE, self.point.iter().any(|x| !x.is_finite())),
            (SIGMA, bad_sigma(self.sigma)),
        ])
    }
}

/// The residual of a match and its row of nine.
pub fn residual_and_row(m: &Match, action: &Action) -> (f64, [f64; 9]) {
    let information = 1.0 / m.sigma;
    let world = action.carried(m.point);
    let residual = (dot(m.normal, world) + m.offset) * information;
    let row = derivatives(action, m.normal, m.point).m;
    (residual, row.map(|entry| entry * information))
}

/// What the calls on lists take, Hessian and gradient apart; a call without a map has an empty one, and one without
/// transforms has none.
#[derive(Clone, Copy)]
pub struct Matches<'a> {
    /// The number of parameters.
    pub dof: u32,
    /// The matches.
    pub matches: &'a [f64],
    /// The action.
    pub action: &'a [f64],
    /// The block map.
    pub map: &'a [u32],
    /// What lies beside it.
    pub transforms: Transforms<'a>,
}

impl<'a> Matches<'a> {
    /// The reasons that every call on a list tests: 1, 2, 3, then 6 and 7 match by match, then 8.
    fn reasons(&self, lengths: bool) -> Vec<(u32, bool)> {
        let records = self.matches.chunks_exact(MATCH).map(Match::read);
        let of_matches = records.map(|m| m.refusal()).find(|&number| number != 0);
        let whole = self.matches.len() % MATCH == 0 && self.matches.len() / MATCH <= MAX_MATCHES;
        vec![
            (DOF, self.dof > MAX_DOF),
            (EMPTY_LIST, self.matches.is_empty()),
            (LENGTH, !whole || lengths),
            (of_matches.unwrap_or(0), of_matches.is_some()),
            (ACTIONS, self.action.len() != ACTION),
        ]
    }

    /// The reasons that accumulating tests, each with whether it applies: those, and then 9, 14 and 10. Without transforms 14
    /// does not.
    pub fn accumulate_reasons(&self, target: Target) -> Vec<(u32, bool)> {
        let blocks = self.blocks();
        let mut reasons = self.reasons(target.bad_lengths(&blocks));
        // A match list is frame 0.
        reasons.extend(target.reasons(&blocks, 1));
        reasons
    }

    /// Why accumulating is refused.
    pub fn accumulate_refusal(&self, target: Target) -> u32 {
        first(&self.accumulate_reasons(target))
    }

    /// Where the list goes.
    pub fn blocks(&self) -> Blocks<'a> {
        Blocks {
            dof: self.dof,
            map: self.map,
            transforms: self.transforms,
        }
    }

    /// Why linearizing is refused; `residual` and `jacobian` are lengths.
    pub fn linearize_refusal(&self, residual: usize, jacobian: usize) -> u32 {
        let matches = self.matches.len() / MATCH;
        let wanted = jacobian != 0;
        let lengths = residual != matches || wanted && jacobian != matches * self.dof as usize;
        first(&self.reasons(lengths))
    }

    /// Residual and row of each match.
    pub fn rows(&self) -> Vec<(f64, [f64; 9])> {
        let action = Action::read(self.action);
        let matches = self.matches.chunks(MATCH).map(Match::read);
        matches.map(|m| residual_and_row(&m, &action)).collect()
    }

    /// What accumulating works out when it is accepted: each group of 512 is summed from 0, then the groups' sums from 0.
    pub fn work(&self) -> Work {
        self.work_by(GROUP, added)
    }

    /// The same with another size of the groups, or another rule for what is added for the list.
    pub fn work_by(&self, group: usize, added: Added) -> Work {
        let rows = self.rows();
        let summed = |term: &dyn Fn(&(f64, [f64; 9])) -> f64| {
            let groups = rows.chunks(group);
            sum_from_zero(groups.map(|group| sum_from_zero(group.iter().map(term))))
        };
        let mut work = Work {
            cost: summed(&|(r, _)| r * r),
            terms: Vec::new(),
        };
        let dof = self.dof as usize;
        let block = Block {
            h: matrix(|i, j| match i.max(j) < dof {
                true => summed(&|(_, row)| row[i] * row[j]),
                false => 0.0,
            }),
            g: std::array::from_fn(|i| summed(&|(r, row)| row[i] * r)),
        };
        if let Some((segment, block)) = added(&self.blocks(), 0, &block) {
            work.add(segment, &block);
        }
        work
    }

    /// What linearizing writes when it is accepted.
    pub fn linearized(&self) -> Rows {
        let rows = self.rows();
        let dof = self.dof as usize;
        Rows {
            residual: rows.iter().map(|(residual, _)| *residual).collect(),
            jacobian: rows.iter().map(|(_, row)| row[..dof].to_vec()).collect(),
        }
    }
}

/// The call `matches_accumulate_transformed` on matches, action, transforms, Hessian, gradient and cost, with dof, map and
/// shapes.
pub fn accumulate_transformed_call(
    refusal: impl Fn(&Matches, Target) -> u32,
    work: impl Fn(&Matches) -> Work,
) -> impl Fn([&mut [f64]; 6], [&mut [u32]; 3]) -> u32 {
    move |[matches, action, transforms, hessian, gradient, cost], [dof, map, shapes]| {
        let inputs = Matches {
            dof: dof[0],
            matches,
            action,
            map,
            transforms: Transforms {
                shapes,
                numbers: transforms,
            },
        };
        let target = Target {
            hessian: hessian.len(),
            gradient: gradient.len(),
        };
        let refusal = refusal(&inputs, target);
        if refusal == 0 {
            work(&inputs).write(hessian, gradient, &mut cost[0]);
        }
        refusal
    }
}

/// The call `matches_accumulate`, which is the one with transforms without any: on matches, action, Hessian, gradient and cost,
/// with dof and map.
pub fn accumulate_call(
    refusal: impl Fn(&Matches, Target) -> u32,
    work: impl Fn(&Matches) -> Work,
) -> impl Fn([&mut [f64]; 5], [&mut [u32]; 2]) -> u32 {
    let call = accumulate_transformed_call(refusal, work);
    move |[matches, action, hessian, gradient, cost], [dof, map]| {
        let numbers = [matches, action, &mut [], hessian, gradient, cost];
        call(numbers, [dof, map, &mut []])
    }
}

/// The call `matches_linearize` on matches, action, residual and Jacobian, with the dof.
pub fn linearize_call(
    refusal: impl Fn(&Matches, usize, usize) -> u32,
    rows: impl Fn(&Matches) -> Rows,
) -> impl Fn([&mut [f64]; 4], [&mut [u32]; 1]) -> u32 {
    move |[matches, action, residual, jacobian], [dof]| {
        let inputs = Matches {
            dof: dof[0],
            matches,
            action,
            map: &[],
            transforms: Transforms::NONE,
        };
        let refusal = refusal(&inputs, residual.len(), jacobian.len());
        if refusal == 0 {
            rows(&inputs).write(residual, jacobian);
        }
        refusal
    }
}

/// What the call on one match below its chain takes.
pub struct Single<'a> {
    /// The number of the state's parameters.
    pub dof: u32,
    /// The match.
    pub record: &'a [f64],
    /// The point in the world.
    pub world: &'a [f64],
    /// Its derivative by the state, three numbers a column.
    pub d_state: &'a [f64],
    /// Its derivative by the extrinsic, six columns.
    pub d_extrinsic: &'a [f64],
}

impl Single<'_> {
    /// Tests 1, 2, 3, 6, 7; `row` is a length.
    pub fn refusal(&self, row: usize) -> u32 {
        let dof = self.dof as usize;
        let lengths = self.record.len() != MATCH
            || self.world.len() != 3
            || self.d_state.len() != 3 * dof
            || self.d_extrinsic.len() != 18
            || row != 0 && row != dof + 6;
        let whole = (self.record.len() == MATCH).then(|| Match::read(self.record).refusal());
        let of_match = whole.unwrap_or(0);
        first(&[
            (DOF, self.dof > MAX_DOF),
            (EMPTY_LIST, self.record.is_empty()),
            (LENGTH, lengths),
            (of_match, of_match != 0),
        ])
    }

    /// The residual: information times the distance of the world point.
    pub fn residual(&self) -> f64 {
        let m = Match::read(self.record);
        let information = 1.0 / m.sigma;
        information * (dot(m.normal, stored_vector(self.world)) + m.offset)
    }

    /// The row: for the state information times the whole projection, for the extrinsic (information·nᵀ) times the column.
    pub fn row(&self) -> Vec<f64> {
        let m = Match::read(self.record);
        let information = 1.0 / m.sigma;
        let weighted = vector(|r| information * m.normal[r]);
        let columns =
            |stored: &[f64]| -> Vec<Vector> { stored.chunks(3).map(stored_vector).collect() };
        let state = columns(self.d_state).into_iter();
        let extrinsic = columns(self.d_extrinsic).into_iter();
        state
            .map(|column| information * dot(m.normal, column))
            .chain(extrinsic.map(|column| dot(weighted, column)))
            .collect()
    }
}

/// The call `match_linearize` on match, world point, both derivatives, residual and row, with the dof.
pub fn single_call(
    refusal: impl Fn(&Single, usize) -> u32,
    residual: impl Fn(&Single) -> f64,
    row: impl Fn(&Single) -> Vec<f64>,
) -> impl Fn([&mut [f64]; 6], [&mut [u32]; 1]) -> u32 {
    move |[record, world, d_state, d_extrinsic, out, out_row], [dof]| {
        let inputs = Single {
            dof: dof[0],
            record,
            world,
            d_state,
            d_extrinsic,
        };
        let refusal = refusal(&inputs, out_row.len());
        if refusal == 0 {
            out[0] = written(residual(&inputs));
            for (out, entry) in out_row.iter_mut().zip(row(&inputs)) {
                *out = written(entry);
            }
        }
        refusal
    }
}

#[cfg(test)]
mod tests {
    use super::*;
    use crate::model::blocks::Cell;
    use crate::model::SEGMENT;

    /// An action that leaves points where they are.
    fn still() -> [f64; ACTION] {
        let mut action = [0.0; ACTION];
        for place in [0, 4, 8] {
            action[place] = 1.0;
        }
        action
    }

    /// A match whose residual is that number.
    fn with_residual(residual: f64) -> [f64; MATCH] {
        [residual, 0.0, 0.0, 1.0, 0.0, 0.0, 0.0, 1.0]
    }

    #[test]
    fn groups_of_512_are_summed_each_from_zero() {
        let residuals = [134_217_728.0]
            .into_iter()
            .chain([0.0; 511])
            .chain([1.0; 3]);
        let matches: Vec<f64> = residuals.flat_map(with_residual).collect();
        let inputs = Matches {
            dof: 0,
            matches: &matches,
            action: &still(),
            map: &[],
            transforms: Transforms::NONE,
        };
        assert_eq!(inputs.work().cost, 18_014_398_509_481_988.0);
        assert_eq!(inputs.work_by(1000, added).cost, 18_014_398_509_481_984.0);
    }

    #[test]
    fn a_segment_has_to_fit() {
        let action = still();
        let refusal = |offset: u32| {
            let inputs = Matches {
                dof: 6,
                matches: &with_residual(1.0),
                action: &action,
                map: &[offset],
                transforms: Transforms::NONE,
            };
            inputs.accumulate_refusal(Target {
                hessian: 36,
                gradient: 6,
            })
        };
        assert_eq!(refusal(0), 0);
        assert_eq!(refusal(1), SEGMENT);
    }

    #[test]
    fn the_first_bad_match_decides() {
        let mut bad_sigma = with_residual(1.0);
        bad_sigma[7] = 0.0;
        let bad_point = with_residual(f64::NAN);
        let refusal = |matches: &[f64]| {
            let inputs = Matches {
                dof: 6,
                matches,
                action: &[],
                map: &[],
                transforms: Transforms::NONE,
            };
            inputs.linearize_refusal(matches.len() / MATCH, 0)
        };
        assert_eq!(refusal(&[bad_sigma, bad_point].concat()), SIGMA);
        assert_eq!(refusal(&[bad_point, bad_sigma].concat()), NOT_FINITE);
        let mut both = bad_point;
        both[7] = f64::NAN;
        assert_eq!(refusal(&both), NOT_FINITE);
        assert_eq!(refusal(&with_residual(1.0)), ACTIONS);
    }

    #[test]
    fn rows_sum_to_blocks() {
        let mut action = still();
        action[12..15].copy_from_slice(&[3.0, 0.0, 0.0]);
        action[15..18].copy_from_slice(&[5.0, 0.0, 0.0]);
        action[39] = 1.0;
        let matches = [2.0, 0.0, 0.0, 1.0, 0.0, 0.0, 1.0, 0.5];
        let inputs = Matches {
            dof: 2,
            matches: &matches,
            action: &action,
            map: &[4],
            transforms: Transforms::NONE,
        };
        // The distance is 3 and the row (3 + 2, 5), both twice.
        let work = inputs.work();
        assert_eq!(work.cost, 36.0);
        let expected = [
            (Cell::Hessian(4, 4), 100.0),
            (Cell::Hessian(5, 4), 100.0),
            (Cell::Hessian(4, 5), 100.0),
            (Cell::Hessian(5, 5), 100.0),
            (Cell::Gradient(4), 60.0),
            (Cell::Gradient(5), 60.0),
        ];
        assert_eq!(work.terms, expected);
        let rows = inputs.linearized();
        assert_eq!(rows.residual, [6.0]);
        assert_eq!(rows.jacobian, [[10.0, 10.0]]);
    }

    #[test]
    fn the_extrinsic_columns_are_scaled_first() {
        let mut d_extrinsic = [0.0; 18];
        d_extrinsic[..3].copy_from_slice(&[0.1, 0.2, 0.3]);
        let inputs = Single {
            dof: 1,
            record: &[0.0, 0.0, 0.0, 3.0, 3.0, 3.0, 1.0, 3.0],
            world: &[1.0, 1.0, 1.0],
            d_state: &[0.1, 0.2, 0.3],
            d_extrinsic: &d_extrinsic,
        };
        let row = inputs.row();
        assert_eq!(row[1], 0.6000000000000001);
        assert_eq!(inputs.residual(), (1.0 / 3.0) * 10.0);
        assert_eq!(row.len(), 7);
    }
}
