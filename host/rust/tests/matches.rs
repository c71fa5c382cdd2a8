//! Matches of points with planes, on numbers whose answers are known.

use maghnelt::{
    Action, BlockMap, MatchList, NormalEquations, Plane, PlaneMatch, Refusal, ACTION, MAX_MATCHES,
    MAX_ORDER,
};

const UNIT: [[f64; 3]; 3] = [[1.0, 0.0, 0.0], [0.0, 1.0, 0.0], [0.0, 0.0, 1.0]];

/// A match with that normal, offset 1 and that sigma.
fn with(normal: [f64; 3], sigma: f64) -> PlaneMatch {
    PlaneMatch {
        point: [0.0; 3],
        plane: Plane {
            normal,
            offset: 1.0,
        },
        sigma,
    }
}

#[test]
fn a_record_is_point_normal_offset_and_sigma() {
    let record = PlaneMatch {
        point: [1.0, 2.0, 3.0],
        ..with([4.0, 5.0, 6.0], 0.5)
    };
    assert_eq!(record.record(), [1.0, 2.0, 3.0, 4.0, 5.0, 6.0, 1.0, 0.5]);
}

#[test]
fn a_residual_is_the_distance_of_the_world_point_over_sigma() {
    let row = with([1.0, 2.0, 3.0], 0.5).linearize(&[10.0, 100.0, 1000.0], &[], &[[0.0; 3]; 6]);
    assert_eq!(row.unwrap().residual, 6422.0);
}

#[test]
fn the_extrinsic_columns_are_scaled_first_and_the_state_columns_last() {
    let column = [0.1, 0.2, 0.3];
    let mut d_extrinsic = [[0.0; 3]; 6];
    d_extrinsic[5] = column;
    let row = with([3.0; 3], 3.0)
        .linearize(&[0.0; 3], &[column, [1.0, 0.0, 0.0]], &d_extrinsic)
        .unwrap();
    assert_eq!(row.extrinsic[5], 0.6000000000000001);
    assert_eq!(row.extrinsic[..5], [0.0; 5]);
    let information = 1.0 / 3.0;
    assert_eq!(
        row.state[0],
        information * (0.3 + 0.6000000000000001 + 0.8999999999999999)
    );
    assert_eq!(row.state[1], information * 3.0);
}

#[test]
fn matches_that_are_refused() {
    let refused = |record: PlaneMatch, columns: usize| {
        let columns = vec![[0.0; 3]; columns];
        let answer = record.linearize(&[f64::NAN; 3], &columns, &[[f64::INFINITY; 3]; 6]);
        answer.map(|_| ())
    };
    let good = with([f64::NAN; 3], 1.0);
    let bad_sigma = with([1.0; 3], 0.0);
    let mut bad_point = bad_sigma;
    bad_point.point[2] = f64::NEG_INFINITY;
    // Neither the plane nor the chain is tested.
    assert_eq!(refused(good, 9), Ok(()));
    assert_eq!(refused(bad_point, 10), Err(Refusal::Dof));
    assert_eq!(refused(bad_point, 9), Err(Refusal::NotFinite));
    assert_eq!(refused(bad_sigma, 9), Err(Refusal::Sigma));
}

/// A match whose residual under a pose that moves nothing is that number.
fn with_residual(residual: f64) -> PlaneMatch {
    let plane = Plane {
        normal: [1.0, 0.0, 0.0],
        offset: 0.0,
    };
    PlaneMatch {
        point: [residual, 0.0, 0.0],
        plane,
        sigma: 1.0,
    }
}

fn still() -> Action {
    Action::rigid(&UNIT, &[0.0; 3])
}

fn at(offset: u32) -> BlockMap {
    BlockMap::new([Some(offset)]).unwrap()
}

#[test]
fn each_group_of_512_is_summed_by_itself() {
    let residuals = [134_217_728.0]
        .into_iter()
        .chain([0.0; 511])
        .chain([1.0; 3]);
    let matches = MatchList::new(6, residuals.map(with_residual));
    assert_eq!(matches.len(), 515);
    assert_eq!(matches.cost(&still()), Ok(18_014_398_509_481_988.0));
    let mut normal = NormalEquations::zeros(6);
    let cost = matches.accumulate(&still(), &at(0), &mut normal);
    assert_eq!(cost, Ok(18_014_398_509_481_988.0));
    // The rows are (1, 0, 0, 0, 0, 0).
    assert_eq!(normal.hessian(0, 0), 515.0);
    assert_eq!(normal.gradient()[0], 134_217_731.0);
}

#[test]
fn a_segment_has_to_fit() {
    let matches = MatchList::new(6, [with_residual(1.0)]);
    let mut normal = NormalEquations::zeros(6);
    let before = normal.clone();
    assert_eq!(
        matches.accumulate(&still(), &at(1), &mut normal),
        Err(Refusal::Segment)
    );
    assert_eq!(normal, before);
    assert_eq!(matches.accumulate(&still(), &at(0), &mut normal), Ok(1.0));
    assert_ne!(normal, before);
    // Also where there is nothing to write.
    let none = MatchList::new(0, [with_residual(1.0)]);
    assert_eq!(none.accumulate(&still(), &at(6), &mut normal), Ok(1.0));
    assert_eq!(
        none.accumulate(&still(), &at(7), &mut normal),
        Err(Refusal::Segment)
    );
}

#[test]
fn blocks_are_added_at_their_offset() {
    // One parameter that moves the point (2, 0, 0) by 3 along x, and by its own x.
    let mut numbers = [0.0; ACTION];
    for place in [0, 4, 8, 39] {
        numbers[place] = 1.0;
    }
    numbers[12] = 3.0;
    let pose = Action::from(numbers);
    let mut one = with_residual(2.0);
    one.sigma = 0.5;
    let matches = MatchList::new(1, [one, one]);
    let mut normal = NormalEquations::zeros(3);
    let (hessian, gradient) = normal.parts_mut();
    hessian.fill(1000.0);
    gradient.fill(100.0);
    // The residual is 4 and the row 10.
    assert_eq!(matches.accumulate(&pose, &at(1), &mut normal), Ok(32.0));
    let mut columns = [1000.0; 9];
    columns[4] += 200.0;
    assert_eq!(normal.columns(), columns);
    assert_eq!(normal.gradient(), [100.0, 180.0, 100.0]);
    let rows = matches.linearize(&pose).unwrap();
    assert_eq!(rows.residual(), [4.0, 4.0]);
    assert_eq!(rows.columns(), [10.0, 10.0]);
    assert_eq!(rows.jacobian(1, 0), 10.0);
}

#[test]
fn a_list_that_is_not_mapped_costs() {
    let matches = MatchList::new(6, [with_residual(3.0)]);
    let mut normal = NormalEquations::zeros(6);
    for map in [
        BlockMap::NOT_WANTED,
        BlockMap::new([None, Some(0)]).unwrap(),
    ] {
        assert_eq!(matches.accumulate(&still(), &map, &mut normal), Ok(9.0));
    }
    assert_eq!(normal, NormalEquations::zeros(6));
}

#[test]
fn rows_are_scaled_last() {
    // A row of 0.1·3 + 0.2·3 + 0.3·3 thirds, which is not what the scaled normal gives.
    let mut numbers = [0.0; ACTION];
    numbers[12..15].copy_from_slice(&[0.1, 0.2, 0.3]);
    let rows = MatchList::new(1, [with([3.0; 3], 3.0)])
        .linearize(&Action::from(numbers))
        .unwrap();
    let third: f64 = 1.0 / 3.0;
    let last = (3.0 * 0.1 + 3.0 * 0.2 + 3.0 * 0.3) * third;
    assert_eq!(rows.jacobian(0, 0).to_bits(), last.to_bits());
    assert_eq!(rows.residual(), [third]);
}

#[test]
fn the_first_bad_match_decides() {
    let mut bad_sigma = with_residual(1.0);
    bad_sigma.sigma = f64::INFINITY;
    let bad_point = with_residual(f64::NAN);
    let good = with_residual(1.0);
    let cost = |matches: &[PlaneMatch]| MatchList::new(6, matches.iter().copied()).cost(&still());
    assert_eq!(cost(&[good, bad_sigma, bad_point]), Err(Refusal::Sigma));
    assert_eq!(cost(&[good, bad_point, bad_sigma]), Err(Refusal::NotFinite));
    let mut both = bad_point;
    both.sigma = 0.0;
    assert_eq!(cost(&[both]), Err(Refusal::NotFinite));
    assert_eq!(cost(&[]), Err(Refusal::EmptyList));
}

#[test]
fn as_many_matches_as_allowed_and_no_more() {
    let all = MatchList::new(6, vec![with_residual(1.0); MAX_MATCHES]);
    assert_eq!(all.cost(&still()), Ok(MAX_MATCHES as f64));
    let more = MatchList::new(6, vec![with_residual(f64::NAN); MAX_MATCHES + 1]);
    assert_eq!(more.cost(&still()), Err(Refusal::Length));
    assert_eq!(more.linearize(&still()), Err(Refusal::Length));
}

#[test]
fn orders_and_dofs_that_are_refused() {
    let matches = |dof| MatchList::new(dof, [with_residual(1.0)]);
    let mut normal = NormalEquations::zeros(MAX_ORDER + 1);
    assert_eq!(
        matches(6).accumulate(&still(), &at(0), &mut normal),
        Err(Refusal::Length)
    );
    let mut normal = NormalEquations::zeros(MAX_ORDER);
    let last = MAX_ORDER as u32 - 6;
    assert_eq!(
        matches(6).accumulate(&still(), &at(last), &mut normal),
        Ok(1.0)
    );
    assert_eq!(normal.hessian(last as usize, last as usize), 1.0);
    assert_eq!(matches(10).cost(&still()), Err(Refusal::Dof));
    assert_eq!(matches(u32::MAX).linearize(&still()), Err(Refusal::Dof));
}
