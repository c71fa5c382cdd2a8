//! The factor of one plane over several frames, on numbers whose answers are known.

use maghnelt::{
    Action, BlockMap, Decomposition, FrameFactor, Moments, NormalEquations, Refusal, ACTION,
    MAX_FRAMES,
};

const UNIT: [[f64; 3]; 3] = [[1.0, 0.0, 0.0], [0.0, 1.0, 0.0], [0.0, 0.0, 1.0]];

/// Moments of that count, the points being at the origin.
fn at_origin(count: f64) -> Moments {
    let mut record = *Moments::EMPTY.as_array();
    record[0] = count;
    Moments::from(record)
}

fn built(frames: &[Moments], fixed: Option<&Moments>) -> Result<FrameFactor, Refusal> {
    FrameFactor::new(6, frames, fixed, 0.5)
}

#[test]
fn a_fixed_set_without_points_is_dropped_after_it_was_counted() {
    let five = [at_origin(5.0)];
    let factor = built(&five, Some(&at_origin(-1.0))).unwrap();
    assert_eq!(factor.points(), 5.0);
    assert!(factor.fixed_dropped());
    assert_eq!(factor.fixed(), None);
    assert_eq!(
        built(&five, Some(&at_origin(-3.0))),
        Err(Refusal::TotalCount)
    );
    for count in [0.0, -0.0] {
        assert!(built(&five, Some(&at_origin(count)))
            .unwrap()
            .fixed_dropped());
    }
}

#[test]
fn a_fixed_set_counts() {
    let two = [at_origin(2.0)];
    let factor = built(&two, Some(&at_origin(1.0))).unwrap();
    assert_eq!(factor.points(), 3.0);
    assert!(!factor.fixed_dropped());
    assert_eq!(factor.fixed().unwrap().count(), 1.0);
    assert_eq!(built(&two, Some(&at_origin(0.5))), Err(Refusal::TotalCount));
    assert_eq!(built(&two, None), Err(Refusal::TotalCount));
}

#[test]
fn frames_are_centred() {
    let corners = [
        [0.0, 0.0, 0.0],
        [2.0, 0.0, 0.0],
        [0.0, 2.0, 0.0],
        [2.0, 2.0, 0.0],
    ];
    let moments = Moments::from_points(&corners).unwrap();
    let factor = built(&[at_origin(1.0), moments], Some(&moments)).unwrap();
    assert_eq!(factor.frames().len(), 2);
    for centred in [&factor.frames()[1], factor.fixed().unwrap()] {
        assert_eq!(centred.count(), 4.0);
        assert_eq!(centred.mean(), [1.0, 1.0, 0.0]);
        let scatter = [[4.0, 0.0, 0.0], [0.0, 4.0, 0.0], [0.0; 3]];
        assert_eq!(centred.scatter(), scatter);
    }
    assert_eq!((factor.dof(), factor.sigma()), (6, 0.5));
}

#[test]
fn builds_that_are_refused() {
    let three = at_origin(3.0);
    let with = |place: usize, x: f64| {
        let mut record = *three.as_array();
        record[place] = x;
        Moments::from(record)
    };
    let new = |dof, frames: &[Moments], sigma| FrameFactor::new(dof, frames, None, sigma);
    // Each reason with those after it.
    let bad = [with(0, -0.0), with(7, f64::NAN)];
    assert_eq!(new(10, &[], 0.0), Err(Refusal::Dof));
    assert_eq!(new(9, &[], 0.0), Err(Refusal::EmptyList));
    assert_eq!(
        new(9, &vec![bad[0]; MAX_FRAMES + 1], 0.0),
        Err(Refusal::Length)
    );
    assert_eq!(new(9, &bad, 0.0), Err(Refusal::FrameCount));
    assert_eq!(
        new(9, &[with(0, 2.0), with(0, 0.9)], 0.0),
        Err(Refusal::TotalCount)
    );
    assert_eq!(new(9, &[three, bad[1]], 0.0), Err(Refusal::NotFinite));
    for sigma in [0.0, -1.0, f64::INFINITY, f64::NAN] {
        assert_eq!(new(9, &[three], sigma), Err(Refusal::Sigma));
    }
    assert!(new(9, &vec![three; MAX_FRAMES], 1.0).is_ok());
}

#[test]
fn a_fixed_set_is_tested_also_where_it_will_be_dropped() {
    let mut record = *at_origin(-1.0).as_array();
    record[5] = f64::INFINITY;
    let fixed = Moments::from(record);
    assert_eq!(
        built(&[at_origin(5.0)], Some(&fixed)),
        Err(Refusal::NotFinite)
    );
    let minus_infinity = at_origin(f64::NEG_INFINITY);
    assert_eq!(
        built(&[at_origin(5.0)], Some(&minus_infinity)),
        Err(Refusal::TotalCount)
    );
}

/// The corners of a square about (1, 1, 0).
fn square() -> Moments {
    let corners = [
        [0.0, 0.0, 0.0],
        [2.0, 0.0, 0.0],
        [0.0, 2.0, 0.0],
        [2.0, 2.0, 0.0],
    ];
    Moments::from_points(&corners).unwrap()
}

/// One parameter, which moves a point along x by three and its own x.
fn stretching() -> Action {
    let mut numbers = [0.0; ACTION];
    for place in [0, 4, 8, 39] {
        numbers[place] = 1.0;
    }
    numbers[12] = 3.0;
    Action::from(numbers)
}

fn with_values(eigenvalues: [f64; 3]) -> Decomposition {
    Decomposition {
        eigenvalues,
        vectors: UNIT,
    }
}

fn at(offsets: &[u32]) -> BlockMap {
    BlockMap::new(offsets.iter().copied().map(Some)).unwrap()
}

/// The case in whole numbers: the plane x = 1 through a square that lies across it.
#[test]
fn a_case_in_whole_numbers() {
    let factor = FrameFactor::new(1, &[square()], None, 0.5).unwrap();
    let fit = with_values([0.0, 1.0, 2.0]);
    let mut normal = NormalEquations::zeros(2);
    normal.parts_mut().0.fill(1.0);
    let cost = factor.accumulate(&[stretching()], &fit, &at(&[1]), &mut normal);
    assert_eq!(cost, Ok(16.0));
    assert_eq!(normal.columns(), [1.0, 1.0, 1.0, 273.0]);
    assert_eq!(normal.gradient(), [0.0, 16.0]);
    assert_eq!(factor.cost(&[stretching()], &fit), Ok(16.0));

    let of_frame = with_values([4.0, 4.0, 0.0]);
    let rows = factor
        .linearize(&[stretching()], &fit, &[of_frame], None)
        .unwrap();
    assert_eq!(rows.residual(), [4.0, 0.0, 0.0, 0.0, 0.0, 0.0, 0.0, 0.0]);
    assert_eq!(rows.columns(), [4.0, 0.0, 0.0, 16.0, 0.0, 0.0, 0.0, 0.0]);
}

#[test]
fn the_weight_is_one_over_sigma_squared() {
    // The square across the plane x = 1 has a scatter of 4 along x; with sigma 0.1 the weight is below 100.
    let cost = |sigma: f64| {
        FrameFactor::new(1, &[square()], None, sigma)
            .unwrap()
            .cost(&[stretching()], &with_values([0.0, 1.0, 2.0]))
    };
    assert_eq!(cost(0.1), Ok(4.0 * 99.99999999999999));
    assert_eq!(cost(2.0), Ok(1.0));
}

#[test]
fn a_fixed_set_only_costs() {
    let factor = FrameFactor::new(1, &[square()], Some(&square()), 0.5).unwrap();
    let fit = with_values([0.0, 1.0, 2.0]);
    let mut normal = NormalEquations::zeros(1);
    let cost = factor.accumulate(&[stretching()], &fit, &at(&[0]), &mut normal);
    assert_eq!(cost, Ok(32.0));
    assert_eq!(normal.columns(), [272.0]);
    let of_set = with_values([4.0, 4.0, 0.0]);
    let rows = factor
        .linearize(&[stretching()], &fit, &[of_set], Some(&of_set))
        .unwrap();
    assert_eq!(rows.residual(), [4.0, 0.0, 0.0, 0.0, 4.0, 0.0, 0.0, 0.0]);
}

#[test]
fn frames_may_share_rows_or_go_nowhere() {
    let factor = FrameFactor::new(1, &[square(); 3], None, 0.5).unwrap();
    let states = [stretching(); 3];
    let fit = with_values([0.0, 1.0, 2.0]);
    let mut normal = NormalEquations::zeros(1);
    let map = BlockMap::new([Some(0), None, Some(0)]).unwrap();
    assert_eq!(
        factor.accumulate(&states, &fit, &map, &mut normal),
        Ok(48.0)
    );
    assert_eq!(normal.columns(), [544.0]);
    assert_eq!(normal.gradient(), [32.0]);
    // A map that ends early.
    assert_eq!(
        factor.accumulate(&states, &fit, &at(&[0]), &mut normal),
        Ok(48.0)
    );
    assert_eq!(normal.columns(), [816.0]);
}

#[test]
fn without_a_plane_nothing_is_added() {
    let factor = FrameFactor::new(1, &[square()], None, 0.5).unwrap();
    let mut normal = NormalEquations::zeros(1);
    normal.parts_mut().0[0] = -0.0;
    // f and g, and a gap that is a NaN.
    for eigenvalues in [
        [0.0, 1e-12, 200.0],
        [-0.0, 0.0, 1.0],
        [1.0, 1.0, 1.0],
        [f64::INFINITY; 3],
    ] {
        let fit = with_values(eigenvalues);
        let cost = factor.accumulate(&[stretching()], &fit, &at(&[0]), &mut normal);
        assert_eq!(cost.map(f64::to_bits), Ok(0));
        assert_eq!(normal.columns()[0].to_bits(), (-0.0f64).to_bits());
        let rows = factor
            .linearize(&[stretching()], &fit, &[with_values([4.0; 3])], None)
            .unwrap();
        let numbers = rows.residual().iter().chain(rows.columns());
        assert!(numbers.into_iter().all(|x| x.to_bits() == 0));
        // A segment that does not fit is refused all the same.
        let refused = factor.accumulate(&[stretching()], &fit, &at(&[1]), &mut normal);
        assert_eq!(refused, Err(Refusal::Segment));
    }
}

#[test]
fn roots_of_what_is_not_above_0_are_0() {
    let factor = FrameFactor::new(0, &[square()], None, 1.0).unwrap();
    let fit = with_values([0.0, 1.0, 2.0]);
    for value in [-0.0, -4.0, f64::NAN, f64::NEG_INFINITY] {
        let of_frame = with_values([value, 4.0, 0.0]);
        let rows = factor
            .linearize(&[stretching()], &fit, &[of_frame], None)
            .unwrap();
        assert_eq!(rows.residual()[0].to_bits(), 0);
        assert!(rows.columns().is_empty());
    }
}

#[test]
fn calls_that_are_refused() {
    let factor = FrameFactor::new(6, &[square(); 2], None, 0.5).unwrap();
    let fit = with_values([0.0, 1.0, 2.0]);
    let states = [stretching(); 3];
    let mut normal = NormalEquations::zeros(6);
    let before = normal.clone();
    let mut accumulate =
        |states: &[Action], map: &BlockMap| factor.accumulate(states, &fit, map, &mut normal);
    assert_eq!(accumulate(&states, &at(&[1])), Err(Refusal::Actions));
    assert_eq!(
        accumulate(&states[..2], &at(&[0, 1])),
        Err(Refusal::Segment)
    );
    // The third word is no frame's.
    assert!(accumulate(&states[..2], &at(&[0, 0, 1])).is_ok());
    assert_ne!(normal, before);
    let linearize = |of_frames: usize, of_fixed: Option<&Decomposition>| {
        factor.linearize(&states[..2], &fit, &[fit; 3][..of_frames], of_fixed)
    };
    assert!(linearize(2, None).is_ok());
    assert_eq!(linearize(1, None), Err(Refusal::Length));
    assert_eq!(linearize(3, None), Err(Refusal::Length));
    assert_eq!(linearize(2, Some(&fit)), Err(Refusal::Length));
}
