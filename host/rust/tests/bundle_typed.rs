//! One plane point by point, by the types at the root of the crate, on numbers whose answers are known.

use maghnelt::{Bundle, Decomposition, Refusal, MAX_FRAMES, MAX_POINTS};

const UNIT: [[f64; 3]; 3] = [[1.0, 0.0, 0.0], [0.0, 1.0, 0.0], [0.0, 0.0, 1.0]];
const CORNERS: [[f64; 3]; 4] = [
    [0.0, 0.0, 0.0],
    [2.0, 0.0, 0.0],
    [0.0, 2.0, 0.0],
    [2.0, 2.0, 0.0],
];

fn with_values(eigenvalues: [f64; 3]) -> Decomposition {
    Decomposition {
        eigenvalues,
        vectors: UNIT,
    }
}

/// Frames of these points, without derivatives.
fn bundle(frames: &[&[[f64; 3]]], fixed: &[[f64; 3]]) -> Bundle<0> {
    let mut bundle = Bundle::new();
    for frame in frames {
        bundle.add_frame(frame.iter().map(|&point| (point, [])));
    }
    bundle.add_fixed(fixed.iter().copied());
    bundle
}

/// Frames of so many points at the origin, and derivatives of so many columns.
fn at_origin<const DOF: usize>(counts: &[usize], fixed: usize) -> Bundle<DOF> {
    let mut bundle = Bundle::new();
    for &count in counts {
        bundle.add_frame(vec![([0.0; 3], [[0.0; 3]; DOF]); count]);
    }
    bundle.add_fixed(vec![[0.0; 3]; fixed]);
    bundle
}

fn bits(numbers: &[f64]) -> Vec<u64> {
    numbers.iter().map(|x| x.to_bits()).collect()
}

#[test]
fn a_fixed_point_counts_in_the_fit() {
    let fit = bundle(&[&CORNERS], &[[1.0, 1.0, 5.0]]).fit().unwrap();
    assert_eq!(fit.centroid, [1.0, 1.0, 1.0]);
    let scatter = [[0.8, 0.0, 0.0], [0.0, 0.8, 0.0], [0.0, 0.0, 4.0]];
    assert_eq!(fit.scatter, scatter);
}

#[test]
fn a_scatter_is_a_matrix_by_columns() {
    // Two points about the origin, and it: twice (1, 2, 4) times itself, over three.
    let fit = bundle(&[&[[1.0, 2.0, 4.0], [-1.0, -2.0, -4.0]]], &[[0.0; 3]]).fit();
    let column = |x: f64| [1.0, 2.0, 4.0].map(|y| 2.0 * x * y / 3.0);
    assert_eq!(fit.unwrap().scatter, [1.0, 2.0, 4.0].map(column));
}

/// Two frames and a fixed point on both sides of the plane x = 0, each point with two columns of its own.
fn two_frames() -> Bundle<2> {
    let mut bundle = Bundle::new();
    let columns = |a: f64, b: f64| [[a, 10.0, 20.0], [b, 30.0, 40.0]];
    bundle.add_frame([([1.0, 5.0, 0.0], columns(1.0, 2.0))]);
    bundle.add_frame([
        ([-3.0, 0.0, 7.0], columns(3.0, 4.0)),
        ([4.0, -5.0, 0.0], columns(5.0, 6.0)),
    ]);
    bundle.add_fixed([[-2.0, 0.0, -7.0]]);
    bundle
}

#[test]
fn rows_are_frame_after_frame_and_then_the_fixed_points() {
    let bundle = two_frames();
    assert_eq!(bundle.fit().unwrap().centroid, [0.0; 3]);
    assert_eq!(bundle.counts(), [1, 2]);
    assert_eq!(bundle.points()[1], [-3.0, 0.0, 7.0]);
    assert_eq!(bundle.fixed(), [[-2.0, 0.0, -7.0]]);
    assert_eq!(bundle.rows(), 4);
    assert!(bundle.frame_rows().eq([0..1, 1..3]));

    let across = with_values([0.0, 1.0, 2.0]);
    let rows = bundle.linearize(0.5, &across).unwrap();
    assert_eq!(rows.residual(), [2.0, -6.0, 8.0, -4.0]);
    let columns = [
        [2.0, 0.0, 0.0, 0.0],
        [4.0, 0.0, 0.0, 0.0],
        [0.0, 6.0, 10.0, 0.0],
        [0.0, 8.0, 12.0, 0.0],
    ];
    // By their bits, since a zero has to be +0.
    assert_eq!(bits(rows.columns()), bits(columns.as_flattened()));
    for (c, column) in columns.iter().enumerate() {
        assert_eq!(rows.column(c), column);
        assert_eq!(rows.jacobian(2, c), column[2]);
    }
    assert_eq!(bundle.residual(0.5, &across).unwrap(), rows.residual());
}

#[test]
fn the_weight_is_one_over_sigma_and_multiplies_last() {
    let mut bundle = Bundle::<1>::new();
    bundle.add_frame([[3.0, 0.0, 0.0], [-3.0, 0.0, 0.0]].map(|p| (p, [p])));
    bundle.add_fixed([[0.0; 3]]);
    let rows = bundle
        .linearize(10.0, &with_values([0.0, 1.0, 2.0]))
        .unwrap();
    // A tenth is not a number of the format: three times it is above 0.3, and 3 / 10 is 0.3.
    assert_eq!(rows.residual(), [3.0 * 0.1, -3.0 * 0.1, 0.0]);
    assert_ne!(rows.residual()[0], 0.3);
    assert_eq!(rows.columns(), rows.residual());
}

#[test]
fn the_gap_decides_whether_there_is_a_plane() {
    let bundle = two_frames();
    let minus_nan = f64::from_bits(0xFFF8_0000_0000_0001);
    for (eigenvalues, axis) in [
        ([0.0, 1e-12, 1.0], Some(0)),
        ([0.0, 9e-13, 1.0], None),
        ([1.0, 0.0, 1e-12], Some(1)),
        // A NaN with a plus sign is the largest, and one with a minus sign the least: then the gap is a NaN, and passes.
        ([0.0, f64::NAN.copysign(1.0), 1.0], Some(0)),
        ([0.0, 1.0, minus_nan], Some(2)),
        ([f64::NEG_INFINITY; 3], Some(0)),
        ([2.0, 2.0, 2.0], None),
    ] {
        let rows = bundle.linearize(1.0, &with_values(eigenvalues)).unwrap();
        let points = bundle.points().iter().chain(bundle.fixed());
        match axis {
            Some(axis) => assert!(points.map(|p| p[axis]).eq(rows.residual().iter().copied())),
            None => assert!(rows
                .residual()
                .iter()
                .chain(rows.columns())
                .all(|x| x.to_bits() == 0)),
        }
    }
}

#[test]
fn bundles_that_are_refused() {
    let good = with_values([0.0, 1.0, 2.0]);
    // Each reason with those after it.
    let bad = [f64::NAN, 0.0, 0.0];
    let many = vec![0; MAX_FRAMES + 1];
    for (bundle, reason) in [
        (bundle(&[], &[bad]), Refusal::EmptyList),
        (at_origin(&many, 0), Refusal::Length),
        (at_origin(&[0, 1], MAX_POINTS), Refusal::Length),
        (bundle(&[&[bad], &[]], &[]), Refusal::FrameCount),
        (bundle(&[&[bad], &[]], &CORNERS), Refusal::FrameCount),
        (bundle(&[&[bad], &[bad]], &[]), Refusal::TotalCount),
        (bundle(&[&[bad]], &CORNERS), Refusal::NotFinite),
        (bundle(&[&CORNERS], &[bad]), Refusal::NotFinite),
    ] {
        assert_eq!(bundle.fit(), Err(reason));
        assert_eq!(bundle.linearize(0.0, &good), Err(reason));
        assert_eq!(bundle.residual(f64::NAN, &good), Err(reason));
    }
    for sigma in [0.0, -1.0, f64::INFINITY, f64::NAN] {
        let refused = bundle(&[&CORNERS], &[]).linearize(sigma, &good);
        assert_eq!(refused, Err(Refusal::Sigma));
    }
    let wide = at_origin::<10>(&[], 0);
    assert_eq!(wide.linearize(0.0, &good), Err(Refusal::Dof));
    assert_eq!(wide.fit(), Err(Refusal::EmptyList));
}

#[test]
fn bundles_that_are_just_accepted() {
    let none = with_values([0.0; 3]);
    for (counts, fixed) in [
        (&[1][..], 2),
        (&[3], 0),
        (&[1; MAX_FRAMES], 0),
        (&[1, 1], MAX_POINTS - 2),
        (&[MAX_POINTS], 0),
    ] {
        let rows = at_origin::<1>(counts, fixed).linearize(1.0, &none).unwrap();
        let expected = counts.iter().sum::<usize>() + fixed;
        assert_eq!(rows.residual().len(), expected);
        assert_eq!(rows.columns().len(), expected * counts.len());
    }
    assert!(at_origin::<9>(&[3], 0).linearize(1.0, &none).is_ok());
}

#[test]
fn what_no_memory_holds_is_refused() {
    // The Jacobian would have 2^37 numbers.
    let huge = at_origin::<2>(&vec![1; 1 << 18], 0);
    let refused = huge.linearize(1.0, &with_values([0.0; 3]));
    assert_eq!(refused, Err(Refusal::Length));
}

#[test]
fn derivatives_are_not_tested() {
    let mut bundle = Bundle::<1>::new();
    let columns = [f64::INFINITY, 1.0, f64::NAN].map(|x| [[x, 0.0, 0.0]]);
    bundle.add_frame([[0.0; 3]; 3].into_iter().zip(columns));
    let rows = bundle
        .linearize(1.0, &with_values([0.0, 1.0, 2.0]))
        .unwrap();
    assert_eq!(rows.column(0)[..2], [f64::INFINITY, 1.0]);
    assert!(rows.column(0)[2].is_nan());
    assert_eq!(rows.residual(), [0.0; 3]);
}

#[test]
fn a_bundle_that_was_cleared_is_a_new_one() {
    let mut bundle = two_frames();
    bundle.clear();
    assert_eq!(bundle, Bundle::new());
    assert_eq!(bundle.fit(), Err(Refusal::EmptyList));
    bundle.add_frame([([0.0; 3], UNIT[..2].try_into().unwrap()); 3]);
    assert_eq!(bundle.counts(), [3]);
}
