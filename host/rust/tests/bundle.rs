//! Bundles of raw points, on numbers whose answers are known.

use maghnelt::{slices, Refusal, DECOMPOSITION, MAX_FRAMES, MAX_POINTS};

/// Four corners of a square on the floor.
const CORNERS: [[f64; 3]; 4] = [
    [0.0, 0.0, 0.0],
    [2.0, 0.0, 0.0],
    [0.0, 2.0, 0.0],
    [2.0, 2.0, 0.0],
];
/// A point above its middle.
const ABOVE: [[f64; 3]; 1] = [[1.0, 1.0, 5.0]];

/// Centroid, and scatter column after column.
fn fit(counts: &[u32], points: &[[f64; 3]], fixed: &[[f64; 3]]) -> Result<[f64; 12], Refusal> {
    let mut out = [f64::NAN; 12];
    slices::bundle_fit(
        counts,
        points.as_flattened(),
        fixed.as_flattened(),
        &mut out,
    )?;
    Ok(out)
}

#[test]
fn centroid_and_scatter_are_divided_by_the_number_of_points() {
    let out = fit(&[4], &CORNERS, &ABOVE).unwrap();
    assert_eq!(out[..3], [1.0, 1.0, 1.0]);
    assert_eq!(out[3..], [0.8, 0.0, 0.0, 0.0, 0.8, 0.0, 0.0, 0.0, 4.0]);
}

#[test]
fn frames_are_a_matter_of_rows_and_not_of_the_fit() {
    let cut = [[1, 3], [2, 2], [3, 1]].map(|counts| fit(&counts, &CORNERS, &ABOVE));
    assert_eq!(cut, [fit(&[4], &CORNERS, &ABOVE); 3]);
    // Fixed points count as the others do.
    assert_eq!(
        fit(&[3], &CORNERS[..3], &[CORNERS[3], ABOVE[0]]),
        fit(&[4], &CORNERS, &ABOVE)
    );
}

#[test]
fn the_scatter_is_that_of_differences() {
    // Far from the origin, where outer products less a product of means have lost every digit.
    let far = CORNERS.map(|point| point.map(|x| x + 1e9));
    let out = fit(&[4], &far, &[]).unwrap();
    assert_eq!(out[..3], [1e9 + 1.0, 1e9 + 1.0, 1e9]);
    assert_eq!(out[3..], [1.0, 0.0, 0.0, 0.0, 1.0, 0.0, 0.0, 0.0, 0.0]);
}

#[test]
fn sums_start_from_plus_0() {
    let out = fit(&[3], &[[-0.0; 3]; 3], &[]).unwrap();
    assert_eq!(out.map(f64::to_bits), [0; 12]);
}

#[test]
fn sums_that_overflow_are_accepted() {
    let out = fit(&[3], &[[f64::MAX; 3]; 3], &[]).unwrap();
    assert_eq!(out[..3], [f64::INFINITY; 3]);
    assert_eq!(out[3..], [f64::INFINITY; 9]);
}

/// Residuals and Jacobian at sigma 0.5 of the corners, seen by two frames, and the point above, under these eigenvalues. The
/// vectors are the axes. Corner k has the columns (k, 0, 0) and (0, 10·k, 0), k counted from 1.
fn rows(eigenvalues: [f64; 3]) -> ([f64; 5], [[f64; 5]; 4]) {
    let d_state = [1.0, 2.0, 3.0, 4.0].map(|k| [k, 0.0, 0.0, 0.0, 10.0 * k, 0.0]);
    let mut residual = [f64::NAN; 5];
    let mut jacobian = [[f64::NAN; 5]; 4];
    slices::bundle_linearize(
        2,
        &[1, 3],
        CORNERS.as_flattened(),
        d_state.as_flattened(),
        ABOVE.as_flattened(),
        0.5,
        &with_axes(eigenvalues),
        &mut residual,
        jacobian.as_flattened_mut(),
    )
    .unwrap();
    (residual, jacobian)
}

/// A decomposition whose vectors are the axes.
fn with_axes(eigenvalues: [f64; 3]) -> [f64; DECOMPOSITION] {
    let axes = [1.0, 0.0, 0.0, 0.0, 1.0, 0.0, 0.0, 0.0, 1.0];
    let mut decomposition = [0.0; DECOMPOSITION];
    decomposition[..3].copy_from_slice(&eigenvalues);
    decomposition[3..].copy_from_slice(&axes);
    decomposition
}

/// Which axis is the normal: the residuals along each are different. None if every number is +0.
fn normal(eigenvalues: [f64; 3]) -> Option<usize> {
    let (residual, jacobian) = rows(eigenvalues);
    let along = [
        [-2.0, 2.0, -2.0, 2.0, 0.0],
        [-2.0, -2.0, 2.0, 2.0, 0.0],
        [-2.0, -2.0, -2.0, -2.0, 8.0],
    ];
    let axis = along.iter().position(|numbers| *numbers == residual);
    if axis.is_none() {
        let mut numbers = residual.iter().chain(jacobian.as_flattened());
        assert!(numbers.all(|x| x.to_bits() == 0), "{residual:?}");
    }
    axis
}

#[test]
fn a_point_moves_by_the_columns_of_its_own_frame() {
    let (_, jacobian) = rows([0.0, 1.0, 2.0]);
    // The columns of the first frame, then those of the second; the fixed point's row is the last.
    assert_eq!(
        jacobian,
        [
            [2.0, 0.0, 0.0, 0.0, 0.0],
            [0.0; 5],
            [0.0, 4.0, 6.0, 8.0, 0.0],
            [0.0; 5],
        ]
    );
    let (_, jacobian) = rows([1.0, 0.0, 2.0]);
    assert_eq!(
        jacobian,
        [
            [0.0; 5],
            [20.0, 0.0, 0.0, 0.0, 0.0],
            [0.0; 5],
            [0.0, 40.0, 60.0, 80.0, 0.0],
        ]
    );
}

#[test]
fn the_fixed_points_rows_come_last() {
    let (residual, _) = rows([2.0, 1.0, 0.0]);
    assert_eq!(residual, [-2.0, -2.0, -2.0, -2.0, 8.0]);
}

#[test]
fn a_gap_of_1e_12_is_a_plane() {
    assert_eq!(normal([0.0, 1e-12, 1.0]), Some(0));
}

#[test]
fn a_gap_below_1e_12_is_none() {
    assert_eq!(normal([0.0, 9e-13, 1.0]), None);
    let below = f64::from_bits(1e-12f64.to_bits() - 1);
    assert_eq!(normal([1.0, below, 0.0]), None);
    assert_eq!(normal([1.0, 1.0, 1.0]), None);
}

#[test]
fn a_nan_that_sorts_last_leaves_the_gap() {
    assert_eq!(normal([0.0, f64::NAN.copysign(1.0), 1.0]), Some(0));
}

#[test]
fn a_nan_gap_is_a_plane_with_the_nans_vector() {
    let minus_nan = f64::NAN.copysign(-1.0);
    assert_eq!(normal([minus_nan, 0.0, 1.0]), Some(0));
    assert_eq!(normal([0.0, 1.0, minus_nan]), Some(2));
    // Of two equal patterns the first.
    assert_eq!(normal([0.0, minus_nan, minus_nan]), Some(1));
    // Two infinities: their difference is a NaN.
    assert_eq!(normal([f64::INFINITY; 3]), Some(0));
}

#[test]
fn a_projection_is_scaled_last() {
    // 0.1·3 + 0.2·3 + 0.3·3 thirds, which is not what a scaled normal gives.
    let column = [0.1, 0.2, 0.3];
    let mut residual = [0.0; 3];
    let mut jacobian = [0.0; 3];
    let mut decomposition = with_axes([0.0, 1.0, 2.0]);
    decomposition[3..6].fill(3.0);
    slices::bundle_linearize(
        1,
        &[1],
        &[0.0; 3],
        &column,
        &[1.0, 0.0, 0.0, 2.0, 0.0, 0.0],
        3.0,
        &decomposition,
        &mut residual,
        &mut jacobian,
    )
    .unwrap();
    let third: f64 = 1.0 / 3.0;
    let last = third * (3.0 * 0.1 + 3.0 * 0.2 + 3.0 * 0.3);
    assert_eq!(jacobian[0].to_bits(), last.to_bits());
    assert_eq!(residual, [third * -3.0, 0.0, third * 3.0]);
}

/// Why both calls refuse points that are all ones, and see that they then write nothing.
fn refusal(counts: &[u32], fixed: usize) -> Option<Refusal> {
    let sites = counts.iter().sum::<u32>() as usize;
    let (points, fixed_points) = (vec![1.0; 3 * sites], vec![1.0; 3 * fixed]);
    let (mut out, mut residual) = ([7.0; 12], vec![7.0; sites + fixed]);
    let of_fit = slices::bundle_fit(counts, &points, &fixed_points, &mut out).err();
    let of_rows = slices::bundle_linearize(
        0,
        counts,
        &points,
        &[],
        &fixed_points,
        1.0,
        &with_axes([0.0, 1.0, 2.0]),
        &mut residual,
        &mut [],
    );
    assert_eq!(of_fit, of_rows.err());
    let expected = if of_fit.is_some() { 7.0 } else { 0.0 };
    assert!(residual.iter().all(|&x| x == expected));
    assert_eq!(out[3], expected);
    of_fit
}

#[test]
fn a_frame_without_points_is_refused() {
    assert_eq!(refusal(&[2, 0], 0), Some(Refusal::FrameCount));
    assert_eq!(refusal(&[0, 2], 9), Some(Refusal::FrameCount));
}

#[test]
fn two_points_in_all_are_too_few() {
    assert_eq!(refusal(&[1, 1], 0), Some(Refusal::TotalCount));
    assert_eq!(refusal(&[1], 1), Some(Refusal::TotalCount));
}

#[test]
fn fixed_points_count() {
    assert_eq!(refusal(&[1], 2), None);
}

#[test]
fn a_frame_without_points_and_a_wrong_length_is_refused_by_the_length() {
    assert_eq!(
        fit(&[2, 0], &CORNERS[..3], &[]).err(),
        Some(Refusal::Length)
    );
}

#[test]
fn as_many_frames_and_points_as_allowed_and_no_more() {
    assert_eq!(refusal(&[1; MAX_FRAMES], 0), None);
    assert_eq!(refusal(&[1; MAX_FRAMES + 1], 0), Some(Refusal::Length));
    let most = MAX_POINTS as u32;
    assert_eq!(refusal(&[most - 2], 2), None);
    assert_eq!(refusal(&[most - 2], 3), Some(Refusal::Length));
}

#[test]
fn counts_whose_sum_is_beyond_32_bits_are_refused() {
    assert_eq!(
        fit(&[u32::MAX; MAX_FRAMES], &CORNERS, &[]).err(),
        Some(Refusal::Length)
    );
    // In 32 bits the sum would be 4.
    assert_eq!(
        fit(&[5, u32::MAX], &CORNERS, &[]).err(),
        Some(Refusal::Length)
    );
}

#[test]
fn site_and_fixed_points_have_to_be_finite() {
    for bad in [f64::NAN, f64::INFINITY, f64::NEG_INFINITY] {
        let mut points = CORNERS;
        points[3][2] = bad;
        assert_eq!(fit(&[4], &points, &[]), Err(Refusal::NotFinite));
        assert_eq!(fit(&[1], &points[..1], &points), Err(Refusal::NotFinite));
    }
}

#[test]
fn columns_do_not_have_to_be_finite() {
    let mut residual = [f64::NAN; 4];
    let mut jacobian = [0.0; 4];
    slices::bundle_linearize(
        1,
        &[4],
        CORNERS.as_flattened(),
        &[f64::INFINITY; 12],
        &[],
        1.0,
        &with_axes([2.0, 1.0, 0.0]),
        &mut residual,
        &mut jacobian,
    )
    .unwrap();
    assert_eq!(residual, [0.0; 4]);
    // Zeros of the normal times infinity.
    assert!(jacobian.iter().all(|x| x.is_nan()));
}
