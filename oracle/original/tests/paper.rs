//! The original over the stand-ins gives what documents 01 and 02 and the formulas worked out on paper say, and the
//! comparison sees an answer that is wrong.

use apex_manifolds::capability::ActsOnPoints3;
use apex_manifolds::se3::SE3;
use apex_manifolds::{Affine, LieGroup};
use faer::mat::MatMut;
use maghnelt::slices::{bundle_fit, moments_merge, moments_push};
use maghnelt::Refusal;
use nalgebra::{eigen, DMatrix, DVector, Matrix3, Vector3};
use oracle::generator::Generator;
use original::calls::Value;
use original::case::{After, Case, Cell};
use original::factors::lidar::map_plane::point_to_plane_sigma;
use original::factors::lidar::map_planes::{LidarMapPlanesFactor, PlaneMatch};
use original::factors::lidar::plane::Plane;
use original::factors::lidar::plane_bundle::{fit_plane_pca, LidarPlaneBundleFactor};
use original::factors::lidar::plane_moments::{beside, PointMoments};
use original::factors::{beside as of_blocks, Factor, NormalBlocks};
use original::jobs::{stepped, Step, JOBS};

/// The identity with one degree of freedom: at the origin it shifts along x by 3, and x adds 1 to that.
fn state() -> Vec<f64> {
    let mut params = vec![0.0; Affine::<1>::PARAMS];
    for k in 0..3 {
        params[4 * k] = 1.0;
    }
    params[12] = 3.0;
    params[15] = 1.0;
    params
}

/// A decomposition along the axes.
fn along_axes(values: [f64; 3]) -> eigen::Decomposition {
    let [a, b, c] = values;
    [a, b, c, 1.0, 0.0, 0.0, 0.0, 1.0, 0.0, 0.0, 0.0, 1.0]
}

fn corner_points() -> [Vector3<f64>; 4] {
    let corner = |x, y| Vector3::new(x, y, 0.0);
    [
        corner(0.0, 0.0),
        corner(2.0, 0.0),
        corner(0.0, 2.0),
        corner(2.0, 2.0),
    ]
}

fn corners() -> PointMoments {
    PointMoments::from_points(&corner_points())
}

#[test]
fn case_c_mean_and_scatter_of_four_corners() {
    let (mean, scatter) = corners().mean_and_scatter().unwrap();
    assert_eq!(mean, Vector3::new(1.0, 1.0, 0.0));
    assert_eq!(
        scatter.as_slice(),
        [1.0, 0.0, 0.0, 0.0, 1.0, 0.0, 0.0, 0.0, 0.0]
    );
}

#[test]
fn case_d_the_corners_lifted() {
    let identity = Matrix3::from_fn(|row, column| if row == column { 1.0 } else { 0.0 });
    let lifted = corners().transformed(&identity, &Vector3::new(0.0, 0.0, 5.0));
    assert_eq!(lifted.sum, Vector3::new(4.0, 4.0, 20.0));
    assert_eq!((lifted.outer[(0, 2)], lifted.outer[(2, 2)]), (20.0, 100.0));
}

#[test]
fn case_f_two_gap_rules() {
    eigen::hand_in([along_axes([0.0, 1e-12, 200.0]); 2]);
    assert!(corners().plane().is_some());
    let factor = beside::of_centred::<Affine<1>>(&[[4.0; 13]], None, 1.0);
    assert!(beside::fit(&factor, &[&state()]).1.is_none());
}

#[test]
fn case_l_groups_of_512() {
    let along = |place: usize| match place {
        0 => 134_217_728.0,
        1..512 => 0.0,
        _ => 1.0,
    };
    let matches: Vec<PlaneMatch> = (0..515)
        .map(|place| PlaneMatch {
            point: Vector3::new(along(place), 0.0, 0.0),
            plane: Plane {
                normal: Vector3::x(),
                offset: 0.0,
            },
            sigma: 1.0,
        })
        .collect();
    let factor = LidarMapPlanesFactor::<Affine<1>>::new(matches).unwrap();
    let cost = factor.accumulate_normal(&[&state()], None);
    assert_eq!(cost, Some(18_014_398_509_481_988.0));
}

#[test]
fn the_factor_in_whole_numbers() {
    let frame = [
        4.0, 1.0, 1.0, 0.0, 4.0, 0.0, 0.0, 0.0, 4.0, 0.0, 0.0, 0.0, 0.0,
    ];
    let factor = beside::of_centred::<Affine<1>>(&[frame], None, 0.5);
    let params = state();
    let fit = along_axes([0.0, 1.0, 2.0]);
    let mut hessian = DMatrix::from_fn(1, 1, |_, _| 0.0);
    let mut gradient = DVector::from_fn(1, |_, _| 0.0);
    eigen::hand_in([fit]);
    let mut blocks = NormalBlocks::new(&mut hessian, &mut gradient, &[0]);
    let cost = factor.accumulate_normal(&[&params], Some(&mut blocks));
    assert_eq!(cost, Some(16.0));
    assert_eq!((hessian[(0, 0)], gradient[0]), (272.0, 16.0));

    eigen::hand_in([fit, along_axes([4.0, 4.0, 0.0])]);
    let (mut residual, mut jacobian) = ([7.0; 8], [7.0; 8]);
    factor.linearize(
        &[&params],
        &mut residual,
        Some(MatMut::of(8, 1, &mut jacobian)),
    );
    assert_eq!(residual, [4.0, 0.0, 0.0, 0.0, 0.0, 0.0, 0.0, 0.0]);
    assert_eq!(jacobian, [4.0, 0.0, 0.0, 16.0, 0.0, 0.0, 0.0, 0.0]);
}

/// The corners and a fixed point five metres above their middle.
fn lifted_corners() -> Vec<Vector3<f64>> {
    [&corner_points()[..], &[Vector3::new(1.0, 1.0, 5.0)]].concat()
}

#[test]
fn centroid_and_scatter_of_a_bundle() {
    eigen::hand_in([along_axes([0.0, 1.0, 2.0])]);
    let (normal, centroid) = fit_plane_pca(&lifted_corners()).unwrap();
    assert_eq!(normal, Vector3::x());
    assert_eq!(centroid, Vector3::new(1.0, 1.0, 1.0));
    assert_eq!(
        eigen::taken()[0].matrix,
        [0.8, 0.0, 0.0, 0.0, 0.8, 0.0, 0.0, 0.0, 4.0]
    );
}

#[test]
fn the_gap_rule_of_a_bundle() {
    let normal = |values: [f64; 3]| {
        eigen::hand_in([along_axes(values)]);
        fit_plane_pca(&lifted_corners()).map(|(normal, _)| normal)
    };
    assert_eq!(normal([0.0, 1e-12, 1.0]), Some(Vector3::x()));
    assert_eq!(normal([0.0, 9e-13, 1.0]), None);
    assert_eq!(normal([0.0, f64::NAN.abs(), 1.0]), Some(Vector3::x()));
    // The gap is a NaN, which is not less than the bound.
    assert_eq!(normal([0.0, -f64::NAN.abs(), 1.0]), Some(Vector3::y()));
}

/// The factor of a bundle whose scanner's frame is the body's, with a sigma of a half.
fn bundle(points: &[&[Vector3<f64>]], fixed: &[Vector3<f64>]) -> LidarPlaneBundleFactor<Affine<1>> {
    let unmoved = SE3::from_param_slice(&[0.0, 0.0, 0.0, 1.0, 0.0, 0.0, 0.0]);
    let points = points.iter().map(|points| points.to_vec()).collect();
    LidarPlaneBundleFactor::new(unmoved, points, fixed.to_vec(), 0.5).unwrap()
}

#[test]
fn the_bundle_in_whole_numbers() {
    let points = lifted_corners();
    let factor = bundle(&[&points[..2], &points[2..4]], &points[4..]);
    let params = state();
    let (mut residual, mut jacobian) = ([7.0; 5], [7.0; 10]);
    let mut linearize = |values: [f64; 3]| {
        eigen::hand_in([along_axes(values)]);
        let view = MatMut::of(5, 2, &mut jacobian);
        factor.linearize(&[&params, &params], &mut residual, Some(view));
        (residual, jacobian)
    };
    // Along x the points are 1 off the centroid, and their columns are 3 and 5.
    let (residual, jacobian) = linearize([0.0, 1.0, 2.0]);
    assert_eq!(residual, [-2.0, 2.0, -2.0, 2.0, 0.0]);
    assert_eq!(jacobian[..5], [6.0, 10.0, 0.0, 0.0, 0.0]);
    assert_eq!(jacobian[5..], [0.0, 0.0, 6.0, 10.0, 0.0]);
    assert_eq!(linearize([1.0, 1.0, 1.0]), ([0.0; 5], [0.0; 10]));
}

#[test]
fn a_bundle_is_tested_before_its_points_are_in_the_site() {
    let far = [Vector3::new(1.5e308, 0.0, 0.0); 3];
    let mut doubling = state();
    doubling[0] = 2.0;
    let factor = bundle(&[&far], &[]);
    let mut residual = [7.0; 3];
    eigen::hand_in([along_axes([0.0, 1.0, 2.0])]);
    factor.linearize(&[&doubling], &mut residual, None);
    assert!(residual.iter().all(|number| number.is_nan()));
    let site = [f64::INFINITY, 0.0, 0.0].repeat(3);
    let refused = bundle_fit(&[3], &site, &[], &mut [0.0; 12]);
    assert_eq!(refused, Err(Refusal::NotFinite));
}

/// Has blocks at these offsets, in a Hessian and a gradient of order n that hold a number everywhere, lent after some steps,
/// and hands back what they hold then.
fn lent(
    n: usize,
    first: f64,
    offsets: &[usize],
    steps: &[Step],
    work: impl FnOnce(&mut NormalBlocks<'_>),
) -> (Vec<f64>, Vec<f64>) {
    let mut hessian = DMatrix::from_fn(n, n, |_, _| first);
    let mut gradient = DVector::from_fn(n, |_, _| first);
    let mut blocks = NormalBlocks::new(&mut hessian, &mut gradient, offsets);
    stepped(&mut blocks, steps, work);
    (hessian.as_slice().to_vec(), gradient.as_slice().to_vec())
}

/// Accumulates one frame at an offset into a Hessian of order n, by a fit with these eigenvalues.
fn accumulated<G: ActsOnPoints3 + Send + Sync + 'static>(
    params: &[f64],
    values: [f64; 3],
    n: usize,
    offset: usize,
    steps: &[Step],
) -> Option<f64> {
    let factor = beside::of_centred::<G>(&[[4.0; 13]], None, 1.0);
    eigen::hand_in([along_axes(values)]);
    let mut cost = None;
    lent(n, 0.0, &[offset], steps, |blocks| {
        cost = factor.accumulate_normal(&[params], Some(blocks));
    });
    cost
}

#[test]
#[should_panic(expected = "out of bounds")]
fn a_segment_past_the_end_panics() {
    accumulated::<Affine<1>>(&state(), [0.0, 1.0, 2.0], 1, 1, &[]);
}

#[test]
fn without_a_plane_or_a_parameter_it_does_not() {
    let cost = accumulated::<Affine<1>>(&state(), [1.0, 1.0, 1.0], 1, 1, &[]);
    assert_eq!(cost, Some(0.0));
    assert!(accumulated::<Affine<0>>(&state()[..12], [0.0, 1.0, 2.0], 0, 1, &[]).is_some());
}

/// A pose's frame, whose block loses its last column, accumulated into a Hessian of order n.
fn without_a_column(n: usize) -> Option<f64> {
    let pose = [0.0, 0.0, 0.0, 1.0, 0.0, 0.0, 0.0];
    let locked = DMatrix::from_fn(6, 5, |row, column| f64::from(u8::from(row == column)));
    let steps = [Step::Transformed(0, locked)];
    accumulated::<SE3>(&pose, [0.0, 1.0, 2.0], n, 0, &steps)
}

#[test]
fn a_segment_is_as_wide_as_its_transform() {
    assert!(without_a_column(5).is_some());
}

#[test]
#[should_panic(expected = "out of bounds")]
fn a_transformed_segment_past_the_end_panics() {
    without_a_column(4);
}

/// A step that transforms block 0 by columns of this many rows.
fn by(rows: usize, columns: &[f64]) -> Step {
    let matrix = match rows {
        0 => DMatrix::from_fn(0, 1, |_, _| 0.0),
        _ => DMatrix::from_column_slice(rows, columns.len() / rows, columns),
    };
    Step::Transformed(0, matrix)
}

/// What a block and a vector come to as block 0, at the start of a Hessian and a gradient of order 1 that hold this number.
fn through(steps: &[Step], first: f64, block: &[f64], vector: &[f64]) -> (f64, f64) {
    let dof = vector.len();
    let (hessian, gradient) = lent(1, first, &[0], steps, |blocks| {
        blocks.add_hessian(0, 0, &DMatrix::from_column_slice(dof, dof, block));
        blocks.add_gradient(0, &DVector::from_column_slice(vector));
    });
    (hessian[0], gradient[0])
}

#[test]
fn a_transform_in_whole_numbers() {
    let (m, steps) = ([1.0, 4.0, 3.0, 5.0], [by(2, &[1.0, 2.0])]);
    assert_eq!(through(&steps, 0.0, &m, &[5.0, 6.0]), (35.0, 17.0));
    // The left product alone, where the block's columns are those of another that is not transformed.
    let (hessian, _) = lent(3, 0.0, &[0, 1], &steps, |blocks| {
        blocks.add_hessian(0, 1, &DMatrix::from_column_slice(2, 2, &m));
    });
    assert_eq!(hessian, [0.0, 0.0, 0.0, 9.0, 0.0, 0.0, 13.0, 0.0, 0.0]);
}

/// From here on whole numbers are no longer all there: one more rounds back to it.
const WHOLE: f64 = 9_007_199_254_740_992.0;

#[test]
fn the_left_product_comes_first() {
    // The left one is (WHOLE, 1 - WHOLE). With the right one first, (0, 2), the block would come to 2.
    let m = [WHOLE, 1.0, -WHOLE, 1.0];
    let (hessian, _) = through(&[by(2, &[1.0, 1.0])], 0.0, &m, &[0.0, 0.0]);
    assert_eq!(hessian, 1.0);
}

#[test]
fn products_are_added_in_rising_index() {
    // From the last one on the sum would be 1.
    let steps = [by(3, &[1.0, 1.0, 1.0]), by(1, &[WHOLE, 1.0, -WHOLE])];
    let (_, gradient) = through(&steps[..1], 0.0, &[0.0; 9], &[WHOLE, 1.0, -WHOLE]);
    assert_eq!(gradient, 0.0);
    let (_, gradient) = through(&steps, 5.0, &[0.0], &[1.0]);
    assert_eq!(gradient, 5.0);
}

#[test]
fn each_product_is_rounded_before_it_is_added() {
    // The square of `more` rounds to `twice`; what it rounds away would be seen in a fused sum.
    let (more, twice) = (1.0 + 2f64.powi(-30), 1.0 + 2f64.powi(-29));
    let steps = [by(2, &[-1.0, more])];
    let sums = through(&steps, 0.0, &[twice, more, more, 1.0], &[twice, more]);
    assert_eq!(sums, (0.0, 0.0));
}

#[test]
fn the_sign_of_a_zero() {
    let bits = |steps: &[Step], block: &[f64], vector: &[f64]| {
        let (hessian, gradient) = through(steps, -0.0, block, vector);
        [hessian.is_sign_negative(), gradient.is_sign_negative()]
    };
    // A sum of no products is +0, which turns a cell of -0 into +0; one of products that are -0 is -0.
    assert_eq!(bits(&[by(0, &[])], &[], &[]), [false; 2]);
    let zeros = [-0.0; 4];
    assert_eq!(bits(&[by(2, &[1.0, 1.0])], &zeros, &zeros[..2]), [true; 2]);
    assert_eq!(bits(&[by(1, &[-0.0])], &[1.0], &[1.0]), [false, true]);
}

#[test]
fn a_further_transform_multiplies_from_the_left() {
    let steps = [
        by(2, &[1.0, 2.0]),
        by(3, &[1.0, 0.0, 2.0, 0.0, 1.0, 1.0]),
        Step::Remapped(vec![None, Some(0)]),
    ];
    let (hessian, _) = lent(1, 0.0, &[0], &steps, |blocks| {
        let transforms = of_blocks::transforms(blocks);
        let product = DMatrix::from_column_slice(3, 1, &[1.0, 2.0, 4.0]);
        assert_eq!(transforms, [None, Some(product)]);
        let ones = DMatrix::from_fn(3, 3, |_, _| 1.0);
        blocks.add_hessian(0, 0, &ones);
        blocks.add_hessian(1, 1, &ones);
    });
    assert_eq!(hessian, [49.0]);
}

/// A set of that many points, all at the origin.
fn at_origin(count: f64) -> PointMoments {
    PointMoments {
        count,
        ..PointMoments::default()
    }
}

/// The same as a record.
fn record_at_origin(count: f64) -> [f64; 13] {
    std::array::from_fn(|place| if place == 0 { count } else { 0.0 })
}

#[test]
fn a_saturated_count_stands_still_and_is_refused() {
    let mut set = at_origin(WHOLE);
    set.push(&Vector3::zeros());
    assert_eq!(set.count, WHOLE);
    let mut record = record_at_origin(WHOLE);
    let refused = moments_push(&mut record, &[0.0; 3]).map_err(Refusal::number);
    assert_eq!((refused, record), (Err(15), record_at_origin(WHOLE)));
    // The exact sum is above 2^53, the rounded one is not.
    for [count, other] in [[WHOLE, 5e-324], [WHOLE - 1.0, 1.5]] {
        let mut set = at_origin(count);
        set.merge(&at_origin(other));
        assert_eq!(set.count, WHOLE);
        let mut record = record_at_origin(count);
        let refused = moments_merge(&mut record, &record_at_origin(other)).map_err(Refusal::number);
        assert_eq!((refused, record), (Err(15), record_at_origin(count)));
    }
}

#[test]
fn counts_about_2_to_the_53_are_refused_and_taken() {
    let job = JOBS.iter().find(|job| job.name == "counts").unwrap();
    let mut cases: Vec<Case> = Vec::new();
    for seed in 0..300 {
        (job.run)(&mut Generator::new(seed), &mut cases);
    }
    for name in ["moments_push", "moments_merge"] {
        for (label, answer) in [("taken", 0), ("refused", 15)] {
            let kind = format!("near 2^53 {label}");
            let found = cases.iter().filter(|case| {
                case.call.name == name && case.kind == kind && case.answer == answer
            });
            assert!(found.count() > 30, "{name} {kind}");
        }
        // A length is wrong too.
        let spoilt = cases.iter().filter(|case| {
            let Value::Numbers(set) = &case.before[0] else {
                panic!("moments are numbers")
            };
            case.call.name == name && case.answer == 3 && set[0] > WHOLE
        });
        assert!(spoilt.count() > 5, "{name}");
    }
}

#[test]
fn a_plane_whose_norm_overflows_is_refused() {
    assert!(Plane::new(Vector3::new(1e200, 0.0, 0.0), 0.0).is_err());
}

#[test]
fn no_variance_has_no_deviation() {
    let plane = Plane {
        normal: Vector3::x(),
        offset: 0.0,
    };
    let zeros = Matrix3::zeros();
    let none = point_to_plane_sigma(
        &plane,
        &Vector3::zeros(),
        &nalgebra::SMatrix::zeros(),
        &zeros,
        &Vector3::zeros(),
        &zeros,
    );
    assert_eq!(none, None);
}

#[test]
fn affine_maps_act_as_their_parameters_say() {
    let moved =
        Affine::<1>::from_param_slice(&state()).act(&Vector3::new(2.0, 5.0, 0.0), None, None);
    assert_eq!(moved, Vector3::new(2.0, 5.0, 0.0));
}

/// The least bit of a number changed; a NaN becomes 1.
fn wrong(number: f64) -> f64 {
    if number.is_nan() {
        1.0
    } else {
        f64::from_bits(number.to_bits() ^ 1)
    }
}

#[test]
fn a_wrong_bit_anywhere_is_seen() {
    let mut seen = 0;
    for job in JOBS {
        for seed in 0..40 {
            let mut cases: Vec<Case> = Vec::new();
            (job.run)(&mut Generator::new(seed), &mut cases);
            for case in &mut cases {
                assert!(case.difference().is_none(), "{}", case.description());
                let spoilt = case.after.iter_mut().find_map(|after| match after {
                    After::Numbers(cells) => cells.iter_mut().rev().find_map(|cell| match cell {
                        Cell::Is(number) => Some(number),
                        _ => None,
                    }),
                    _ => None,
                });
                match spoilt {
                    Some(number) => *number = wrong(*number),
                    None => case.answer ^= 1,
                }
                assert!(case.difference().is_some(), "{}", case.description());
                seen += 1;
            }
        }
    }
    assert!(seen > 300);
}
