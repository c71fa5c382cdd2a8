//! Moments whose numbers are known, compared by bits.

use maghnelt::{Decomposition, Moments, MAX_POINTS, MOMENTS};

const UNIT: [[f64; 3]; 3] = [[1.0, 0.0, 0.0], [0.0, 1.0, 0.0], [0.0, 0.0, 1.0]];
const CORNERS: [[f64; 3]; 4] = [
    [0.0, 0.0, 0.0],
    [2.0, 0.0, 0.0],
    [0.0, 2.0, 0.0],
    [2.0, 2.0, 0.0],
];

fn moments(points: &[[f64; 3]]) -> Moments {
    Moments::from_points(points).unwrap()
}

fn bits<const N: usize>(numbers: [f64; N]) -> [u64; N] {
    numbers.map(f64::to_bits)
}

/// The empty set with another count.
fn with_count(count: f64) -> Moments {
    let mut record = *Moments::EMPTY.as_array();
    record[0] = count;
    Moments::from(record)
}

/// The sums of two records, number by number.
fn sums(first: &Moments, second: &Moments) -> [f64; MOMENTS] {
    std::array::from_fn(|place| first.as_array()[place] + second.as_array()[place])
}

#[test]
fn no_points_are_all_zeros() {
    assert_eq!(bits(*moments(&[]).as_array()), [0; MOMENTS]);
    assert_eq!(bits(Moments::default().into()), [0; MOMENTS]);
}

#[test]
fn one_point() {
    let one = moments(&[[1.0, 2.0, 3.0]]);
    assert_eq!(one.count(), 1.0);
    assert_eq!(one.sum(), [1.0, 2.0, 3.0]);
    assert_eq!(
        one.outer(),
        [[1.0, 2.0, 3.0], [2.0, 4.0, 6.0], [3.0, 6.0, 9.0]]
    );
}

#[test]
fn a_sum_starts_from_plus_zero() {
    assert_eq!(bits(moments(&[[-0.0; 3]]).sum()), [0; 3]);
}

#[test]
fn as_many_points_as_allowed_and_no_more() {
    let points = vec![[1.0, 0.0, 0.0]; MAX_POINTS + 1];
    assert_eq!(moments(&points[1..]).count(), MAX_POINTS as f64);
    assert_eq!(
        Moments::from_points(&points).unwrap_err(),
        maghnelt::Refusal::Length
    );
}

#[test]
fn pushes_are_what_from_points_does() {
    let points = [[0.1, 0.2, 0.3], [-7.5, 1e-3, 40.0], [3.3, -0.0, 1e9]];
    let mut pushed = Moments::EMPTY;
    for point in &points {
        pushed.push(point).unwrap();
    }
    assert_eq!(bits(pushed.into()), bits(moments(&points).into()));
}

#[test]
fn a_push_adds_to_what_is_there() {
    let before = Moments::from(std::array::from_fn(|place| 100.0 * place as f64));
    let mut pushed = before;
    pushed.push(&[1.0, 2.0, 3.0]).unwrap();
    assert_eq!(
        *pushed.as_array(),
        sums(&before, &moments(&[[1.0, 2.0, 3.0]]))
    );
}

#[test]
fn a_merge_adds_number_by_number() {
    let first = Moments::from(std::array::from_fn(|place| place as f64));
    let second = Moments::from(std::array::from_fn(|place| 0.1 / (1 + place) as f64));
    let mut merged = first;
    merged.merge(&second).unwrap();
    assert_eq!(*merged.as_array(), sums(&first, &second));
}

#[test]
fn corners_moved_up() {
    let up = moments(&CORNERS).transformed(&UNIT, &[0.0, 0.0, 5.0]);
    assert_eq!(up.count(), 4.0);
    assert_eq!(up.sum(), [4.0, 4.0, 20.0]);
    assert_eq!(up.outer()[0][2], 20.0);
    assert_eq!(up.outer()[2][0], 20.0);
    assert_eq!(up.outer()[2][2], 100.0);
}

#[test]
fn a_move_takes_the_columns_for_columns() {
    // x goes to 2y, y to 3z, z to 5x.
    let a = [[0.0, 2.0, 0.0], [0.0, 0.0, 3.0], [5.0, 0.0, 0.0]];
    let moved = moments(&[[1.0, 10.0, 100.0]]).transformed(&a, &[0.5, 0.25, 0.125]);
    assert_eq!(moved, moments(&[[500.5, 2.25, 30.125]]));
}

#[test]
fn mean_and_scatter_of_corners() {
    let found = moments(&CORNERS).mean_and_scatter().unwrap();
    assert_eq!(found.mean, [1.0, 1.0, 0.0]);
    assert_eq!(
        found.scatter,
        [[1.0, 0.0, 0.0], [0.0, 1.0, 0.0], [0.0, 0.0, 0.0]]
    );
}

#[test]
fn the_scatter_is_made_symmetric() {
    let mut record = *moments(&[[0.0; 3]]).as_array();
    // Row 1 of column 0, and not row 0 of column 1.
    record[5] = 3.0;
    let found = Moments::from(record).mean_and_scatter().unwrap();
    assert_eq!(found.scatter[0][1], 1.5);
    assert_eq!(found.scatter[1][0], 1.5);
}

#[test]
fn counts_without_a_mean() {
    for count in [0.0, -0.0, -f64::from_bits(1), -3.0, f64::NEG_INFINITY] {
        assert_eq!(with_count(count).mean_and_scatter(), None, "count {count}");
    }
    for count in [f64::from_bits(1), 0.5, f64::INFINITY] {
        assert!(
            with_count(count).mean_and_scatter().is_some(),
            "count {count}"
        );
    }
}

#[test]
fn a_nan_count_has_a_mean_of_nans() {
    let found = with_count(f64::NAN).mean_and_scatter().unwrap();
    assert!(found.mean.iter().all(|x| x.is_nan()));
    assert!(found.scatter.as_flattened().iter().all(|x| x.is_nan()));
}

fn fitted(count: f64, eigenvalues: [f64; 3]) -> Option<maghnelt::FittedPlane> {
    let vectors = UNIT;
    with_count(count).plane(&Decomposition {
        eigenvalues,
        vectors,
    })
}

#[test]
fn equal_eigenvalues_keep_their_order() {
    let found = fitted(4.0, [1.0, 1.0, 0.0]).unwrap();
    assert_eq!(found.plane.normal, [0.0, 0.0, 1.0]);
    assert_eq!(found.eigenvalues, [0.0, 1.0, 1.0]);
    assert_eq!(
        fitted(4.0, [1.0, 0.0, 1.0]).unwrap().plane.normal,
        [0.0, 1.0, 0.0]
    );
}

#[test]
fn a_small_gap_beside_a_large_eigenvalue_is_accepted() {
    assert!(fitted(4.0, [0.0, 1e-12, 200.0]).is_some());
}

#[test]
fn a_gap_of_1e_14_is_the_least() {
    let least = 1e-14;
    assert!(fitted(4.0, [0.0, least, 1.0]).is_some());
    let below = f64::from_bits(least.to_bits() - 1);
    assert!(fitted(4.0, [0.0, below, 1.0]).is_none());
    assert!(fitted(4.0, [-0.0, 0.0, 1.0]).is_none());
}

#[test]
fn a_nan_gap_passes() {
    // Two infinities, and a NaN that sorts first by its sign.
    assert!(fitted(4.0, [f64::INFINITY, f64::INFINITY, f64::INFINITY]).is_some());
    let minus_nan = f64::from_bits(0xFFF8_0000_0000_0000);
    let found = fitted(4.0, [0.0, minus_nan, 1.0]).unwrap();
    assert_eq!(found.plane.normal, [0.0, 1.0, 0.0]);
    assert!(found.eigenvalues[0].is_nan());
    assert_eq!(found.eigenvalues[1..], [0.0, 1.0]);
}

#[test]
fn three_points_are_the_fewest() {
    let eigenvalues = [0.0, 1.0, 2.0];
    assert!(fitted(3.0, eigenvalues).is_some());
    assert!(fitted(f64::NAN, eigenvalues).is_some());
    for count in [2.999_999_999_999_999_6, 0.0, -0.0, -3.0, f64::NEG_INFINITY] {
        assert!(fitted(count, eigenvalues).is_none(), "count {count}");
    }
}

#[test]
fn the_offset_is_the_negated_product_with_the_mean() {
    let found = moments(&[[1.0, 5.0, 7.0]; 3]);
    let eigenvalues = [2.0, 0.0, 1.0];
    let vectors = UNIT;
    let found = found.plane(&Decomposition {
        eigenvalues,
        vectors,
    });
    assert_eq!(found.unwrap().plane.offset, -5.0);
    // A plane through the origin has the offset -0, since +0 is negated.
    let through_origin = fitted(3.0, [0.0, 1.0, 2.0]).unwrap();
    assert_eq!(through_origin.plane.offset.to_bits(), (-0.0f64).to_bits());
}
