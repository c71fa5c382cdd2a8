//! `Plane::new` and `point_to_plane_sigma` on numbers whose answers are known.

use maghnelt::{point_to_plane_sigma, Plane, Refusal};

const UNIT: [[f64; 3]; 3] = [[1.0, 0.0, 0.0], [0.0, 1.0, 0.0], [0.0, 0.0, 1.0]];
const FLOOR: Plane = Plane {
    normal: [0.0, 0.0, 1.0],
    offset: 0.0,
};

#[test]
fn normal_and_offset_are_divided_by_the_length() {
    let plane = Plane::new([0.0, -3.0, 4.0], 10.0).unwrap();
    assert_eq!(plane.normal, [0.0, -0.6, 0.8]);
    assert_eq!(plane.offset, 2.0);
}

#[test]
fn normals_that_are_refused() {
    for normal in [
        [0.0; 3],
        [1e-13, 0.0, 0.0],
        // The squares underflow and overflow.
        [1e-200, 0.0, 0.0],
        [1e200, 0.0, 0.0],
        [f64::INFINITY, 0.0, 0.0],
        [1.0, f64::NAN, 1.0],
    ] {
        assert_eq!(Plane::new(normal, 1.0), Err(Refusal::Normal), "{normal:?}");
    }
}

#[test]
fn a_length_of_1e_12_is_not_above_it() {
    let least = 1e-12f64;
    // The root of the rounded square is the number itself, so that it is exactly at the limit.
    assert_eq!((least * least).sqrt(), least);
    assert_eq!(Plane::new([0.0, least, 0.0], 1.0), Err(Refusal::Normal));
    let above = f64::from_bits(least.to_bits() + 1);
    assert_eq!(
        Plane::new([0.0, -above, 0.0], 1.0).unwrap().normal,
        [0.0, -1.0, 0.0]
    );
}

#[test]
fn any_offset_is_taken() {
    let offset = |offset| Plane::new([2.0, 0.0, 0.0], offset).unwrap().offset;
    assert_eq!(offset(-0.0).to_bits(), (-0.0f64).to_bits());
    assert_eq!(offset(f64::INFINITY), f64::INFINITY);
    assert!(offset(f64::NAN).is_nan());
}

/// The deviation one metre along x from the plane's centroid, for a plane covariance alone.
fn of_plane(covariance: &[[f64; 6]; 6]) -> Result<f64, Refusal> {
    let none = [[0.0; 3]; 3];
    point_to_plane_sigma(
        &FLOOR,
        &[1.0, 2.0, 3.0],
        covariance,
        &none,
        &[2.0, 2.0, 3.0],
        &UNIT,
    )
}

/// The deviation for a point covariance alone.
fn of_point(covariance: &[[f64; 3]; 3], a: &[[f64; 3]; 3]) -> Result<f64, Refusal> {
    let none = [[0.0; 6]; 6];
    point_to_plane_sigma(&FLOOR, &[0.0; 3], &none, covariance, &[0.0; 3], a)
}

#[test]
fn normal_and_centroid_pull_against_each_other() {
    let mut covariance = [[0.0; 6]; 6];
    covariance[0][0] = 3.0;
    covariance[5][5] = 3.0;
    covariance[0][5] = 1.0;
    covariance[5][0] = 1.0;
    // j is (1, 0, 0, 0, 0, -1): 3 - 1 - 1 + 3.
    assert_eq!(of_plane(&covariance), Ok(2.0));
}

#[test]
fn the_point_is_turned_into_the_site() {
    let covariance = [[9.0, 0.0, 0.0], [0.0, 4.0, 0.0], [0.0, 0.0, 1.0]];
    assert_eq!(of_point(&covariance, &UNIT), Ok(1.0));
    // x goes to y, y to z, z to x: the site's z is the scanner's y.
    let turn = [[0.0, 1.0, 0.0], [0.0, 0.0, 1.0], [1.0, 0.0, 0.0]];
    assert_eq!(of_point(&covariance, &turn), Ok(2.0));
}

#[test]
fn variances_that_are_refused() {
    let of_z = |variance| {
        let mut covariance = [[0.0; 3]; 3];
        covariance[2][2] = variance;
        of_point(&covariance, &UNIT)
    };
    for variance in [0.0, -1.0, f64::INFINITY, f64::NEG_INFINITY, f64::NAN] {
        assert_eq!(of_z(variance), Err(Refusal::Variance), "{variance}");
    }
    assert_eq!(
        of_z(f64::from_bits(1)),
        Ok(f64::from_bits(0x1E60_0000_0000_0000))
    );
}
