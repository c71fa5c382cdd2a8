//! Planes made of a normal and an offset, against the model.

use crate::draws::{numbers, old, within};
use crate::generator::Generator;
use crate::lent::{number, Call, Comparison};
use crate::model::plane as model;
use crate::patterns;
use crate::report::Report;
use maghnelt::{slices as library, PLANE};

/// The length that a normal must pass.
const LIMIT: f64 = 1e-12;

/// Compares the library.
pub fn run(generator: &mut Generator, count: u64, report: &mut Report) {
    let call = |[normal, offset, plane]: [&mut [f64]; 3], _: &mut u32| {
        number(library::plane_new(normal, offset[0], plane))
    };
    compare(&call, generator, count, report);
}

fn compare(call: &Call<'_, 3>, generator: &mut Generator, count: u64, report: &mut Report) {
    let model = model::plane_new_call(model::plane_new);
    let mut comparison =
        Comparison::new("plane_new", ["normal", "offset", "plane"], 2, call, &model);
    comparison.check_lengths([Some(3), None, Some(PLANE)], generator, report);
    for normal in at_the_limit() {
        let offset = [within(-10.0, 10.0, generator)];
        comparison.check([&normal, &offset, &old(PLANE, generator)], report);
    }
    while report.cases() < count {
        let normal = some_normal(generator);
        let offset = [f64::from_bits(patterns::random(generator))];
        comparison.check([&normal, &offset, &old(PLANE, generator)], report);
    }
}

/// Normals along an axis whose length is the limit or a few numbers off.
fn at_the_limit() -> impl Iterator<Item = [f64; 3]> {
    (-8..=8).flat_map(|step| {
        let length = f64::from_bits(LIMIT.to_bits().wrapping_add_signed(step));
        (0..3).map(move |axis| {
            let mut normal = [0.0, -0.0, 0.0];
            normal[axis] = if step % 2 == 0 { length } else { -length };
            normal
        })
    })
}

/// A normal of a length near 1, or near the limit, or of any numbers.
fn some_normal(generator: &mut Generator) -> [f64; 3] {
    let size = match generator.below(3) {
        0 => 1.0,
        1 => LIMIT * 1.2,
        _ => return numbers(generator),
    };
    std::array::from_fn(|_| within(-size, size, generator))
}

#[cfg(test)]
mod tests {
    use super::*;
    use crate::model::{dot, vector, Vector};

    fn mismatches(call: &Call<'_, 3>) -> u64 {
        let mut report = Report::new("plane_new");
        compare(call, &mut Generator::new(1), 20_000, &mut report);
        report.mismatches()
    }

    fn with(plane_new: fn(Vector, f64) -> Option<(Vector, f64)>) -> u64 {
        mismatches(&model::plane_new_call(plane_new))
    }

    fn norm(normal: Vector) -> f64 {
        dot(normal, normal).sqrt()
    }

    fn divided(normal: Vector, offset: f64, norm: f64) -> (Vector, f64) {
        (vector(|r| normal[r] / norm), offset / norm)
    }

    #[test]
    fn the_model_itself_passes() {
        assert_eq!(with(model::plane_new), 0);
    }

    #[test]
    fn a_length_at_the_limit_that_passes_is_found() {
        assert!(
            with(|normal, offset| {
                let norm = norm(normal);
                let usable = norm.is_finite() && norm >= LIMIT;
                usable.then(|| divided(normal, offset, norm))
            }) > 0
        );
    }

    #[test]
    fn an_infinite_or_nan_length_that_passes_is_found() {
        for usable in [(|norm| norm > LIMIT) as fn(f64) -> bool, |norm| {
            norm > LIMIT && norm != f64::INFINITY || norm.is_nan()
        }] {
            let call = model::plane_new_call(|normal, offset| {
                let norm = norm(normal);
                usable(norm).then(|| divided(normal, offset, norm))
            });
            assert!(mismatches(&call) > 0);
        }
    }

    #[test]
    fn an_offset_that_is_not_divided_is_found() {
        assert!(
            with(|normal, offset| {
                model::plane_new(normal, offset).map(|(normal, _)| (normal, offset))
            }) > 0
        );
    }

    #[test]
    fn an_offset_that_is_tested_is_found() {
        assert!(
            with(|normal, offset| {
                model::plane_new(normal, offset).filter(|_| offset.is_finite())
            }) > 0
        );
    }

    #[test]
    fn a_length_that_is_scaled_is_found() {
        assert!(
            with(|normal, offset| {
                let [x, y, z] = normal;
                let norm = x.hypot(y).hypot(z);
                let usable = norm.is_finite() && norm > LIMIT;
                usable.then(|| divided(normal, offset, norm))
            }) > 0
        );
    }

    #[test]
    fn a_product_with_the_reciprocal_is_found() {
        assert!(
            with(|normal, offset| {
                let reciprocal = 1.0 / norm(normal);
                model::plane_new(normal, offset)
                    .map(|_| (normal.map(|x| x * reciprocal), offset * reciprocal))
            }) > 0
        );
    }
}
