//! The plane of moments with a decomposition handed in, against the model.

use crate::draws::{numbers, old, record, record_of, Wall};
use crate::generator::Generator;
use crate::lent::{number, Call, Comparison};
use crate::model::moments as model;
use crate::patterns::{self, SIGN};
use crate::report::Report;
use crate::scenes::turning_eigenvalues;
use maghnelt::{slices as library, DECOMPOSITION, MOMENTS};

/// The least gap that is accepted.
const GAP: f64 = 1e-14;

/// Compares the library.
pub fn run(generator: &mut Generator, count: u64, report: &mut Report) {
    let call = |[moments, decomposition, out]: [&mut [f64]; 3], found: &mut u32| {
        number(library::moments_plane(moments, decomposition, out, found))
    };
    compare(&call, generator, count, report);
}

fn compare(call: &Call<'_, 3>, generator: &mut Generator, count: u64, report: &mut Report) {
    let model = model::plane_call(model::plane);
    let mut comparison = Comparison::new(
        "moments_plane",
        ["moments", "decomposition", "out"],
        2,
        call,
        &model,
    );
    let right = [Some(MOMENTS), Some(DECOMPOSITION), Some(7)];
    comparison.check_lengths(right, generator, report);
    for eigenvalues in turning_eigenvalues(GAPS) {
        let mut decomposition = numbers::<DECOMPOSITION>(generator);
        decomposition[..3].copy_from_slice(&eigenvalues);
        let moments = record_of(&Wall::random(generator), generator);
        comparison.check([&moments, &decomposition, &old(7, generator)], report);
    }
    while report.cases() < count {
        let wall = Wall::random(generator);
        let moments = match generator.below(2) {
            0 => record_of(&wall, generator),
            _ => record(generator),
        };
        let decomposition = some_decomposition(&wall, generator);
        comparison.check([&moments, &decomposition, &old(7, generator)], report);
    }
}

/// The patterns about the least gap of moments: just below 1e-14, 1e-14, and twice that.
const GAPS: [u64; 3] = [
    0x3D06_849B_86A1_2B9A,
    0x3D06_849B_86A1_2B9B,
    0x3D16_849B_86A1_2B9B,
];

/// The axes and mean squares of a wall in any order; or any vectors, with eigenvalues that are equal, close to each
/// other or of any kind.
fn some_decomposition(wall: &Wall, generator: &mut Generator) -> [f64; DECOMPOSITION] {
    let mut decomposition = numbers(generator);
    if generator.below(2) == 0 {
        let first = generator.below(3) as usize;
        for k in 0..3 {
            let axis = (first + k) % 3;
            decomposition[k] = wall.eigenvalues()[axis];
            decomposition[3 + 3 * k..6 + 3 * k].copy_from_slice(&wall.axes[axis]);
        }
    }
    if generator.below(2) == 0 {
        let [from, to] = [0, 0].map(|_: usize| generator.below(3) as usize);
        decomposition[to] = related(decomposition[from], generator);
    }
    decomposition
}

/// An eigenvalue that is equal to another, or about the least gap away, or of the other sign, or special.
fn related(x: f64, generator: &mut Generator) -> f64 {
    let special = patterns::special();
    match generator.below(6) {
        0 => x,
        1 => x + GAP,
        2 => x - GAP,
        3 => f64::from_bits(
            (x + GAP)
                .to_bits()
                .wrapping_add_signed(generator.between(-2, 2)),
        ),
        4 => f64::from_bits(x.to_bits() ^ SIGN),
        _ => f64::from_bits(generator.pick(&special)),
    }
}

#[cfg(test)]
mod tests {
    use super::*;
    use crate::model::dot;
    use model::{Decomposition, Fitted, Moments};

    fn mismatches(call: &Call<'_, 3>) -> u64 {
        let mut report = Report::new("moments_plane");
        compare(call, &mut Generator::new(1), 20_000, &mut report);
        report.mismatches()
    }

    fn with(plane: impl Fn(Moments, &Decomposition) -> Option<Fitted>) -> u64 {
        mismatches(&model::plane_call(plane))
    }

    /// The model with another rule for the gap, which gets the eigenvalues in rising order, and another order.
    fn with_rules(none: fn([f64; 3]) -> bool, order: fn(&Decomposition) -> [usize; 3]) -> u64 {
        with(move |moments, decomposition| {
            if moments.count < 3.0 {
                return None;
            }
            let (mean, _) = model::mean_and_scatter(moments)?;
            let order = order(decomposition);
            let eigenvalues = order.map(|k| f64::from_bits(decomposition.eigenvalues[k]));
            if none(eigenvalues) {
                return None;
            }
            let normal = decomposition.vectors[order[0]];
            Some(Fitted {
                normal,
                offset: -dot(normal, mean),
                eigenvalues,
            })
        })
    }

    fn right_gap(values: [f64; 3]) -> bool {
        values[1] - values[0] < GAP
    }

    #[test]
    fn the_model_itself_passes() {
        assert_eq!(with(model::plane), 0);
        assert_eq!(with_rules(right_gap, Decomposition::order), 0);
    }

    #[test]
    fn other_gap_rules_are_found() {
        let least_is_none = |values: [f64; 3]| values[1] - values[0] <= GAP;
        // With these two a NaN gap is none.
        let nan_is_none = |values: [f64; 3]| !matches!(values[1] - values[0], gap if gap >= GAP);
        let of_the_fit = |values: [f64; 3]| {
            let largest = values[2].abs().max(1.0);
            !matches!(values[1] - values[0], gap if gap > GAP * largest)
        };
        let of_the_fit_with_nan =
            |values: [f64; 3]| values[1] - values[0] <= GAP * values[2].abs().max(1.0);
        for rule in [least_is_none, nan_is_none, of_the_fit, of_the_fit_with_nan] {
            assert!(with_rules(rule, Decomposition::order) > 0);
        }
    }

    #[test]
    fn other_orders_are_found() {
        let by_value = |decomposition: &Decomposition| {
            let values = decomposition.eigenvalues.map(f64::from_bits);
            let mut order = [0, 1, 2];
            order.sort_by(|&i: &usize, &j: &usize| {
                values[i]
                    .partial_cmp(&values[j])
                    .unwrap_or_else(|| i.cmp(&j))
            });
            order
        };
        let by_bits = |decomposition: &Decomposition| {
            let mut order = [0, 1, 2];
            order.sort_by_key(|&k: &usize| decomposition.eigenvalues[k] as i64);
            order
        };
        let equal_ones_falling = |decomposition: &Decomposition| {
            let mut order = [2, 1, 0];
            order.sort_by_key(|&k| maghnelt::total_order_key(decomposition.eigenvalues[k]));
            order
        };
        let not_sorted = |_: &Decomposition| [0, 1, 2];
        for order in [by_value, by_bits, equal_ones_falling, not_sorted] {
            assert!(with_rules(right_gap, order) > 0);
        }
    }

    #[test]
    fn other_counts_are_found() {
        let with_count = |enough: fn(f64) -> bool| {
            with(move |moments, decomposition| {
                let count = if enough(moments.count) {
                    f64::INFINITY
                } else {
                    0.0
                };
                // Only the answer's being there depends on this count.
                let found = model::plane(Moments { count, ..moments }, decomposition)?;
                let (mean, _) = model::mean_and_scatter(moments)?;
                let offset = -dot(found.normal, mean);
                Some(Fitted { offset, ..found })
            })
        };
        assert_eq!(with_count(|count| count >= 3.0 || count.is_nan()), 0);
        assert!(with_count(|count| count >= 3.0) > 0);
        assert!(with_count(|count| count > 3.0 || count.is_nan()) > 0);
        assert!(with_count(|count| count > 2.0 || count.is_nan()) > 0);
        assert!(with_count(|_| true) > 0);
    }

    #[test]
    fn an_offset_that_is_taken_from_zero_is_found() {
        assert!(
            with(|moments, decomposition| {
                let found = model::plane(moments, decomposition)?;
                let (mean, _) = model::mean_and_scatter(moments)?;
                let offset = 0.0 - dot(found.normal, mean);
                Some(Fitted { offset, ..found })
            }) > 0
        );
    }

    #[test]
    fn a_normal_that_is_a_row_is_found() {
        assert!(
            with(|moments, decomposition| {
                let found = model::plane(moments, decomposition)?;
                let first = decomposition.order()[0];
                let normal = decomposition.vectors.map(|vector| vector[first]);
                Some(Fitted { normal, ..found })
            }) > 0
        );
    }
}
