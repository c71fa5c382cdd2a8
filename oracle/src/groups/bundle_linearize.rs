//! Residuals and Jacobians of bundles, against the model.

use crate::bundled::{
    every_length, few_points, limits, some_bundle, turning_numbers, wrong_lengths, Bundled, Length,
};
use crate::called::{each_alone, every_pair, Call, Comparison, Fault, Lent};
use crate::draws::{fill, fill_with, old, within, Size};
use crate::generator::Generator;
use crate::lent::number;
use crate::model::{bundle as model, DOF, LENGTH, MAX_DOF, SIGMA};
use crate::report::Report;
use crate::scenes::{
    bad_sigma, decomposition_about, some_sigma, turning_eigenvalues, GAPS_OF_A_BUNDLE,
};
use maghnelt::{slices as library, DECOMPOSITION};

/// What a call takes; the columns and the outputs are drawn when they are lent.
struct Case {
    dof: u32,
    bundle: Bundled,
    sigma: f64,
    decomposition: Vec<f64>,
    d_state: Length,
    residual: Length,
    jacobian: Length,
}

/// A Jacobian that is not wanted.
const NOT_WANTED: Length = Length::Of(0);

/// A decomposition with a plane, whose vectors are the axes.
const FLOOR: [f64; DECOMPOSITION] = [1.0, 2.0, 0.0, 1.0, 0.0, 0.0, 0.0, 1.0, 0.0, 0.0, 0.0, 1.0];

impl Case {
    fn of(bundle: Bundled, generator: &mut Generator) -> Case {
        let scatter = || model::fit(&bundle.bundle()).1;
        let decomposition = decomposition_about(scatter, |_| 1e-12, generator).to_vec();
        Case {
            dof: generator.below(1 + u64::from(MAX_DOF)) as u32,
            sigma: match generator.below(4) {
                0 => some_sigma(generator),
                _ => within(0.001, 2.0, generator),
            },
            decomposition,
            d_state: Length::Right,
            residual: Length::Right,
            jacobian: match generator.below(4) {
                0 => NOT_WANTED,
                _ => Length::Right,
            },
            bundle,
        }
    }

    /// The columns of a point for which slices are made: those of a dof that is refused are few.
    fn width(&self) -> usize {
        self.dof.min(MAX_DOF + 1) as usize
    }

    /// The length that the Jacobian should have if it is wanted.
    fn cells(&self) -> usize {
        self.bundle.rows() * self.bundle.counts.len() * self.width()
    }

    /// No Jacobian is wanted, nor many columns: of as many points as allowed they would be long.
    fn narrow(&mut self) {
        self.jacobian = NOT_WANTED;
        if self.dof <= MAX_DOF {
            self.dof = self.dof.min(1);
        }
    }

    fn lent(self, generator: &mut Generator) -> Lent<7, 2> {
        let (rows, columns) = (self.bundle.rows(), 3 * self.width() * self.bundle.sites());
        let jacobian = self.jacobian.beside(self.cells());
        let (counts, [points, fixed]) = self.bundle.lent();
        Lent {
            numbers: [
                points,
                some_columns(self.d_state.beside(columns), generator),
                fixed,
                vec![self.sigma],
                self.decomposition,
                old(self.residual.beside(rows), generator),
                old(jacobian, generator),
            ],
            words: [vec![self.dof], counts],
        }
    }
}

/// Columns of points: such as are met, of any size, or any patterns. None is tested.
fn some_columns(length: usize, generator: &mut Generator) -> Vec<f64> {
    let mut columns = vec![0.0; length];
    match generator.below(4) {
        0 | 1 => fill_with(Size::Measured, &mut columns, generator),
        2 => fill(&mut columns, generator),
        _ => return old(length, generator),
    }
    columns
}

/// Compares the library.
pub fn run(generator: &mut Generator, count: u64, report: &mut Report) {
    let call = |numbers: [&mut [f64]; 7], [dof, counts]: [&mut [u32]; 2]| {
        let [points, d_state, fixed, sigma, decomposition, residual, jacobian] = numbers;
        number(library::bundle_linearize(
            dof[0],
            counts,
            points,
            d_state,
            fixed,
            sigma[0],
            decomposition,
            residual,
            jacobian,
        ))
    };
    compare(&call, &[1, 6, MAX_DOF], generator, count, report);
}

/// Takes a case to compare, and what the rest of it is drawn from.
type Check<'a> = dyn FnMut(Case, &mut Generator) + 'a;

/// Compares a call; the cases at the limits, which are long, are made for these dofs.
fn compare(
    call: &Call<'_, 7, 2>,
    dofs_at_limits: &[u32],
    generator: &mut Generator,
    count: u64,
    report: &mut Report,
) {
    let model = model::linearize_call(
        |inputs, residual, jacobian| inputs.refusal(residual, jacobian),
        |inputs| inputs.residual(),
        |inputs| inputs.jacobian(),
    );
    let numbers = [
        "points",
        "d_state",
        "fixed",
        "sigma",
        "decomposition",
        "residual",
        "jacobian",
    ];
    let words = ["dof", "counts"];
    let mut comparison = Comparison::new("bundle_linearize", numbers, words, call, &model);
    let mut check = |case: Case, generator: &mut Generator| {
        comparison.check(&case.lent(generator), report);
    };
    for (counts, fixed) in every_length() {
        let bundle = Bundled::of(counts, fixed, generator);
        check(Case::of(bundle, generator), generator);
    }
    for &dof in dofs_at_limits {
        for (counts, fixed) in limits() {
            check(at_limit(dof, counts, fixed, generator), generator);
        }
    }
    check_turning(&mut check, generator);
    let mut draws = Generator::new(generator.bits());
    for at_limits in [false, !dofs_at_limits.is_empty()] {
        let faults = faults(at_limits);
        each_alone(&faults, accepted, generator, |case| check(case, &mut draws));
        every_pair(&faults, accepted, generator, |case, _| {
            check(case, &mut draws)
        });
    }
    check_random(count, &mut check, generator);
}

/// A bundle at the limits; its Jacobian is wanted where that is not long.
fn at_limit(dof: u32, counts: Vec<u32>, fixed: usize, generator: &mut Generator) -> Case {
    let mut case = Case::of(Bundled::of(counts, fixed, generator), generator);
    case.dof = dof;
    case.jacobian = match case.bundle.rows() * case.bundle.counts.len() {
        0..=100_000 => Length::Right,
        _ => NOT_WANTED,
    };
    case
}

/// Every dof with and without a Jacobian, and eigenvalues and points at which an answer turns.
fn check_turning(check: &mut Check, generator: &mut Generator) {
    for dof in (0..=MAX_DOF).flat_map(|dof| [dof; 10]) {
        for jacobian in [NOT_WANTED, Length::Right] {
            let mut case = accepted(generator);
            (case.dof, case.jacobian) = (dof, jacobian);
            check(case, generator);
        }
    }
    for eigenvalues in turning_eigenvalues(GAPS_OF_A_BUNDLE) {
        let mut case = accepted(generator);
        case.decomposition[..3].copy_from_slice(&eigenvalues);
        check(case, generator);
    }
    for numbers in turning_numbers().flat_map(|numbers| [numbers; 4]) {
        let mut case = Case::of(Bundled::of_numbers(&numbers, generator), generator);
        // The scatter of such points seldom has a plane.
        if generator.below(2) == 0 {
            case.decomposition = FLOOR.to_vec();
        }
        check(case, generator);
    }
}

/// Random cases of so many points in all, of which some are refused.
fn check_random(count: u64, check: &mut Check, generator: &mut Generator) {
    let faults = faults(false);
    let mut work = 0;
    while work < count {
        let mut case = Case::of(some_bundle(generator), generator);
        // The Jacobian grows with the points and the frames.
        work += (2 + case.bundle.rows() + case.cells() / 200) as u64;
        if generator.below(16) == 0 {
            let fault = &faults[generator.below(faults.len() as u64) as usize];
            fault.make(&mut case, generator);
        }
        check(case, generator);
    }
}

fn accepted(generator: &mut Generator) -> Case {
    Case::of(few_points(generator), generator)
}

/// What a call can be refused for; only at the limits with a point too many.
fn faults(at_limits: bool) -> Vec<Fault<Case>> {
    let of_points = Bundled::faults().into_iter();
    let mut faults: Vec<_> = of_points
        .map(|fault| fault.within(|case: &mut Case| &mut case.bundle))
        .collect();
    faults.push(Fault::new(LENGTH, |case: &mut Case, _| {
        case.bundle.with_a_frame_too_many();
        case.narrow();
    }));
    if at_limits {
        faults.push(Fault::new(LENGTH, |case: &mut Case, _| {
            case.bundle.with_a_point_too_many();
            case.narrow();
        }));
    }
    faults.extend(
        [MAX_DOF + 1, 0x5555_5555, u32::MAX]
            .map(|dof| Fault::new(DOF, move |case: &mut Case, _| case.dof = dof)),
    );
    faults.push(Fault::new(SIGMA, |case: &mut Case, generator| {
        case.sigma = bad_sigma(generator);
    }));
    faults.extend(faults_of_lengths());
    faults
}

/// Wrong lengths of what a fit does not take.
fn faults_of_lengths() -> Vec<Fault<Case>> {
    let of = [0, 3, 11, 13, 24].map(Length::Of);
    let mut faults = wrong_lengths(&of, |case: &mut Case, length| {
        case.decomposition.resize(length.beside(DECOMPOSITION), 1.0);
    });
    let off = [-3, -1, 1, 3].map(Length::Off);
    faults.extend(wrong_lengths(&off, |case: &mut Case, length| {
        case.d_state = length;
    }));
    let off = [Length::Of(0), Length::Off(-1), Length::Off(1)];
    faults.extend(wrong_lengths(&off, |case: &mut Case, length| {
        case.residual = length;
    }));
    let off = [-1, 1].map(Length::Off);
    faults.extend(wrong_lengths(&off, |case: &mut Case, length| {
        case.jacobian = length;
    }));
    // A column more, and the columns of one frame.
    faults.push(Fault::new(LENGTH, |case: &mut Case, _| {
        case.jacobian = Length::Off(case.bundle.rows() as isize);
    }));
    faults.push(Fault::new(LENGTH, |case: &mut Case, _| {
        let of_one_frame = case.bundle.rows() * case.width();
        let wrong = of_one_frame != 0 && case.bundle.counts.len() > 1;
        case.jacobian = if wrong {
            Length::Of(of_one_frame)
        } else {
            Length::Off(1)
        };
    }));
    faults
}

#[cfg(test)]
mod tests {
    use super::*;
    use crate::called::{answer, check_faults, ACCEPTED};
    use crate::model::moments::Decomposition;
    use crate::model::{dot, stored_vector, vector, Vector};
    use crate::model::{EMPTY_LIST, FRAME_COUNT, NOT_FINITE, TOTAL_COUNT};
    use maghnelt::{MAX_FRAMES, MAX_POINTS};
    use model::{Bundle, Linearize};

    fn mismatches_of(call: &Call<'_, 7, 2>, dofs_at_limits: &[u32]) -> u64 {
        let mut report = Report::new("bundle_linearize");
        let mut generator = Generator::new(1);
        compare(call, dofs_at_limits, &mut generator, 5_000, &mut report);
        report.mismatches()
    }

    fn mismatches(call: &Call<'_, 7, 2>) -> u64 {
        mismatches_of(call, &[])
    }

    /// Whether a function is found that has another answer where one is right and `applies` holds.
    fn finds(
        dofs_at_limits: &[u32],
        right: u32,
        other: u32,
        applies: impl Fn(&Linearize, usize, usize) -> bool,
    ) -> bool {
        let refusal = move |inputs: &Linearize, residual: usize, jacobian: usize| match inputs
            .refusal(residual, jacobian)
        {
            answer if answer == right && applies(inputs, residual, jacobian) => other,
            answer => answer,
        };
        let call = model::linearize_call(
            refusal,
            |inputs| inputs.residual(),
            |inputs| inputs.jacobian(),
        );
        mismatches_of(&call, dofs_at_limits) > 0
    }

    fn with_residual(residual: impl Fn(&Linearize) -> Vec<f64>) -> u64 {
        mismatches(&model::linearize_call(
            |inputs, residual, jacobian| inputs.refusal(residual, jacobian),
            residual,
            |inputs| inputs.jacobian(),
        ))
    }

    fn with_jacobian(jacobian: impl Fn(&Linearize) -> Vec<Vec<f64>>) -> u64 {
        mismatches(&model::linearize_call(
            |inputs, residual, jacobian| inputs.refusal(residual, jacobian),
            |inputs| inputs.residual(),
            jacobian,
        ))
    }

    fn right(numbers: [&mut [f64]; 7], words: [&mut [u32]; 2]) -> u32 {
        model::linearize_call(
            |inputs, residual, jacobian| inputs.refusal(residual, jacobian),
            |inputs| inputs.residual(),
            |inputs| inputs.jacobian(),
        )(numbers, words)
    }

    #[test]
    fn the_model_itself_passes() {
        assert_eq!(mismatches_of(&right, &[1]), 0);
    }

    #[test]
    fn faults_are_refused_by_their_numbers() {
        check_faults(&faults(true), accepted, |case| {
            answer(&right, case.lent(&mut Generator::new(1)))
        });
    }

    #[test]
    fn tests_in_another_order_are_found() {
        let no_counts = |inputs: &Linearize| inputs.bundle.counts.is_empty();
        let bad_lengths = |inputs: &Linearize| inputs.decomposition.len() != DECOMPOSITION;
        let empty_frame = |inputs: &Linearize| inputs.bundle.counts.contains(&0);
        let few = |inputs: &Linearize| inputs.bundle.rows() < 3;
        let not_finite = |inputs: &Linearize| {
            let mut coordinates = inputs.bundle.points.iter().chain(inputs.bundle.fixed);
            coordinates.any(|x| !x.is_finite())
        };
        let bad_sigma = |inputs: &Linearize| crate::model::bad_sigma(inputs.sigma);
        type Applies = fn(&Linearize) -> bool;
        let in_order: [(u32, Applies); 7] = [
            (DOF, |inputs| inputs.dof > MAX_DOF),
            (EMPTY_LIST, no_counts),
            (LENGTH, bad_lengths),
            (FRAME_COUNT, empty_frame),
            (TOTAL_COUNT, few),
            (NOT_FINITE, not_finite),
            (SIGMA, bad_sigma),
        ];
        for (place, (first, _)) in in_order.iter().enumerate() {
            for (second, applies) in &in_order[place + 1..] {
                // Where there are no counts, none is 0.
                let both = [*first, *second] != [EMPTY_LIST, FRAME_COUNT];
                let found = finds(&[], *first, *second, |inputs, _, _| applies(inputs));
                assert_eq!(found, both, "{second} before {first}");
            }
        }
    }

    #[test]
    fn tests_of_other_things_are_found() {
        // The columns, and the decomposition.
        assert!(finds(&[], 0, NOT_FINITE, |inputs, _, _| {
            inputs.d_state.iter().any(|x| !x.is_finite())
        }));
        assert!(finds(&[], 0, NOT_FINITE, |inputs, _, _| {
            inputs.decomposition.iter().any(|x| !x.is_finite())
        }));
        // Not the fixed points.
        assert!(finds(&[], NOT_FINITE, 0, |inputs, _, _| {
            inputs.bundle.points.iter().all(|x| x.is_finite())
        }));
        // A Jacobian that is not wanted.
        assert!(finds(&[], 0, LENGTH, |inputs, _, jacobian| {
            jacobian == 0 && inputs.dof > 0
        }));
    }

    #[test]
    fn lengths_that_are_not_tested_are_found() {
        // Of the columns.
        assert!(finds(
            &[],
            LENGTH,
            ACCEPTED,
            |inputs, residual, jacobian| {
                let columns = u128::from(inputs.dof) * inputs.bundle.sites();
                let d_state = &vec![0.0; 3 * columns.min(1 << 20) as usize];
                Linearize { d_state, ..*inputs }.refusal(residual, jacobian) == 0
            }
        ));
        // Of the decomposition.
        assert!(finds(
            &[],
            LENGTH,
            ACCEPTED,
            |inputs, residual, jacobian| {
                let decomposition = &[1.0; DECOMPOSITION];
                let right = Linearize {
                    decomposition,
                    ..*inputs
                };
                right.refusal(residual, jacobian) == 0
            }
        ));
        // Of the residual.
        assert!(finds(&[], LENGTH, ACCEPTED, |inputs, _, jacobian| {
            let rows = inputs.bundle.rows().min(1 << 20);
            inputs.refusal(rows as usize, jacobian) == 0
        }));
        // Of the Jacobian, altogether and where it has the columns of one frame.
        assert!(finds(&[], LENGTH, ACCEPTED, |inputs, residual, _| {
            inputs.refusal(residual, 0) == 0
        }));
        assert!(finds(
            &[],
            LENGTH,
            ACCEPTED,
            |inputs, residual, jacobian| {
                jacobian == residual * inputs.dof as usize && inputs.refusal(residual, 0) == 0
            }
        ));
    }

    #[test]
    fn other_limits_are_found() {
        // One less.
        assert!(finds(&[1], 0, LENGTH, |inputs, _, _| {
            inputs.bundle.counts.len() == MAX_FRAMES
        }));
        assert!(finds(&[1], 0, LENGTH, |_, residual, _| {
            residual == MAX_POINTS
        }));
        // One more.
        assert!(finds(&[1], LENGTH, ACCEPTED, |inputs, residual, _| {
            inputs.bundle.counts.len() == MAX_FRAMES + 1 && residual as u128 == inputs.bundle.rows()
        }));
        assert!(finds(&[1], LENGTH, ACCEPTED, |inputs, residual, _| {
            residual == MAX_POINTS + 1 && residual as u128 == inputs.bundle.rows()
        }));
    }

    #[test]
    fn a_sum_of_counts_in_32_bits_is_found() {
        assert!(finds(
            &[],
            LENGTH,
            ACCEPTED,
            |inputs, residual, jacobian| {
                let Bundle { counts, points, .. } = inputs.bundle;
                let sum = counts.iter().fold(0u32, |sum, &k| sum.wrapping_add(k));
                // As many counts, but with a sum that is right.
                let mut others = vec![1; counts.len()];
                others[0] = sum.wrapping_sub(counts.len() as u32 - 1);
                let counts = &others;
                let bundle = Bundle {
                    counts,
                    ..inputs.bundle
                };
                points.len() == 3 * sum as usize
                    && Linearize { bundle, ..*inputs }.refusal(residual, jacobian) == 0
            }
        ));
    }

    #[test]
    fn a_refused_call_that_writes_is_found() {
        for writes in DOF..=SIGMA {
            // One output or the other.
            for to_residual in [false, true] {
                let clears = |numbers: [&mut [f64]; 7], words: [&mut [u32]; 2]| {
                    let [a, b, c, d, e, residual, jacobian] = numbers;
                    let answer = right([a, b, c, d, e, &mut *residual, &mut *jacobian], words);
                    if answer == writes {
                        let out = if to_residual { residual } else { jacobian };
                        out.fill(0.0);
                    }
                    answer
                };
                assert!(mismatches(&clears) > 0, "{writes}");
            }
        }
    }

    /// The right rows with another rule for the plane.
    fn with_plane(rule: fn(&Decomposition) -> Option<Vector>) -> u64 {
        let call = move |numbers: [&mut [f64]; 7], words: [&mut [u32]; 2]| {
            let [a, b, c, d, decomposition, residual, jacobian] = numbers;
            // A decomposition of which the right rule makes the same.
            let mut told = [1.0; DECOMPOSITION];
            if decomposition.len() == DECOMPOSITION {
                if let Some(normal) = rule(&Decomposition::read(decomposition)) {
                    told[0] = 0.0;
                    told[3..6].copy_from_slice(&normal);
                }
                right([a, b, c, d, &mut told, residual, jacobian], words)
            } else {
                right([a, b, c, d, decomposition, residual, jacobian], words)
            }
        };
        mismatches(&call)
    }

    fn rising(decomposition: &Decomposition) -> [f64; 3] {
        let order = decomposition.order();
        order.map(|k| f64::from_bits(decomposition.eigenvalues[k]))
    }

    #[test]
    fn other_gap_rules_are_found() {
        /// The vector of the least eigenvalue, or none by a rule.
        fn unless(none: bool, decomposition: &Decomposition) -> Option<Vector> {
            (!none).then(|| decomposition.vectors[decomposition.order()[0]])
        }
        assert_eq!(with_plane(model::normal), 0);
        let wrong: [fn(&Decomposition) -> Option<Vector>; 6] = [
            // 1e-12 itself is none.
            |d| unless(rising(d)[1] - rising(d)[0] <= 1e-12, d),
            // The gap of moments.
            |d| unless(rising(d)[1] - rising(d)[0] < 1e-14, d),
            // A NaN gap is none.
            |d| {
                unless(
                    !matches!(rising(d)[1] - rising(d)[0], gap if gap >= 1e-12),
                    d,
                )
            },
            // By the size of the third eigenvalue, as with frames.
            |d| {
                let [least, second, third] = rising(d);
                unless(second - least < 1e-12 * third.abs().max(1.0), d)
            },
            // The gap above the second.
            |d| unless(rising(d)[2] - rising(d)[1] < 1e-12, d),
            // Always one.
            |d| unless(false, d),
        ];
        for (place, rule) in wrong.into_iter().enumerate() {
            assert!(with_plane(rule) > 0, "wrong rule {place}");
        }
    }

    #[test]
    fn other_normals_are_found() {
        /// The vector that is named, if there is a plane.
        fn named(decomposition: &Decomposition, vector: usize) -> Option<Vector> {
            model::normal(decomposition).map(|_| decomposition.vectors[vector])
        }
        let wrong: [fn(&Decomposition) -> Option<Vector>; 5] = [
            |d| named(d, 0),
            |d| named(d, d.order()[2]),
            // Equal ones by falling index.
            |d| {
                let mut order = [2, 1, 0];
                order.sort_by_key(|&k| maghnelt::total_order_key(d.eigenvalues[k]));
                named(d, order[0])
            },
            // By value, a NaN where it is.
            |d| {
                let values = d.eigenvalues.map(f64::from_bits);
                let mut least = 0;
                for k in 1..3 {
                    if values[k] < values[least] {
                        least = k;
                    }
                }
                named(d, least)
            },
            // A row of the vectors.
            |d| {
                let least = d.order()[0];
                model::normal(d).map(|_| d.vectors.map(|vector| vector[least]))
            },
        ];
        for (place, rule) in wrong.into_iter().enumerate() {
            assert!(with_plane(rule) > 0, "wrong normal {place}");
        }
    }

    /// The residuals by another function of normal, point, centroid and sigma.
    fn residuals_by(of_point: fn(Vector, Vector, Vector, f64) -> f64) -> u64 {
        with_residual(move |inputs| {
            let all = inputs.bundle.all();
            let centroid = model::centroid(&all);
            let Some(n) = inputs.normal() else {
                return vec![0.0; all.len()];
            };
            let of_point = |p: &Vector| of_point(n, *p, centroid, inputs.sigma);
            all.iter().map(of_point).collect()
        })
    }

    #[test]
    fn other_residuals_are_found() {
        fn off(p: Vector, c: Vector) -> Vector {
            vector(|r| p[r] - c[r])
        }
        assert_eq!(residuals_by(|n, p, c, s| (1.0 / s) * dot(n, off(p, c))), 0);
        type Residual = fn(Vector, Vector, Vector, f64) -> f64;
        let wrong: [Residual; 6] = [
            // Divided by sigma.
            |n, p, c, s| dot(n, off(p, c)) / s,
            // The normal scaled first.
            |n, p, c, s| dot(n.map(|x| (1.0 / s) * x), off(p, c)),
            // By an offset.
            |n, p, c, s| (1.0 / s) * (dot(n, p) - dot(n, c)),
            |n, p, c, s| (1.0 / s) * dot(n, off(c, p)),
            // From the last product, and from +0.
            |n, p, c, s| {
                let [x, y, z] = vector(|r| n[r] * (p[r] - c[r]));
                (1.0 / s) * (x + (y + z))
            },
            |n, p, c, s| {
                let [x, y, z] = vector(|r| n[r] * (p[r] - c[r]));
                (1.0 / s) * (((0.0 + x) + y) + z)
            },
        ];
        for (place, of_point) in wrong.into_iter().enumerate() {
            assert!(residuals_by(of_point) > 0, "wrong residual {place}");
        }
    }

    #[test]
    fn other_centroids_are_found() {
        /// The right residuals about another centroid.
        fn about(inputs: &Linearize, centroid: Vector) -> Vec<f64> {
            let all = inputs.bundle.all();
            let Some(n) = inputs.normal() else {
                return vec![0.0; all.len()];
            };
            let off = |p: &Vector| vector(|r| p[r] - centroid[r]);
            let information = 1.0 / inputs.sigma;
            all.iter().map(|p| information * dot(n, off(p))).collect()
        }
        let of_all = |inputs: &Linearize| about(inputs, model::centroid(&inputs.bundle.all()));
        assert_eq!(with_residual(of_all), 0);
        // Of the site points.
        assert!(
            with_residual(|inputs| {
                let fixed = &[];
                let bundle = Bundle {
                    fixed,
                    ..inputs.bundle
                };
                about(inputs, model::centroid(&bundle.all()))
            }) > 0
        );
        // The fixed points summed first.
        assert!(
            with_residual(|inputs| {
                let mut all = inputs.bundle.all();
                all.rotate_left(inputs.bundle.sites() as usize);
                about(inputs, model::centroid(&all))
            }) > 0
        );
        // A sum from -0.
        assert!(
            with_residual(|inputs| {
                let all = inputs.bundle.all();
                let sum = |r: usize| all.iter().fold(-0.0, |sum, p| sum + p[r]);
                about(inputs, vector(|r| sum(r) / all.len() as f64))
            }) > 0
        );
    }

    #[test]
    fn fixed_rows_in_other_places_are_found() {
        // Residuals, and rows of the Jacobian.
        assert!(
            with_residual(|inputs| {
                let mut residual = inputs.residual();
                residual.rotate_left(inputs.bundle.sites() as usize);
                residual
            }) > 0
        );
        assert!(
            with_jacobian(|inputs| {
                let mut jacobian = inputs.jacobian();
                jacobian.rotate_left(inputs.bundle.sites() as usize);
                jacobian
            }) > 0
        );
        // Fixed points that do not count in the cost.
        assert!(
            with_residual(|inputs| {
                let mut residual = inputs.residual();
                residual[inputs.bundle.sites() as usize..].fill(0.0);
                residual
            }) > 0
        );
    }

    /// The right entries at other columns of their rows, by frame and column.
    fn with_columns(place: fn(&Linearize, usize, usize) -> usize) -> u64 {
        with_jacobian(move |inputs| {
            let (right, dof) = (inputs.jacobian(), inputs.dof as usize);
            let mut jacobian = vec![vec![0.0; right[0].len()]; right.len()];
            for (k, frame) in inputs.bundle.frames().into_iter().enumerate() {
                for c in 0..dof {
                    jacobian[k][place(inputs, frame, c)] = right[k][frame * dof + c];
                }
            }
            jacobian
        })
    }

    #[test]
    fn entries_in_other_columns_are_found() {
        assert_eq!(with_columns(|inputs, f, c| f * inputs.dof as usize + c), 0);
        // Of the next frame, and of the first.
        let next = |inputs: &Linearize, f: usize, c: usize| {
            (f + 1) % inputs.bundle.counts.len() * inputs.dof as usize + c
        };
        assert!(with_columns(next) > 0);
        assert!(with_columns(|_, _, c| c) > 0);
        // Frames interleaved.
        assert!(with_columns(|inputs, f, c| c * inputs.bundle.counts.len() + f) > 0);
        // Columns backwards.
        let backwards = |inputs: &Linearize, f: usize, c: usize| {
            let dof = inputs.dof as usize;
            f * dof + (dof - 1 - c)
        };
        assert!(with_columns(backwards) > 0);
    }

    #[test]
    fn frames_that_begin_elsewhere_are_found() {
        // A frame that has a point more, and one that has a point less.
        assert!(
            with_jacobian(|inputs| {
                let mut counts = inputs.bundle.counts.to_vec();
                if let [first, second, ..] = &mut counts[..] {
                    if *second > 1 {
                        (*first, *second) = (*first + 1, *second - 1);
                    }
                }
                let counts = &counts;
                let bundle = Bundle {
                    counts,
                    ..inputs.bundle
                };
                Linearize { bundle, ..*inputs }.jacobian()
            }) > 0
        );
    }

    /// The Jacobian with entries from other parts of `d_state`, by point and column.
    fn with_parts(part: fn(&Linearize, usize, usize) -> Vector) -> u64 {
        with_jacobian(move |inputs| {
            let mut jacobian = inputs.jacobian();
            let Some(n) = inputs.normal() else {
                return jacobian;
            };
            let (information, dof) = (1.0 / inputs.sigma, inputs.dof as usize);
            for (k, frame) in inputs.bundle.frames().into_iter().enumerate() {
                for c in 0..dof {
                    jacobian[k][frame * dof + c] = information * dot(n, part(inputs, k, c));
                }
            }
            jacobian
        })
    }

    #[test]
    fn other_parts_of_the_columns_are_found() {
        assert_eq!(with_parts(|inputs, k, c| inputs.column(k, c)), 0);
        // Column after column, and row after row of a point.
        let by_columns = |inputs: &Linearize, k: usize, c: usize| {
            let points = inputs.bundle.sites() as usize;
            stored_vector(&inputs.d_state[3 * (c * points + k)..])
        };
        let by_rows = |inputs: &Linearize, k: usize, c: usize| {
            let dof = inputs.dof as usize;
            vector(|r| inputs.d_state[3 * k * dof + r * dof + c])
        };
        assert!(with_parts(by_columns) > 0);
        assert!(with_parts(by_rows) > 0);
        // The first point's for all.
        assert!(with_parts(|inputs, _, c| inputs.column(0, c)) > 0);
    }

    /// The Jacobian with entries by another function of normal, column and sigma.
    fn with_entries(entry: fn(Vector, Vector, f64) -> f64) -> u64 {
        with_jacobian(move |inputs| {
            let mut jacobian = inputs.jacobian();
            let Some(n) = inputs.normal() else {
                return jacobian;
            };
            let dof = inputs.dof as usize;
            for (k, frame) in inputs.bundle.frames().into_iter().enumerate() {
                for c in 0..dof {
                    jacobian[k][frame * dof + c] = entry(n, inputs.column(k, c), inputs.sigma);
                }
            }
            jacobian
        })
    }

    #[test]
    fn other_entries_are_found() {
        assert_eq!(with_entries(|n, column, s| (1.0 / s) * dot(n, column)), 0);
        // The normal scaled first, as an extrinsic's columns have it.
        assert!(with_entries(|n, column, s| dot(n.map(|x| (1.0 / s) * x), column)) > 0);
        assert!(with_entries(|n, column, s| dot(n, column) / s) > 0);
        assert!(with_entries(|n, column, _| dot(n, column)) > 0);
        assert!(
            with_entries(|n, column, s| {
                let sum = (0..3).fold(0.0, |sum, r| sum + n[r] * column[r]);
                (1.0 / s) * sum
            }) > 0
        );
        assert!(
            with_entries(|n, [x, y, z], s| {
                (1.0 / s) * n[2].mul_add(z, n[1].mul_add(y, n[0] * x))
            }) > 0
        );
    }

    #[test]
    fn a_jacobian_by_rows_is_found() {
        assert!(
            with_jacobian(|inputs| {
                let right = inputs.jacobian();
                let (rows, columns) = (right.len(), right[0].len());
                let flat = right.concat();
                let entry = |row: usize, column: usize| flat[column * rows + row];
                let row = |row: usize| (0..columns).map(|c| entry(row, c)).collect();
                (0..rows).map(row).collect()
            }) > 0
        );
    }

    /// A cell of a Jacobian.
    struct Cell {
        /// Whether there is a plane.
        plane: bool,
        /// The frame of its row, none for a fixed point.
        seen_by: Option<usize>,
        /// The frame of its column.
        of: usize,
        /// Whether it is the last one.
        last: bool,
    }

    /// The right call, after which some cells of the Jacobian have what they had.
    fn leaves(left: fn(&Cell) -> bool) -> u64 {
        let call = move |numbers: [&mut [f64]; 7], [dof, counts]: [&mut [u32]; 2]| {
            let [points, d_state, fixed, sigma, decomposition, residual, jacobian] = numbers;
            let before = jacobian.to_vec();
            let answer = right(
                [
                    points,
                    d_state,
                    fixed,
                    sigma,
                    &mut *decomposition,
                    &mut *residual,
                    &mut *jacobian,
                ],
                [&mut *dof, &mut *counts],
            );
            if answer != 0 {
                return answer;
            }
            let plane = model::normal(&Decomposition::read(decomposition)).is_some();
            let bundle = Bundle {
                counts,
                points: &[],
                fixed: &[],
            };
            let frames = bundle.frames();
            let cells = jacobian.len();
            for (place, cell) in jacobian.iter_mut().enumerate() {
                let (row, column) = (place % residual.len(), place / residual.len());
                if left(&Cell {
                    plane,
                    seen_by: frames.get(row).copied(),
                    of: column / dof[0] as usize,
                    last: place + 1 == cells,
                }) {
                    *cell = before[place];
                }
            }
            answer
        };
        mismatches(&call)
    }

    #[test]
    fn cells_that_are_not_cleared_are_found() {
        assert_eq!(leaves(|_| false), 0);
        assert!(leaves(|cell| !cell.plane) > 0);
        assert!(leaves(|cell| cell.plane && cell.seen_by.is_none()) > 0);
        assert!(
            leaves(|cell| cell.plane && cell.seen_by.is_some_and(|frame| frame != cell.of)) > 0
        );
        assert!(leaves(|cell| cell.plane && cell.last) > 0);
    }

    #[test]
    fn residuals_that_are_left_without_a_plane_are_found() {
        let keeps = |numbers: [&mut [f64]; 7], words: [&mut [u32]; 2]| {
            let [a, b, c, d, decomposition, residual, jacobian] = numbers;
            let before = residual.to_vec();
            let read = (decomposition.len() == DECOMPOSITION)
                .then(|| model::normal(&Decomposition::read(decomposition)));
            let answer = right([a, b, c, d, decomposition, &mut *residual, jacobian], words);
            if answer == 0 && read == Some(None) {
                residual.copy_from_slice(&before);
            }
            answer
        };
        assert!(mismatches(&keeps) > 0);
    }
}
