//! The centroid and the scatter of a bundle's points, against the model.

use crate::bundled::{
    every_length, few_points, limits, some_bundle, turning_numbers, wrong_lengths, Bundled, Length,
};
use crate::called::{each_alone, every_pair, Call, Comparison, Fault, Lent};
use crate::draws::old;
use crate::generator::Generator;
use crate::lent::number;
use crate::model::{bundle as model, LENGTH};
use crate::report::Report;
use maghnelt::slices as library;

/// What a call takes, and the length of its output.
struct Case {
    bundle: Bundled,
    out: Length,
}

impl Case {
    fn of(bundle: Bundled) -> Case {
        Case {
            bundle,
            out: Length::Right,
        }
    }

    fn lent(self, generator: &mut Generator) -> Lent<3, 1> {
        let (counts, [points, fixed]) = self.bundle.lent();
        Lent {
            numbers: [points, fixed, old(self.out.beside(12), generator)],
            words: [counts],
        }
    }
}

/// Compares the library.
pub fn run(generator: &mut Generator, count: u64, report: &mut Report) {
    let call = |[points, fixed, out]: [&mut [f64]; 3], [counts]: [&mut [u32]; 1]| {
        number(library::bundle_fit(counts, points, fixed, out))
    };
    compare(&call, true, generator, count, report);
}

/// Takes a case to compare, and what its output is drawn from.
type Check<'a> = dyn FnMut(Case, &mut Generator) + 'a;

/// Compares a call, with the cases at the limits, which are long, or without them.
fn compare(
    call: &Call<'_, 3, 1>,
    at_limits: bool,
    generator: &mut Generator,
    count: u64,
    report: &mut Report,
) {
    let model = model::fit_call(|bundle, out| bundle.refusal(out), model::fit);
    let mut comparison = Comparison::new(
        "bundle_fit",
        ["points", "fixed", "out"],
        ["counts"],
        call,
        &model,
    );
    let mut check = |case: Case, generator: &mut Generator| {
        comparison.check(&case.lent(generator), report);
    };
    let limits = if at_limits { limits() } else { Vec::new() };
    for (counts, fixed) in every_length().chain(limits) {
        check(Case::of(Bundled::of(counts, fixed, generator)), generator);
    }
    for numbers in turning_numbers().flat_map(|numbers| [numbers; 4]) {
        let bundle = Bundled::of_numbers(&numbers, generator);
        check(Case::of(bundle), generator);
    }
    let mut draws = Generator::new(generator.bits());
    for at_limits in [false, false, false, at_limits] {
        let faults = faults(at_limits);
        each_alone(&faults, accepted, generator, |case| check(case, &mut draws));
        every_pair(&faults, accepted, generator, |case, _| {
            check(case, &mut draws)
        });
    }
    check_random(count, &mut check, generator);
}

/// Random cases of so many points in all, of which some are refused.
fn check_random(count: u64, check: &mut Check, generator: &mut Generator) {
    let faults = faults(false);
    let mut points = 0;
    while points < count {
        let mut case = Case::of(some_bundle(generator));
        points += 2 + case.bundle.rows() as u64;
        if generator.below(16) == 0 {
            let fault = &faults[generator.below(faults.len() as u64) as usize];
            fault.make(&mut case, generator);
        }
        check(case, generator);
    }
}

fn accepted(generator: &mut Generator) -> Case {
    Case::of(few_points(generator))
}

/// What a call can be refused for; only at the limits with a point too many.
fn faults(at_limits: bool) -> Vec<Fault<Case>> {
    let of_points = Bundled::faults().into_iter();
    let mut faults: Vec<_> = of_points
        .map(|fault| fault.within(|case: &mut Case| &mut case.bundle))
        .collect();
    faults.push(Fault::new(LENGTH, |case: &mut Case, _| {
        case.bundle.with_a_frame_too_many();
    }));
    if at_limits {
        faults.push(Fault::new(LENGTH, |case: &mut Case, _| {
            case.bundle.with_a_point_too_many();
        }));
    }
    let wrong = [0, 3, 11, 13, 24].map(Length::Of);
    faults.extend(wrong_lengths(&wrong, |case: &mut Case, length| {
        case.out = length;
    }));
    faults
}

#[cfg(test)]
mod tests {
    use super::*;
    use crate::called::{answer, check_faults, ACCEPTED};
    use crate::model::moments::{mean_and_scatter, with_point, Moments};
    use crate::model::{matrix, sum, sum_from_zero, vector, Matrix, Vector};
    use crate::model::{EMPTY_LIST, FRAME_COUNT, NOT_FINITE, TOTAL_COUNT};
    use maghnelt::{MAX_FRAMES, MAX_POINTS};
    use model::Bundle;

    fn mismatches_of(call: &Call<'_, 3, 1>, at_limits: bool) -> u64 {
        let mut report = Report::new("bundle_fit");
        compare(call, at_limits, &mut Generator::new(1), 10_000, &mut report);
        report.mismatches()
    }

    fn mismatches(call: &Call<'_, 3, 1>) -> u64 {
        mismatches_of(call, false)
    }

    fn with(fit: fn(&Bundle) -> (Vector, Matrix<3>)) -> u64 {
        mismatches(&model::fit_call(|bundle, out| bundle.refusal(out), fit))
    }

    /// Whether a function is found that has another answer where one is right and `applies` holds.
    fn finds(
        at_limits: bool,
        right: u32,
        other: u32,
        applies: impl Fn(&Bundle, usize) -> bool,
    ) -> bool {
        let refusal = move |bundle: &Bundle, out: usize| match bundle.refusal(out) {
            answer if answer == right && applies(bundle, out) => other,
            answer => answer,
        };
        mismatches_of(&model::fit_call(refusal, model::fit), at_limits) > 0
    }

    fn right(numbers: [&mut [f64]; 3], words: [&mut [u32]; 1]) -> u32 {
        model::fit_call(|bundle, out| bundle.refusal(out), model::fit)(numbers, words)
    }

    #[test]
    fn the_model_itself_passes() {
        assert_eq!(mismatches_of(&right, true), 0);
    }

    #[test]
    fn faults_are_refused_by_their_numbers() {
        check_faults(&faults(true), accepted, |case| {
            answer(&right, case.lent(&mut Generator::new(1)))
        });
    }

    #[test]
    fn tests_in_another_order_are_found() {
        type Applies = fn(&Bundle) -> bool;
        let in_order: [(u32, Applies); 5] = [
            (EMPTY_LIST, |bundle| bundle.counts.is_empty()),
            (LENGTH, |bundle| bundle.fixed.len() % 3 != 0),
            (FRAME_COUNT, |bundle| bundle.counts.contains(&0)),
            (TOTAL_COUNT, |bundle| bundle.rows() < 3),
            (NOT_FINITE, |bundle| {
                let mut coordinates = bundle.points.iter().chain(bundle.fixed);
                coordinates.any(|x| !x.is_finite())
            }),
        ];
        for (place, (first, _)) in in_order.iter().enumerate() {
            for (second, applies) in &in_order[place + 1..] {
                // Where there are no counts, none is 0.
                let both = [*first, *second] != [EMPTY_LIST, FRAME_COUNT];
                let found = finds(false, *first, *second, |bundle, _| applies(bundle));
                assert_eq!(found, both, "{second} before {first}");
            }
        }
    }

    #[test]
    fn tests_of_other_things_are_found() {
        // Site points alone, fixed ones alone, and the first points alone.
        assert!(finds(false, NOT_FINITE, 0, |bundle, _| {
            bundle.points.iter().all(|x| x.is_finite())
        }));
        assert!(finds(false, NOT_FINITE, 0, |bundle, _| {
            bundle.fixed.iter().all(|x| x.is_finite())
        }));
        assert!(finds(false, NOT_FINITE, 0, |bundle, _| {
            bundle.points.iter().take(96).all(|x| x.is_finite())
        }));
        // The sums too.
        assert!(finds(false, 0, NOT_FINITE, |bundle, _| {
            model::fit(bundle).0.iter().any(|x| !x.is_finite())
        }));
        // Site points alone have to be three.
        assert!(finds(false, 0, TOTAL_COUNT, |bundle, _| bundle.sites() < 3));
    }

    #[test]
    fn lengths_that_are_not_tested_are_found() {
        // Of the output.
        let right = |bundle: &Bundle| bundle.refusal(12) == 0;
        assert!(finds(false, LENGTH, ACCEPTED, |bundle, _| right(bundle)));
        // Of fixed points that are not whole.
        assert!(finds(false, LENGTH, ACCEPTED, |bundle, out| {
            let whole = bundle.fixed.len() / 3 * 3;
            let fixed = &bundle.fixed[..whole];
            Bundle { fixed, ..*bundle }.refusal(out) == 0
        }));
        // Of points that are more than the counts say, and of fewer.
        let with_points = |bundle: &Bundle, out: usize| {
            let points = &vec![1.0; 3 * bundle.sites().min(1 << 10) as usize];
            Bundle { points, ..*bundle }.refusal(out) == 0
        };
        assert!(finds(false, LENGTH, ACCEPTED, |bundle, out| {
            bundle.points.len() as u128 > 3 * bundle.sites() && with_points(bundle, out)
        }));
        assert!(finds(false, LENGTH, ACCEPTED, |bundle, out| {
            (bundle.points.len() as u128) < 3 * bundle.sites() && with_points(bundle, out)
        }));
    }

    #[test]
    fn other_limits_are_found() {
        // One less.
        assert!(finds(true, 0, LENGTH, |bundle, _| {
            bundle.counts.len() == MAX_FRAMES
        }));
        assert!(finds(true, 0, LENGTH, |bundle, _| {
            bundle.rows() == MAX_POINTS as u128
        }));
        // One more, of the frames, of all points, and of the site points.
        let lengths = |bundle: &Bundle, out: usize| {
            out == 12
                && bundle.points.len() as u128 == 3 * bundle.sites()
                && bundle.fixed.len() % 3 == 0
        };
        assert!(finds(true, LENGTH, ACCEPTED, |bundle, out| {
            lengths(bundle, out) && bundle.counts.len() == MAX_FRAMES + 1
        }));
        assert!(finds(true, LENGTH, ACCEPTED, |bundle, out| {
            lengths(bundle, out) && bundle.rows() == MAX_POINTS as u128 + 1
        }));
        assert!(finds(true, LENGTH, ACCEPTED, |bundle, out| {
            lengths(bundle, out) && bundle.sites() == MAX_POINTS as u128 + 1
        }));
        // Of the site points alone.
        assert!(finds(true, LENGTH, ACCEPTED, |bundle, out| {
            lengths(bundle, out)
                && bundle.counts.len() <= MAX_FRAMES
                && bundle.sites() <= MAX_POINTS as u128
        }));
    }

    #[test]
    fn a_sum_of_counts_in_32_bits_is_found() {
        let wrapped = |numbers: [&mut [f64]; 3], [counts]: [&mut [u32]; 1]| {
            let [points, fixed, out] = numbers;
            let sum = counts.iter().fold(0u32, |sum, &k| sum.wrapping_add(k));
            let in_limits = counts.len() <= MAX_FRAMES && !counts.contains(&0);
            let whole = points.len() == 3 * sum as usize && fixed.len() % 3 == 0;
            match right([points, fixed, out], [counts]) {
                LENGTH if in_limits && whole && out.len() == 12 => ACCEPTED,
                answer => answer,
            }
        };
        assert!(mismatches(&wrapped) > 0);
    }

    #[test]
    fn a_refused_call_that_writes_is_found() {
        for writes in EMPTY_LIST..=NOT_FINITE {
            let clears = |numbers: [&mut [f64]; 3], words: [&mut [u32]; 1]| {
                let [points, fixed, out] = numbers;
                let answer = right([points, fixed, &mut *out], words);
                if answer == writes {
                    out.fill(0.0);
                }
                answer
            };
            assert!(mismatches(&clears) > 0, "{writes}");
        }
        // Another NaN in the place of the one that was there.
        let quiets = |numbers: [&mut [f64]; 3], words: [&mut [u32]; 1]| {
            let [points, fixed, out] = numbers;
            let answer = right([points, fixed, &mut *out], words);
            if answer != 0 {
                for number in out.iter_mut().filter(|number| number.is_nan()) {
                    *number = f64::NAN;
                }
            }
            answer
        };
        assert!(mismatches(&quiets) > 0);
    }

    /// The right scatter about another centroid.
    fn with_centroid(centroid: fn(&Bundle) -> Vector) -> u64 {
        mismatches(&model::fit_call(
            |bundle, out| bundle.refusal(out),
            move |bundle: &Bundle| {
                let centroid = centroid(bundle);
                (centroid, model::scatter(&bundle.all(), centroid))
            },
        ))
    }

    #[test]
    fn other_centroids_are_found() {
        assert_eq!(with_centroid(|bundle| model::centroid(&bundle.all())), 0);
        // Without the fixed points, though they count.
        let without_fixed = |bundle: &Bundle| {
            let points = &bundle.all()[..bundle.sites() as usize];
            let n = bundle.rows() as f64;
            vector(|r| sum_from_zero(points.iter().map(|p| p[r])) / n)
        };
        let of_site_points = |bundle: &Bundle| {
            let fixed = &[];
            model::centroid(&Bundle { fixed, ..*bundle }.all())
        };
        let fixed_first = |bundle: &Bundle| {
            let mut all = bundle.all();
            all.rotate_left(bundle.sites() as usize);
            model::centroid(&all)
        };
        // Sums that start from their first term, and from -0.
        let from_first = |bundle: &Bundle| {
            let all = bundle.all();
            vector(|r| sum(all.iter().map(|p| p[r])) / all.len() as f64)
        };
        let from_minus_0 = |bundle: &Bundle| {
            let all = bundle.all();
            vector(|r| all.iter().fold(-0.0, |sum, p| sum + p[r]) / all.len() as f64)
        };
        let reciprocal = |bundle: &Bundle| {
            let all = bundle.all();
            vector(|r| sum_from_zero(all.iter().map(|p| p[r])) * (1.0 / all.len() as f64))
        };
        let divided_first = |bundle: &Bundle| {
            let all = bundle.all();
            vector(|r| sum_from_zero(all.iter().map(|p| p[r] / all.len() as f64)))
        };
        // Frame by frame.
        let by_frames = |bundle: &Bundle| {
            let (all, frames) = (bundle.all(), bundle.frames());
            let of_frame = |f: usize, r: usize| {
                let points = all.iter().zip(&frames).filter(|(_, frame)| **frame == f);
                sum_from_zero(points.map(|(p, _)| p[r]))
            };
            let fixed = &all[frames.len()..];
            vector(|r| {
                let sums = (0..bundle.counts.len()).map(|f| of_frame(f, r));
                sum_from_zero(sums.chain(fixed.iter().map(|p| p[r]))) / all.len() as f64
            })
        };
        let wrong: [fn(&Bundle) -> Vector; 8] = [
            without_fixed,
            of_site_points,
            fixed_first,
            from_first,
            from_minus_0,
            reciprocal,
            divided_first,
            by_frames,
        ];
        for (place, centroid) in wrong.into_iter().enumerate() {
            assert!(with_centroid(centroid) > 0, "wrong centroid {place}");
        }
    }

    /// Another scatter about the right centroid.
    fn with_scatter(scatter: fn(&[Vector], Vector) -> Matrix<3>, at_limits: bool) -> u64 {
        let call = model::fit_call(
            |bundle, out| bundle.refusal(out),
            move |bundle: &Bundle| {
                let all = bundle.all();
                let centroid = model::centroid(&all);
                (centroid, scatter(&all, centroid))
            },
        );
        mismatches_of(&call, at_limits)
    }

    /// A scatter whose entries come from the differences of both coordinates and the number of points.
    fn by_entries(
        all: &[Vector],
        centroid: Vector,
        entry: fn(&[[f64; 2]], f64) -> f64,
    ) -> Matrix<3> {
        matrix(|r, c| {
            let off = |p: &Vector| [p[r] - centroid[r], p[c] - centroid[c]];
            entry(&all.iter().map(off).collect::<Vec<_>>(), all.len() as f64)
        })
    }

    #[test]
    fn other_scatters_are_found() {
        assert_eq!(with_scatter(model::scatter, false), 0);
        assert_eq!(
            with_scatter(
                |all, centroid| by_entries(all, centroid, |off, n| {
                    sum_from_zero(off.iter().map(|[x, y]| x * y)) / n
                }),
                false
            ),
            0
        );
        let wrong: [fn(&[Vector], Vector) -> Matrix<3>; 9] = [
            // outer/count − mean·meanᵀ.
            |all, _| {
                let moments = all.iter().fold(Moments::EMPTY, |m, p| with_point(m, *p));
                mean_and_scatter(moments).expect("there are points").1
            },
            // Not divided.
            |all, centroid| {
                by_entries(all, centroid, |off, _| {
                    sum_from_zero(off.iter().map(|[x, y]| x * y))
                })
            },
            // By one less.
            |all, centroid| {
                by_entries(all, centroid, |off, n| {
                    sum_from_zero(off.iter().map(|[x, y]| x * y)) / (n - 1.0)
                })
            },
            // Divided first.
            |all, centroid| {
                by_entries(all, centroid, |off, n| {
                    sum_from_zero(off.iter().map(|[x, y]| x * y / n))
                })
            },
            // Times the reciprocal.
            |all, centroid| {
                by_entries(all, centroid, |off, n| {
                    sum_from_zero(off.iter().map(|[x, y]| x * y)) * (1.0 / n)
                })
            },
            // Sums from the first product, and from -0.
            |all, centroid| {
                by_entries(all, centroid, |off, n| {
                    sum(off.iter().map(|[x, y]| x * y)) / n
                })
            },
            |all, centroid| {
                by_entries(all, centroid, |off, n| {
                    off.iter().fold(-0.0, |sum, [x, y]| sum + x * y) / n
                })
            },
            // Fused.
            |all, centroid| {
                by_entries(all, centroid, |off, n| {
                    off.iter().fold(0.0, |sum, [x, y]| x.mul_add(*y, sum)) / n
                })
            },
            // From the last point.
            |all, centroid| {
                by_entries(all, centroid, |off, n| {
                    sum_from_zero(off.iter().rev().map(|[x, y]| x * y)) / n
                })
            },
        ];
        for (place, scatter) in wrong.into_iter().enumerate() {
            assert!(with_scatter(scatter, false) > 0, "wrong scatter {place}");
        }
    }

    #[test]
    fn points_that_are_left_out_are_found() {
        // Those of a long list's end.
        assert!(
            with_scatter(
                |all, centroid| match all.len() {
                    0..4096 => model::scatter(all, centroid),
                    _ => model::scatter(&all[..4096], centroid),
                },
                true
            ) > 0
        );
        // The fixed ones.
        assert!(
            with(|bundle| {
                let centroid = model::centroid(&bundle.all());
                let fixed = &[];
                let site_points = Bundle { fixed, ..*bundle }.all();
                (centroid, model::scatter(&site_points, centroid))
            }) > 0
        );
    }
}
