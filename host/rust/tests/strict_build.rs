//! Building by the survey rule, through the slices and through the type: what is refused where [`FrameFactor::new`] refuses
//! for another reason or not at all, and that nothing else is different.

mod builds;
mod lent;

use builds::{built, Build, Outputs};
use lent::bits;
use maghnelt::{slices, FrameFactor, Moments, Refusal, CENTRED, MAX_FRAMES, MOMENTS};

/// A set of that count, the points being at the origin.
fn at_origin(count: f64) -> [f64; MOMENTS] {
    let mut record = [0.0; MOMENTS];
    record[0] = count;
    record
}

/// One frame and a fixed set, by a call on slices of the right lengths.
fn by_slices(
    build: Build,
    frame: &[f64; MOMENTS],
    fixed: &[f64; MOMENTS],
) -> (Result<(), Refusal>, Outputs) {
    built(build, 6, [frame, fixed], 0.5, [CENTRED; 2])
}

/// The number of points, and whether the fixed set was dropped, of one frame and a fixed set of these counts.
fn strict(frame: f64, fixed: f64) -> Result<(f64, bool), Refusal> {
    let [frame, fixed] = [frame, fixed].map(at_origin);
    let (answer, after) = by_slices(slices::frames_build_strict, &frame, &fixed);
    let answer = answer.map(|()| (f64::from_bits(after.points), after.dropped == 1));
    let typed = FrameFactor::build_strict(6, &[frame.into()], Some(&fixed.into()), 0.5);
    assert_eq!(
        typed.map(|factor| (factor.points(), factor.fixed_dropped())),
        answer
    );
    answer
}

/// The same by the call that has no survey rule.
fn not_strict(frame: f64, fixed: f64) -> Result<(f64, bool), Refusal> {
    let [frame, fixed] = [frame, fixed].map(|count| Moments::from(at_origin(count)));
    FrameFactor::new(6, &[frame], Some(&fixed), 0.5)
        .map(|factor| (factor.points(), factor.fixed_dropped()))
}

#[test]
fn a_negative_fixed_count_is_refused() {
    assert_eq!(strict(5.0, -1.0), Err(Refusal::FixedCount));
    assert_eq!(not_strict(5.0, -1.0), Ok((5.0, true)));
    // Five less three are fewer than three.
    assert_eq!(strict(5.0, -3.0), Err(Refusal::FixedCount));
    assert_eq!(not_strict(5.0, -3.0), Err(Refusal::TotalCount));
}

#[test]
fn every_number_below_0_is_a_negative_count() {
    let next_below_0 = -f64::from_bits(1);
    for count in [
        next_below_0,
        -f64::MIN_POSITIVE,
        -0.5,
        f64::MIN,
        f64::NEG_INFINITY,
    ] {
        assert_eq!(strict(5.0, count), Err(Refusal::FixedCount), "{count:e}");
    }
}

#[test]
fn a_nan_is_not_below_0() {
    for nan in [f64::NAN, -f64::NAN] {
        assert_eq!(strict(5.0, nan), Err(Refusal::NotFinite));
    }
}

#[test]
fn a_fixed_set_without_points_is_dropped_and_adds_nothing() {
    for zero in [0.0, -0.0] {
        assert_eq!(strict(5.0, zero), Ok((5.0, true)));
        assert_eq!(strict(2.0, zero), Err(Refusal::TotalCount));
        let fixed = at_origin(zero);
        let (_, after) = by_slices(slices::frames_build_strict, &at_origin(5.0), &fixed);
        assert_eq!(after.centred_frames, bits(&at_origin(5.0)));
        assert_eq!(
            after.centred_fixed,
            Outputs::lent([CENTRED; 2]).centred_fixed
        );
        let factor =
            FrameFactor::build_strict(6, &[at_origin(5.0).into()], Some(&fixed.into()), 0.5);
        assert_eq!(factor.unwrap().fixed(), None);
    }
}

#[test]
fn a_fixed_set_that_is_kept_counts() {
    assert_eq!(strict(2.0, 1.0), Ok((3.0, false)));
    assert_eq!(strict(2.0, 0.5), Err(Refusal::TotalCount));
    // The corners of a square are centred about its middle.
    let corners = [
        [0.0, 0.0, 0.0],
        [2.0, 0.0, 0.0],
        [0.0, 2.0, 0.0],
        [2.0, 2.0, 0.0],
    ];
    let fixed = Moments::from_points(&corners).unwrap();
    let factor = FrameFactor::build_strict(6, &[at_origin(1.0).into()], Some(&fixed), 0.5).unwrap();
    let centred = factor.fixed().unwrap();
    assert_eq!((factor.points(), centred.count()), (5.0, 4.0));
    assert_eq!(centred.mean(), [1.0, 1.0, 0.0]);
    assert_eq!(
        centred.scatter(),
        [[4.0, 0.0, 0.0], [0.0, 4.0, 0.0], [0.0; 3]]
    );
}

/// Each reason with those after it.
#[test]
fn a_negative_fixed_count_is_tested_directly_after_the_lengths() {
    let with = |place: usize, x: f64| {
        let mut record = at_origin(3.0);
        record[place] = x;
        Moments::from(record)
    };
    let [negative, few, not_finite] = [with(0, -1.0), with(0, 0.5), with(7, f64::NAN)];
    let refusal = |dof, frames: &[Moments], fixed: &Moments, sigma| {
        FrameFactor::build_strict(dof, frames, Some(fixed), sigma).unwrap_err()
    };
    let bad = [negative, not_finite];
    assert_eq!(refusal(10, &[], &negative, 0.0), Refusal::Dof);
    assert_eq!(refusal(10, &[with(0, 5.0)], &negative, 0.5), Refusal::Dof);
    assert_eq!(refusal(9, &[], &negative, 0.0), Refusal::EmptyList);
    let too_many = vec![negative; MAX_FRAMES + 1];
    assert_eq!(refusal(9, &too_many, &negative, 0.0), Refusal::Length);
    assert_eq!(refusal(9, &bad, &negative, 0.0), Refusal::FixedCount);
    assert_eq!(refusal(9, &[few], &negative, 0.0), Refusal::FixedCount);
    assert_eq!(
        refusal(9, &[not_finite], &negative, 0.0),
        Refusal::FixedCount
    );
    assert_eq!(
        refusal(9, &[with(0, 5.0)], &negative, 0.0),
        Refusal::FixedCount
    );
    assert_eq!(refusal(9, &bad, &few, 0.0), Refusal::FrameCount);
    assert_eq!(refusal(9, &[few], &few, 0.0), Refusal::TotalCount);
    assert_eq!(refusal(9, &[not_finite], &few, 0.0), Refusal::NotFinite);
    assert_eq!(refusal(9, &[with(0, 5.0)], &few, 0.0), Refusal::Sigma);
    assert_eq!(strict(-1.0, -1.0), Err(Refusal::FixedCount));
}

/// The moments of so many points on a wall.
fn wall(points: usize) -> [f64; MOMENTS] {
    let points: Vec<[f64; 3]> = (0..points)
        .map(|k| {
            [
                0.1 * k as f64,
                5.0 + 0.01 * (k % 3) as f64,
                0.7 * (k % 5) as f64,
            ]
        })
        .collect();
    Moments::from_points(&points).unwrap().into()
}

/// A wall, with this count in place of its own.
fn with_count(count: f64) -> [f64; MOMENTS] {
    let mut record = wall(7);
    record[0] = count;
    record
}

/// Answer and outputs of both calls, on everything but a negative fixed count.
#[test]
fn without_a_negative_fixed_count_both_calls_are_the_same() {
    // The least is not so small that a mean overflows: a NaN may have any bits.
    let counts = [
        0.0,
        -0.0,
        1e-300,
        0.5,
        1.0,
        2.0,
        2.5,
        3.0,
        7.0,
        1e300,
        f64::INFINITY,
        f64::NAN,
    ];
    let mut reasons = Vec::new();
    for of_frame in counts.iter().chain(&[-1.0, -3.0, f64::NEG_INFINITY]) {
        for of_fixed in counts {
            for (dof, sigma) in [(0, 0.5), (9, 0.0), (9, f64::NAN), (10, 0.5)] {
                let frames = [wall(2), with_count(*of_frame)];
                let fixed = with_count(of_fixed);
                let both =
                    [slices::frames_build as Build, slices::frames_build_strict].map(|build| {
                        let sets = [frames.as_flattened(), &fixed];
                        built(build, dof, sets, sigma, [2 * CENTRED, CENTRED])
                    });
                assert_eq!(both[0], both[1], "counts {of_frame:e} and {of_fixed:e}");
                reasons.push(both[0].0.map_err(Refusal::number));
            }
        }
    }
    for reason in [Ok(()), Err(1), Err(4), Err(5), Err(6), Err(7)] {
        assert!(reasons.contains(&reason), "{reason:?}");
    }
}

#[test]
fn the_factors_are_the_same() {
    let frames = [wall(7), wall(20)].map(Moments::from);
    for fixed in [None, Some(0.0), Some(-0.0), Some(0.5), Some(7.0)] {
        let fixed = fixed.map(|count| Moments::from(with_count(count)));
        let strict = FrameFactor::build_strict(6, &frames, fixed.as_ref(), 0.5).unwrap();
        let factor = FrameFactor::new(6, &frames, fixed.as_ref(), 0.5).unwrap();
        assert_eq!(strict, factor);
        assert_eq!(
            strict.fixed_dropped(),
            fixed.is_some_and(|set| set.count() <= 0.0)
        );
    }
}
