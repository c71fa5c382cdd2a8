//! Slices of wrong lengths are refused, and everything that was lent is as it was, bit for bit.

mod builds;
mod lent;

use builds::{built, Build};
use lent::{bits, patterns};
use maghnelt::{
    slices, Refusal, ACTION, CENTRED, DECOMPOSITION, MATCH, MAX_FRAMES, MAX_ORDER, MAX_POINTS,
    MAX_WORDS, MOMENTS, PLANE, UNMAPPED,
};

/// Lengths in which one or more of the slices are empty, one short or one long.
fn wrong<const N: usize>(right: [usize; N]) -> Vec<[usize; N]> {
    let mut all = vec![[0; N]];
    for slice in 0..N {
        all = all
            .into_iter()
            .flat_map(|lengths| {
                [0, right[slice] - 1, right[slice], right[slice] + 1].map(|length| {
                    let mut lengths: [usize; N] = lengths;
                    lengths[slice] = length;
                    lengths
                })
            })
            .collect();
    }
    all.retain(|lengths| *lengths != right);
    all
}

/// Lends an output of that length and sees that the call refuses it for its length and leaves it.
fn refused(length: usize, call: impl FnOnce(&mut [f64]) -> Result<(), Refusal>) {
    refused_by(Refusal::Length, length, call);
}

fn refused_by(
    reason: Refusal,
    length: usize,
    call: impl FnOnce(&mut [f64]) -> Result<(), Refusal>,
) {
    let mut out = patterns(length);
    assert_eq!(call(&mut out), Err(reason));
    assert_eq!(bits(&out), bits(&patterns(length)));
}

#[test]
fn from_points() {
    let points = vec![1.0; 3 * MAX_POINTS + 3];
    let most = 3 * MAX_POINTS;
    for length in [1, 2, 4, 5, most - 1, most + 1, most + 2, most + 3] {
        refused(MOMENTS, |out| {
            slices::moments_from_points(&points[..length], out)
        });
    }
    for length in [0, MOMENTS - 1, MOMENTS + 1] {
        refused(length, |out| slices::moments_from_points(&points[..3], out));
    }
    let mut out = patterns(MOMENTS);
    assert_eq!(slices::moments_from_points(&[], &mut out), Ok(()));
    assert_eq!(bits(&out), [0; MOMENTS]);
}

#[test]
fn push_and_merge() {
    for [moments, point] in wrong([MOMENTS, 3]) {
        refused(moments, |out| slices::moments_push(out, &patterns(point)));
    }
    for [moments, other] in wrong([MOMENTS, MOMENTS]) {
        refused(moments, |out| slices::moments_merge(out, &patterns(other)));
    }
}

#[test]
fn transformed() {
    for [moments, a, b, out] in wrong([MOMENTS, 9, 3, MOMENTS]) {
        refused(out, |out| {
            slices::moments_transformed(&patterns(moments), &patterns(a), &patterns(b), out)
        });
    }
}

#[test]
fn mean_and_scatter() {
    let mut found = 77;
    for [moments, out] in wrong([MOMENTS, 12]) {
        refused(out, |out| {
            slices::moments_mean_and_scatter(&vec![1.0; moments], out, &mut found)
        });
    }
    assert_eq!(found, 77);
}

#[test]
fn plane_of_moments() {
    let mut found = 77;
    for [moments, decomposition, out] in wrong([MOMENTS, DECOMPOSITION, 7]) {
        refused(out, |out| {
            let decomposition: Vec<f64> = (0..decomposition).map(|k| k as f64).collect();
            slices::moments_plane(&vec![4.0; moments], &decomposition, out, &mut found)
        });
    }
    assert_eq!(found, 77);
}

#[test]
fn where_nothing_is_found_the_output_is_left() {
    let before = patterns(12);
    let mut out = before.clone();
    let mut found = 77;
    assert_eq!(
        slices::moments_mean_and_scatter(&[0.0; MOMENTS], &mut out, &mut found),
        Ok(())
    );
    assert_eq!((found, bits(&out)), (0, bits(&before)));

    let mut found = 77;
    let equal = [1.0; DECOMPOSITION];
    assert_eq!(
        slices::moments_plane(&[4.0; MOMENTS], &equal, &mut out[..7], &mut found),
        Ok(())
    );
    assert_eq!((found, bits(&out)), (0, bits(&before)));
}

#[test]
fn plane_new() {
    for [normal, plane] in wrong([3, PLANE]) {
        refused(plane, |out| slices::plane_new(&vec![1.0; normal], 1.0, out));
    }
    // The lengths are tested before the normal, and a bad normal leaves the plane too.
    refused(PLANE + 1, |out| slices::plane_new(&[0.0; 3], 1.0, out));
    let mut out = patterns(PLANE);
    assert_eq!(
        slices::plane_new(&[0.0; 3], 1.0, &mut out),
        Err(Refusal::Normal)
    );
    assert_eq!(bits(&out), bits(&patterns(PLANE)));
}

#[test]
fn sigma() {
    let before = f64::from_bits(0x7FF0_0000_0000_0D1E);
    let mut sigma = before;
    let mut answer = |lengths: [usize; 6], filled: f64| {
        let [plane, centroid, of_plane, of_point, world, d_world] =
            lengths.map(|length| vec![filled; length]);
        slices::point_to_plane_sigma(
            &plane, &centroid, &of_plane, &of_point, &world, &d_world, &mut sigma,
        )
    };
    let right = [PLANE, 3, 36, 9, 3, 9];
    for lengths in wrong(right) {
        // With ones it would be accepted, with zeros refused by the variance, but for the lengths.
        assert_eq!(answer(lengths, 1.0), Err(Refusal::Length), "{lengths:?}");
        assert_eq!(answer(lengths, 0.0), Err(Refusal::Length), "{lengths:?}");
    }
    assert_eq!(answer(right, 0.0), Err(Refusal::Variance));
    assert_eq!(sigma.to_bits(), before.to_bits());
}

#[test]
fn remap() {
    let good = vec![0; MAX_WORDS + 1];
    let mut bad = good.clone();
    bad[0] = UNMAPPED + 1;
    let refused = |reason: Refusal, map: &[u32], list: &[u32], length: usize| {
        let mut out = vec![0xA5A5_A5A5; length];
        assert_eq!(slices::remap(map, list, &mut out), Err(reason));
        assert!(out.iter().all(|&word| word == 0xA5A5_A5A5));
    };
    // The lengths are tested before the words.
    for words in [&good, &bad] {
        refused(Refusal::Length, words, &words[..3], 3);
        refused(Refusal::Length, &words[..3], words, MAX_WORDS + 1);
        for length in [0, 2, 4] {
            refused(Refusal::Length, &words[..3], &words[..3], length);
        }
    }
    refused(Refusal::MapWord, &bad[..1], &[], 0);
    refused(Refusal::MapWord, &[], &bad[..1], 1);
    let mut out = vec![7; MAX_WORDS];
    assert_eq!(slices::remap(&[], &good[..MAX_WORDS], &mut out), Ok(()));
    assert_eq!(out, [UNMAPPED; MAX_WORDS]);
}

#[test]
fn build() {
    let frames = vec![1.0; MOMENTS * (MAX_FRAMES + 1)];
    let mut negative = frames.clone();
    negative[0] = -1.0;
    let calls = [
        (slices::frames_build as Build, Refusal::TotalCount),
        (slices::frames_build_strict, Refusal::FixedCount),
    ];
    for (call, after_the_lengths) in calls {
        let build = |lengths: [usize; 4], fixed: &[f64]| {
            let [of_frames, of_fixed, outputs @ ..] = lengths;
            let sets = [&frames[..of_frames], &fixed[..of_fixed]];
            let (answer, after) = built(call, 9, sets, 1.0, outputs);
            answer.map(|()| (f64::from_bits(after.points), after.dropped))
        };
        let without = [3 * MOMENTS, 0, 3 * CENTRED, 0];
        assert_eq!(build(without, &frames), Ok((3.0, 0)));
        let right = [3 * MOMENTS, MOMENTS, 3 * CENTRED, CENTRED];
        assert_eq!(build(right, &frames), Ok((4.0, 0)));
        // Three points less one are too few, or the count below 0 is refused: after the lengths.
        assert_eq!(build(right, &negative), Err(after_the_lengths));
        for lengths in wrong(right) {
            let expected = match lengths[0] {
                0 => Refusal::EmptyList,
                _ if lengths == without => continue,
                _ => Refusal::Length,
            };
            for fixed in [&frames, &negative] {
                assert_eq!(build(lengths, fixed), Err(expected), "{lengths:?}");
            }
        }
        let most = MAX_FRAMES + 1;
        let too_many = [most * MOMENTS, 0, most * CENTRED, 0];
        assert_eq!(build(too_many, &frames), Err(Refusal::Length));
    }
}

#[test]
fn fit() {
    let frames = vec![1.0; CENTRED * (MAX_FRAMES + 1)];
    let actions = vec![1.0; ACTION * (MAX_FRAMES + 1)];
    let fit = |dof: u32, lengths: [usize; 3], out: &mut [f64]| {
        let [of_frames, fixed, of_actions] = lengths;
        slices::frames_fit(
            dof,
            &frames[..of_frames],
            &frames[..fixed],
            &actions[..of_actions],
            out,
        )
    };
    let two = [2 * CENTRED, CENTRED, 2 * ACTION];
    // Each reason is tested with those after it.
    for dof in [10, u32::MAX] {
        refused_by(Refusal::Dof, 11, |out| fit(dof, [0, 1, 1], out));
    }
    refused_by(Refusal::EmptyList, 11, |out| fit(9, [0, 1, 1], out));
    for of_frames in [1, CENTRED - 1, CENTRED + 1, CENTRED * (MAX_FRAMES + 1)] {
        refused(12, |out| fit(9, [of_frames, 0, 1], out));
    }
    for fixed in [1, CENTRED - 1, CENTRED + 1, 2 * CENTRED] {
        refused(12, |out| fit(9, [CENTRED, fixed, 1], out));
    }
    for length in [0, 11, 13] {
        refused(length, |out| fit(9, [CENTRED, 0, 1], out));
    }
    for of_actions in [0, ACTION, 2 * ACTION - 1, 2 * ACTION + 1, 3 * ACTION] {
        refused_by(Refusal::Actions, 12, |out| {
            fit(9, [two[0], two[1], of_actions], out)
        });
    }
    assert_eq!(fit(9, two, &mut patterns(12)), Ok(()));
    assert_eq!(fit(0, [CENTRED, 0, ACTION], &mut patterns(12)), Ok(()));
}

#[test]
fn one_match() {
    let answer = |dof: u32, lengths: [usize; 5], filled: f64| {
        let [record, world, d_state, d_extrinsic, row] = lengths;
        let mut residual = patterns(1)[0];
        let mut out = patterns(row);
        let answer = slices::match_linearize(
            dof,
            &vec![filled; record],
            &vec![filled; world],
            &vec![filled; d_state],
            &vec![filled; d_extrinsic],
            &mut residual,
            &mut out,
        );
        if answer.is_err() {
            assert_eq!(residual.to_bits(), patterns(1)[0].to_bits());
            assert_eq!(bits(&out), bits(&patterns(row)));
        }
        answer
    };
    let right = [MATCH, 3, 6, 18, 8];
    assert_eq!(answer(2, right, 1.0), Ok(()));
    assert_eq!(answer(2, [MATCH, 3, 6, 18, 0], 1.0), Ok(()));
    assert_eq!(answer(2, right, f64::NAN), Err(Refusal::NotFinite));
    assert_eq!(answer(2, right, -1.0), Err(Refusal::Sigma));
    for lengths in wrong(right) {
        if lengths[..4] == right[..4] && lengths[4] == 0 {
            continue;
        }
        let expected = match lengths[0] {
            0 => Refusal::EmptyList,
            _ => Refusal::Length,
        };
        for filled in [1.0, f64::NAN] {
            assert_eq!(answer(2, lengths, filled), Err(expected), "{lengths:?}");
            assert_eq!(answer(10, lengths, filled), Err(Refusal::Dof));
        }
    }
}

#[test]
fn matches() {
    let ones = vec![1.0; 4 * ACTION];
    // dof 2, lengths of matches and action, words, order by the gradient's and the Hessian's length.
    let accumulate = |dof: u32, lengths: [usize; 2], map: &[u32], [n, nn]: [usize; 2]| {
        let (mut hessian, mut gradient, mut cost) = (patterns(nn), patterns(n), patterns(1)[0]);
        let [of_matches, of_action] = lengths;
        let answer = slices::matches_accumulate(
            dof,
            &ones[..of_matches],
            &ones[..of_action],
            map,
            &mut hessian,
            &mut gradient,
            &mut cost,
        );
        if answer.is_err() {
            assert_eq!(bits(&hessian), bits(&patterns(nn)));
            assert_eq!(bits(&gradient), bits(&patterns(n)));
            assert_eq!(cost.to_bits(), patterns(1)[0].to_bits());
        }
        answer
    };
    let right = [2 * MATCH, ACTION];
    assert_eq!(accumulate(2, right, &[1], [3, 9]), Ok(()));
    assert_eq!(accumulate(2, right, &[UNMAPPED], [0, 0]), Ok(()));
    // Words past the first are looked at, but go nowhere.
    assert_eq!(accumulate(2, right, &[1, 7], [3, 9]), Ok(()));
    let long = vec![UNMAPPED + 1; MAX_WORDS + 1];
    let bad = [UNMAPPED, UNMAPPED + 1];
    for (dof, lengths, map, target, reason) in [
        (10, [0, 0], &long[..], [1, 0], Refusal::Dof),
        (2, [0, 0], &long, [1, 0], Refusal::EmptyList),
        (2, [MATCH - 1, 0], &bad, [3, 9], Refusal::Length),
        (2, [MATCH + 1, 0], &bad, [3, 9], Refusal::Length),
        (2, [MATCH, 0], &long, [3, 9], Refusal::Length),
        (2, [MATCH, 0], &bad, [3, 8], Refusal::Length),
        (2, [MATCH, 0], &bad, [3, 3], Refusal::Length),
        (2, [MATCH, 0], &bad, [0, 1], Refusal::Length),
        (2, [MATCH, 0], &bad, [3, 0], Refusal::Length),
        (2, [MATCH, ACTION - 1], &bad, [3, 9], Refusal::Actions),
        (2, [MATCH, 2 * ACTION], &bad, [3, 9], Refusal::Actions),
        (2, [MATCH, ACTION], &bad, [3, 9], Refusal::MapWord),
        (2, [MATCH, ACTION], &[2], [3, 9], Refusal::Segment),
        (2, [MATCH, ACTION], &[0], [0, 0], Refusal::Segment),
    ] {
        assert_eq!(accumulate(dof, lengths, map, target), Err(reason));
    }
    let order = MAX_ORDER + 1;
    assert_eq!(
        accumulate(2, [MATCH, 0], &bad, [order, order * order]),
        Err(Refusal::Length)
    );

    let linearize = |dof: u32, lengths: [usize; 4]| {
        let [of_matches, of_action, of_residual, of_jacobian] = lengths;
        let (mut residual, mut jacobian) = (patterns(of_residual), patterns(of_jacobian));
        let answer = slices::matches_linearize(
            dof,
            &ones[..of_matches],
            &ones[..of_action],
            &mut residual,
            &mut jacobian,
        );
        if answer.is_err() {
            assert_eq!(bits(&residual), bits(&patterns(of_residual)));
            assert_eq!(bits(&jacobian), bits(&patterns(of_jacobian)));
        }
        answer
    };
    let right = [3 * MATCH, ACTION, 3, 6];
    assert_eq!(linearize(2, right), Ok(()));
    assert_eq!(linearize(2, [3 * MATCH, ACTION, 3, 0]), Ok(()));
    for lengths in wrong(right) {
        let [of_matches, of_action, of_residual, of_jacobian] = lengths;
        let expected = match (of_matches, of_residual, of_jacobian) {
            (0, _, _) => Refusal::EmptyList,
            (24, 3, 0 | 6) if of_action != ACTION => Refusal::Actions,
            (24, 3, 0 | 6) => continue,
            _ => Refusal::Length,
        };
        assert_eq!(linearize(2, lengths), Err(expected), "{lengths:?}");
        assert_eq!(linearize(10, lengths), Err(Refusal::Dof));
    }
}

#[test]
fn accumulated_frames() {
    let ones = vec![1.0; (MAX_FRAMES + 1) * ACTION];
    let call = |dof: u32, sigma: f64, lengths: [usize; 4], map: &[u32], [n, nn]: [usize; 2]| {
        let (mut hessian, mut gradient, mut cost) = (patterns(nn), patterns(n), patterns(1)[0]);
        let [frames, fixed, actions, decomposition] = lengths;
        let answer = slices::frames_accumulate(
            dof,
            &ones[..frames],
            &ones[..fixed],
            sigma,
            &ones[..actions],
            // Without a plane.
            &ones[..decomposition],
            map,
            &mut hessian,
            &mut gradient,
            &mut cost,
        );
        // Neither a refused call nor one without a plane adds anything.
        assert_eq!(bits(&hessian), bits(&patterns(nn)));
        assert_eq!(bits(&gradient), bits(&patterns(n)));
        match answer {
            Ok(()) => assert_eq!(cost.to_bits(), 0),
            Err(_) => assert_eq!(cost.to_bits(), patterns(1)[0].to_bits()),
        }
        answer
    };
    let right = [2 * CENTRED, CENTRED, 2 * ACTION, DECOMPOSITION];
    assert_eq!(call(2, 1.0, right, &[1, 0], [3, 9]), Ok(()));
    assert_eq!(call(2, 1.0, right, &[], [0, 0]), Ok(()));
    let [long, bad] = [
        vec![UNMAPPED + 1; MAX_WORDS + 1],
        vec![UNMAPPED, UNMAPPED, UNMAPPED + 1],
    ];
    // Each reason with those after it.
    assert_eq!(call(10, 0.0, [0; 4], &long, [1, 0]), Err(Refusal::Dof));
    assert_eq!(call(2, 0.0, [0; 4], &long, [1, 0]), Err(Refusal::EmptyList));
    for lengths in [
        [CENTRED + 1, 0, 0, DECOMPOSITION],
        [
            CENTRED * (MAX_FRAMES + 1),
            0,
            ACTION * (MAX_FRAMES + 1),
            DECOMPOSITION,
        ],
        [CENTRED, 1, 0, DECOMPOSITION],
        [CENTRED, 2 * CENTRED, 0, DECOMPOSITION],
        [CENTRED, 0, 0, 0],
        [CENTRED, 0, 0, DECOMPOSITION - 1],
        [CENTRED, 0, 0, 2 * DECOMPOSITION],
    ] {
        assert_eq!(call(2, 0.0, lengths, &bad, [3, 9]), Err(Refusal::Length));
    }
    let one = [CENTRED, 0, 0, DECOMPOSITION];
    for target in [[3, 8], [3, 10], [3, 0], [0, 1]] {
        assert_eq!(call(2, 0.0, one, &bad, target), Err(Refusal::Length));
    }
    assert_eq!(call(2, 0.0, one, &long, [3, 9]), Err(Refusal::Length));
    assert_eq!(call(2, 0.0, one, &bad, [3, 9]), Err(Refusal::Sigma));
    for actions in [0, 1, ACTION, 3 * ACTION] {
        let lengths = [2 * CENTRED, 0, actions, DECOMPOSITION];
        assert_eq!(call(2, 1.0, lengths, &bad, [3, 9]), Err(Refusal::Actions));
    }
    assert_eq!(call(2, 1.0, right, &bad, [3, 9]), Err(Refusal::MapWord));
    assert_eq!(call(2, 1.0, right, &[0, 2], [3, 9]), Err(Refusal::Segment));
    assert_eq!(call(2, 1.0, right, &[0], [0, 0]), Err(Refusal::Segment));
}

#[test]
fn linearized_frames() {
    let ones = vec![1.0; (MAX_FRAMES + 1) * ACTION];
    let call = |dof: u32, sigma: f64, lengths: [usize; 6]| {
        let [frames, fixed, actions, decompositions, of_residual, of_jacobian] = lengths;
        let (mut residual, mut jacobian) = (patterns(of_residual), patterns(of_jacobian));
        let answer = slices::frames_linearize(
            dof,
            &ones[..frames],
            &ones[..fixed],
            sigma,
            &ones[..actions],
            // Without a plane.
            &ones[..decompositions],
            &mut residual,
            &mut jacobian,
        );
        match answer {
            Ok(()) => assert!(residual.iter().chain(&jacobian).all(|x| x.to_bits() == 0)),
            Err(_) => {
                assert_eq!(bits(&residual), bits(&patterns(of_residual)));
                assert_eq!(bits(&jacobian), bits(&patterns(of_jacobian)));
            }
        }
        answer
    };
    let two = 2 * ACTION;
    for (lengths, expected) in [
        ([26, 0, two, 36, 12, 48], Ok(())),
        ([26, 13, two, 48, 12, 48], Ok(())),
        ([26, 13, two, 48, 12, 0], Ok(())),
        ([0, 0, 0, 0, 0, 0], Err(Refusal::EmptyList)),
        ([27, 0, 0, 36, 12, 48], Err(Refusal::Length)),
        ([26, 1, 0, 48, 12, 48], Err(Refusal::Length)),
        ([26, 0, 0, 48, 12, 48], Err(Refusal::Length)),
        ([26, 13, 0, 36, 12, 48], Err(Refusal::Length)),
        ([26, 0, 0, 36, 8, 48], Err(Refusal::Length)),
        ([26, 0, 0, 36, 12, 47], Err(Refusal::Length)),
        ([26, 0, 0, 36, 12, 12], Err(Refusal::Length)),
        ([26, 0, 0, 36, 12, 48], Err(Refusal::Actions)),
        ([26, 0, ACTION, 36, 12, 48], Err(Refusal::Actions)),
    ] {
        assert_eq!(call(2, 1.0, lengths), expected, "{lengths:?}");
        let before_sigma = [Err(Refusal::EmptyList), Err(Refusal::Length)];
        if !before_sigma.contains(&expected) {
            assert_eq!(call(2, f64::NAN, lengths), Err(Refusal::Sigma));
        }
        assert_eq!(call(10, f64::NAN, lengths), Err(Refusal::Dof));
    }
    assert_eq!(call(0, 1.0, [26, 0, two, 36, 12, 0]), Ok(()));
    assert_eq!(call(0, 1.0, [26, 0, two, 36, 12, 1]), Err(Refusal::Length));
}

#[test]
fn fitted_bundles() {
    let ones = vec![1.0; 3 * (MAX_POINTS + 1)];
    let fit = |counts: &[u32], points: usize, fixed: usize, out: &mut [f64]| {
        slices::bundle_fit(counts, &ones[..points], &ones[..fixed], out)
    };
    let mut out = patterns(12);
    assert_eq!(fit(&[3, 1], 12, 3, &mut out), Ok(()));
    assert_eq!(fit(&[3, 1], 12, 0, &mut out), Ok(()));
    for lengths in wrong([12, 3, 12]) {
        let [points, fixed, of_out] = lengths;
        if lengths != [12, 0, 12] {
            refused(of_out, |out| fit(&[3, 1], points, fixed, out));
        }
    }
    refused_by(Refusal::EmptyList, 11, |out| fit(&[], 1, 1, out));
    // Sums that would wrap round in 32 bits, limits, and a length with the reasons after it.
    for (counts, points, fixed) in [
        (&[u32::MAX, 2][..], 3, 6),
        (&[u32::MAX; MAX_FRAMES], 3, 6),
        (&[1; MAX_FRAMES + 1], 3 * (MAX_FRAMES + 1), 0),
        (&[1], 3, 3 * MAX_POINTS),
        (&[MAX_POINTS as u32, 1], 3 * (MAX_POINTS + 1), 0),
        (&[2, 0], 3, 0),
    ] {
        refused(12, |out| fit(counts, points, fixed, out));
    }
    refused_by(Refusal::FrameCount, 12, |out| fit(&[2, 0], 6, 0, out));
    refused_by(Refusal::TotalCount, 12, |out| fit(&[1], 3, 3, out));
}

#[test]
fn linearized_bundles() {
    let ones = vec![1.0; 64];
    let call = |dof: u32, sigma: f64, counts: &[u32], lengths: [usize; 6]| {
        let [points, d_state, fixed, decomposition, of_residual, of_jacobian] = lengths;
        let (mut residual, mut jacobian) = (patterns(of_residual), patterns(of_jacobian));
        let answer = slices::bundle_linearize(
            dof,
            counts,
            &ones[..points],
            &ones[..d_state],
            &ones[..fixed],
            sigma,
            // Without a plane.
            &ones[..decomposition],
            &mut residual,
            &mut jacobian,
        );
        match answer {
            Ok(()) => assert!(residual.iter().chain(&jacobian).all(|x| x.to_bits() == 0)),
            Err(_) => {
                assert_eq!(bits(&residual), bits(&patterns(of_residual)));
                assert_eq!(bits(&jacobian), bits(&patterns(of_jacobian)));
            }
        }
        answer
    };
    // Two frames, dof 2 and a fixed point: four rows and four columns.
    let right = [9, 18, 3, DECOMPOSITION, 4, 16];
    assert_eq!(call(2, 1.0, &[2, 1], right), Ok(()));
    assert_eq!(call(2, 0.0, &[2, 1], right), Err(Refusal::Sigma));
    // Residuals alone, with the fixed point and without.
    let alone = [
        [9, 18, 3, DECOMPOSITION, 4, 0],
        [9, 18, 0, DECOMPOSITION, 3, 0],
    ];
    for lengths in wrong(right) {
        let expected = if alone.contains(&lengths) {
            Ok(())
        } else {
            Err(Refusal::Length)
        };
        assert_eq!(call(2, 1.0, &[2, 1], lengths), expected, "{lengths:?}");
        assert_eq!(call(2, 0.0, &[], lengths), Err(Refusal::EmptyList));
        assert_eq!(call(10, 0.0, &[], lengths), Err(Refusal::Dof));
    }
    let no_columns = [9, 0, 3, DECOMPOSITION, 4, 0];
    assert_eq!(call(0, 1.0, &[2, 1], no_columns), Ok(()));
    assert_eq!(
        call(0, 1.0, &[2, 1], [9, 0, 3, DECOMPOSITION, 4, 1]),
        Err(Refusal::Length)
    );
}
