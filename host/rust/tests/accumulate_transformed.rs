//! Accumulating with transforms beside the map: what frames and match lists add, worked out on paper, and what is refused.

mod beside;
mod lent;

use beside::{Beside, NONE};
use lent::{bits, patterns};
use maghnelt::{
    slices, Action, Refusal, ACTION, DECOMPOSITION, MATCH, MAX_WORDS, NO_TRANSFORM, TRANSFORM,
    UNMAPPED,
};

const UNIT: [[f64; 3]; 3] = [[1.0, 0.0, 0.0], [0.0, 1.0, 0.0], [0.0, 0.0, 1.0]];
const X: [f64; 3] = UNIT[0];

/// What an accumulating call takes besides dof, map, transforms and target.
#[derive(Clone)]
enum Factor {
    Frames(Frames),
    Matches { matches: Vec<f64>, action: Vec<f64> },
}

#[derive(Clone)]
struct Frames {
    frames: Vec<f64>,
    fixed: Vec<f64>,
    sigma: f64,
    actions: Vec<f64>,
    decomposition: Vec<f64>,
}

/// A Hessian, a gradient and a cost that are lent.
#[derive(Clone)]
struct Target {
    hessian: Vec<f64>,
    gradient: Vec<f64>,
    cost: f64,
}

impl Target {
    fn filled(order: usize, x: f64) -> Target {
        Target {
            hessian: vec![x; order * order],
            gradient: vec![x; order],
            cost: x,
        }
    }

    fn patterned(order: usize) -> Target {
        Target {
            hessian: patterns(order * order),
            gradient: patterns(order),
            cost: patterns(1)[0],
        }
    }

    fn parts(&mut self) -> (&mut [f64], &mut [f64], &mut f64) {
        (&mut self.hessian, &mut self.gradient, &mut self.cost)
    }

    fn bits(&self) -> [Vec<u64>; 3] {
        [
            bits(&self.hessian),
            bits(&self.gradient),
            vec![self.cost.to_bits()],
        ]
    }
}

/// One frame of the plane x = 0 whose block is that scatter and whose vector is the scatter's last column, up to the dof.
/// It costs the scatter's last number.
fn frame(scatter: [[f64; 3]; 3]) -> Frames {
    let mut record = vec![1.0, 0.0, 0.0, 0.0];
    record.extend(scatter.as_flattened());
    // The normal is (0, 0, 1) in the frame, and parameter k turns axis k along x.
    let turned = [UNIT[1], UNIT[2], UNIT[0]];
    let zero = [0.0; 3];
    let axes: [&[[f64; 3]]; 3] = [&[X], &[zero, X], &[zero, zero, X]];
    let mut decomposition = vec![0.0, 1.0, 2.0];
    decomposition.extend(UNIT.as_flattened());
    Frames {
        frames: record,
        fixed: Vec::new(),
        sigma: 1.0,
        actions: Action::new(&turned, &zero, &[], axes).as_array().to_vec(),
        decomposition,
    }
}

/// One match of that residual and row.
fn one_match(row: &[f64], residual: f64) -> Factor {
    let origin: Vec<[f64; 3]> = row.iter().map(|x| [*x, 0.0, 0.0]).collect();
    let action = Action::new(&UNIT, &[0.0; 3], &origin, [&[]; 3]);
    Factor::Matches {
        matches: vec![residual, 0.0, 0.0, 1.0, 0.0, 0.0, 0.0, 1.0],
        action: action.as_array().to_vec(),
    }
}

impl Factor {
    /// The call with transforms. A refused one leaves the target.
    fn accumulate(
        &self,
        dof: u32,
        map: &[u32],
        beside: &Beside,
        target: &mut Target,
    ) -> Result<(), Refusal> {
        let before = target.bits();
        let Beside { shapes, transforms } = beside;
        let (hessian, gradient, cost) = target.parts();
        let answer = match self {
            Factor::Frames(own) => slices::frames_accumulate_transformed(
                dof,
                &own.frames,
                &own.fixed,
                own.sigma,
                &own.actions,
                &own.decomposition,
                map,
                shapes,
                transforms,
                hessian,
                gradient,
                cost,
            ),
            Factor::Matches { matches, action } => slices::matches_accumulate_transformed(
                dof, matches, action, map, shapes, transforms, hessian, gradient, cost,
            ),
        };
        if answer.is_err() {
            assert_eq!(target.bits(), before);
        }
        answer
    }

    /// The call that knows no transforms.
    fn accumulate_plain(&self, dof: u32, map: &[u32], target: &mut Target) -> Result<(), Refusal> {
        let (hessian, gradient, cost) = target.parts();
        match self {
            Factor::Frames(own) => slices::frames_accumulate(
                dof,
                &own.frames,
                &own.fixed,
                own.sigma,
                &own.actions,
                &own.decomposition,
                map,
                hessian,
                gradient,
                cost,
            ),
            Factor::Matches { matches, action } => {
                slices::matches_accumulate(dof, matches, action, map, hessian, gradient, cost)
            }
        }
    }

    /// What one word at that offset, with that transform, leaves of a target filled with x.
    fn alone(&self, dof: u32, at: u32, t: ([u32; 2], &[f64]), order: usize, x: f64) -> Target {
        let mut target = Target::filled(order, x);
        let answer = self.accumulate(dof, &[at], &Beside::of(&[t]), &mut target);
        assert_eq!(answer, Ok(()));
        target
    }
}

const SCATTER: [[f64; 3]; 3] = [[1.0, 4.0, 9.0], [3.0, 5.0, 9.0], [5.0, 6.0, 7.0]];

/// A frame and a match list with numbers of no special kind.
fn both() -> [Factor; 2] {
    [Factor::Frames(frame(SCATTER)), one_match(&[3.0, 5.0], 2.0)]
}

#[test]
fn a_block_and_a_vector_between_a_transform() {
    let t: ([u32; 2], &[f64]) = ([2, 1], &[1.0, 2.0]);
    let [frame, matches] = both();
    // M by columns is (1, 4), (3, 5), so that U = (9, 13), and v = (5, 6).
    let after = frame.alone(2, 1, t, 3, 100.0);
    let mut hessian = [100.0; 9];
    hessian[4] = 135.0;
    assert_eq!(after.hessian, hessian);
    assert_eq!(after.gradient, [100.0, 117.0, 100.0]);
    assert_eq!(after.cost, 7.0);
    // M by columns is (9, 15), (15, 25), so that U = (39, 65), and v = (6, 10).
    let after = matches.alone(2, 1, t, 3, 100.0);
    hessian[4] = 269.0;
    assert_eq!(after.hessian, hessian);
    assert_eq!(after.gradient, [100.0, 126.0, 100.0]);
    assert_eq!(after.cost, 4.0);
}

/// T(r, c) is number rows·c + r.
#[test]
fn columns_come_first() {
    // Three columns of two rows: e_1, e_0, and e_0 + e_1.
    let t: ([u32; 2], &[f64]) = ([2, 3], &[0.0, 1.0, 1.0, 0.0, 1.0, 1.0]);
    let [frame, _] = both();
    let after = frame.alone(2, 0, t, 3, 0.0);
    // M(0,0) = 1, M(1,0) = 4, M(0,1) = 3, M(1,1) = 5.
    assert_eq!(
        after.hessian,
        [5.0, 3.0, 8.0, 4.0, 1.0, 5.0, 9.0, 4.0, 13.0]
    );
    assert_eq!(after.gradient, [6.0, 5.0, 11.0]);
}

#[test]
fn a_segment_may_be_wider_than_the_dof() {
    let t: ([u32; 2], &[f64]) = ([1, 3], &[1.0, 2.0, 3.0]);
    for (factor, (m, v)) in both().into_iter().zip([(1.0, 5.0), (9.0, 6.0)]) {
        let after = factor.alone(1, 1, t, 5, 0.0);
        for j in 0..5 {
            for i in 0..5 {
                let inside = (1..4).contains(&i) && (1..4).contains(&j);
                let added = if inside { (i * j) as f64 * m } else { 0.0 };
                assert_eq!(after.hessian[5 * j + i], added);
            }
        }
        assert_eq!(after.gradient, [0.0, v, 2.0 * v, 3.0 * v, 0.0]);
        let mut short = Target::patterned(5);
        assert_eq!(
            factor.accumulate(1, &[3], &Beside::of(&[t]), &mut short),
            Err(Refusal::Segment)
        );
    }
}

#[test]
fn a_locked_height_needs_five_rows() {
    let mut locked = [0.0; 30];
    for (column, row) in [0, 1, 3, 4, 5].into_iter().enumerate() {
        locked[6 * column + row] = 1.0;
    }
    // The frame's third row and column, (9, 9, 7) and (5, 6, 7), are gone; the list has none.
    let left = [
        ([1.0, 4.0, 3.0, 5.0], [5.0, 6.0]),
        ([9.0, 15.0, 15.0, 25.0], [6.0, 10.0]),
    ];
    for (factor, (block, vector)) in both().into_iter().zip(left) {
        let beside = Beside::of(&[([6, 5], &locked)]);
        let refused = |map: &[u32], beside: &Beside| {
            factor.accumulate(6, map, beside, &mut Target::patterned(5))
        };
        assert_eq!(refused(&[0], &Beside::EMPTY), Err(Refusal::Segment));
        assert_eq!(refused(&[1], &beside), Err(Refusal::Segment));
        let wide = Beside::of(&[([6, 10], &locked)]);
        assert_eq!(refused(&[0], &wide), Err(Refusal::Transform));

        let after = factor.alone(6, 0, ([6, 5], &locked), 5, 0.0);
        let mut hessian = [0.0; 25];
        hessian[..2].copy_from_slice(&block[..2]);
        hessian[5..7].copy_from_slice(&block[2..]);
        assert_eq!(after.hessian, hessian);
        assert_eq!(after.gradient[..2], vector);
        assert_eq!(after.gradient[2..], [0.0; 3]);
    }
}

/// A sum of no products is +0, and is added.
#[test]
fn without_parameters_zeros_are_added() {
    for factor in both() {
        let after = factor.alone(0, 1, ([0, 2], &[]), 3, -0.0);
        let zeros = [-0.0, 0.0, 0.0];
        assert_eq!(bits(&after.gradient), bits(&zeros));
        assert_eq!(bits(&after.hessian[..3]), bits(&[-0.0; 3]));
        assert_eq!(bits(&after.hessian[3..6]), bits(&zeros));
        assert_eq!(bits(&after.hessian[6..]), bits(&zeros));
    }
}

#[test]
fn without_columns_nothing_is_added() {
    for (factor, cost) in both().into_iter().zip([7.0, 4.0]) {
        let mut target = Target::patterned(3);
        let held = Beside::of(&[([2, 0], &[])]);
        assert_eq!(
            factor.accumulate(2, &[4], &held, &mut target),
            Err(Refusal::Segment)
        );
        assert_eq!(factor.accumulate(2, &[3], &held, &mut target), Ok(()));
        assert_eq!(target.cost, cost);
        target.cost = patterns(1)[0];
        assert_eq!(target.bits(), Target::patterned(3).bits());
    }
}

#[test]
fn the_left_product_comes_first() {
    let [large, small] = [600, -600].map(|power| 2_f64.powi(power));
    let infinite = f64::INFINITY;
    for factor in [
        Factor::Frames(frame([[large, 0.0, 0.0], [0.0; 3], [0.0; 3]])),
        one_match(&[2_f64.powi(300)], 0.0),
    ] {
        let after = factor.alone(1, 0, ([1, 2], &[large, small]), 2, 0.0);
        // U is infinite and 1.
        assert_eq!(after.hessian, [infinite, large, infinite, small]);
    }
}

#[test]
fn products_are_added_in_rising_index() {
    let large = 2_f64.powi(53);
    for factor in [
        Factor::Frames(frame([[1.0; 3]; 3])),
        one_match(&[1.0; 3], 1.0),
    ] {
        let after = factor.alone(3, 0, ([3, 1], &[large, 1.0, 1.0]), 1, 0.0);
        // An odd number behind 2^53 is a tie, and goes to the even one below: each 1 is lost.
        assert_eq!(after.gradient, [large]);
        // U is three times 2^53, and again each of the last two products is a tie.
        assert_eq!(after.hessian, [large * large]);
        // The other way round none is lost.
        let after = factor.alone(3, 0, ([3, 1], &[1.0, 1.0, large]), 1, 0.0);
        assert_eq!(after.gradient, [large + 2.0]);
    }
}

/// A sum begins with its first product, which may be −0.
#[test]
fn products_are_added_from_the_first() {
    for factor in [Factor::Frames(frame([[0.0; 3]; 3])), one_match(&[0.0], 1.0)] {
        let after = factor.alone(1, 0, ([1, 2], &[-1.0, 1.0]), 2, -0.0);
        assert_eq!(bits(&after.hessian), bits(&[0.0, -0.0, -0.0, 0.0]));
        assert_eq!(bits(&after.gradient), bits(&[-0.0, 0.0]));
    }
}

/// Numbers without a pattern, and none of them 0.
fn wave(length: usize, step: f64) -> Vec<f64> {
    (0..length).map(|k| 0.3 + (k as f64 * step).sin()).collect()
}

/// Two frames and a fixed set, and a list of more than one group.
fn rich() -> [Factor; 2] {
    let record = |k: usize| {
        let mut record = wave(13, 0.7 + k as f64);
        record[0] = 5.0 + k as f64;
        record
    };
    let mut matches = wave(MATCH * 700, 0.37);
    matches.chunks_mut(MATCH).for_each(|one| one[7] = 0.5);
    [
        Factor::Frames(Frames {
            frames: [record(0), record(1)].concat(),
            fixed: record(2),
            sigma: 0.3,
            actions: wave(2 * ACTION, 0.11),
            decomposition: frame(SCATTER).decomposition,
        }),
        Factor::Matches {
            matches,
            action: wave(ACTION, 0.23),
        },
    ]
}

#[test]
fn without_transforms_the_calls_are_the_old_ones() {
    for factor in rich() {
        for dof in 0..=10 {
            for map in [
                &[3, 14][..],
                &[14],
                &[UNMAPPED, 0, 5],
                &[],
                &[16, 2],
                &[0, UNMAPPED + 1],
            ] {
                let none = Beside::of(&vec![(NONE, &[][..]); map.len()]);
                let mut plain = Target::filled(24, 0.7);
                let answer = factor.accumulate_plain(dof, map, &mut plain);
                for beside in [&Beside::EMPTY, &none] {
                    let mut target = Target::filled(24, 0.7);
                    assert_eq!(factor.accumulate(dof, map, beside, &mut target), answer);
                    assert_eq!(target.bits(), plain.bits());
                }
            }
        }
    }
}

/// The sum of products in rising index, from the first.
fn sum(products: impl Iterator<Item = f64>) -> f64 {
    products.reduce(|sum, product| sum + product).unwrap_or(0.0)
}

/// What is left of a target filled with x if a block and a vector of dof rows are added at 0, between T.
fn transformed(m: &[f64], v: &[f64], t: &[f64], x: f64) -> [Vec<f64>; 2] {
    let dof = v.len();
    let w = t.len() / dof;
    let t = |r: usize, c: usize| t[dof * c + r];
    let u = |i: usize, k: usize| sum((0..dof).map(|r| t(r, i) * m[dof * k + r]));
    let h = |i: usize, j: usize| sum((0..dof).map(|k| u(i, k) * t(k, j)));
    let hessian = (0..w * w).map(|cell| x + h(cell % w, cell / w));
    let gradient = (0..w).map(|i| x + sum((0..dof).map(|r| t(r, i) * v[r])));
    [hessian.collect(), gradient.collect()]
}

/// A frame's block and vector are finished, by the call without transforms, before they are multiplied.
#[test]
fn every_width_of_every_dof() {
    for factor in rich() {
        for dof in 1..=9 {
            let mut block = Target::filled(dof, 0.0);
            assert_eq!(
                factor.accumulate_plain(dof as u32, &[0], &mut block),
                Ok(())
            );
            for w in 0..=9 {
                let t = wave(dof * w, 0.51);
                let after = factor.alone(dof as u32, 0, ([dof as u32, w as u32], &t), w, 0.7);
                let [hessian, gradient] = transformed(&block.hessian, &block.gradient, &t, 0.7);
                assert_eq!(bits(&after.hessian), bits(&hessian), "{dof} by {w}");
                assert_eq!(bits(&after.gradient), bits(&gradient), "{dof} by {w}");
                assert_eq!(after.cost.to_bits(), block.cost.to_bits());
            }
        }
    }
}

/// Each frame has its own transform, and segments of other widths may follow each other.
#[test]
fn every_frame_by_its_own_transform() {
    let [frames, _] = rich();
    let [first, second] = [wave(6, 0.9), wave(12, 1.3)];
    let alone = |map: &[u32], beside: &Beside, order: usize| {
        let mut target = Target::filled(order, 0.0);
        assert_eq!(frames.accumulate(3, map, beside, &mut target), Ok(()));
        target
    };
    let none: ([u32; 2], &[f64]) = (NONE, &[]);
    let of_first = alone(&[0], &Beside::of(&[([3, 2], &first)]), 2);
    let of_second = alone(&[UNMAPPED, 0], &Beside::of(&[none, ([3, 4], &second)]), 4);
    let both = Beside::of(&[([3, 2], &first), ([3, 4], &second)]);
    let after = alone(&[4, 0], &both, 6);
    for j in 0..6 {
        for i in 0..6 {
            let cell = match (i >= 4, j >= 4) {
                (true, true) => of_first.hessian[2 * (j - 4) + i - 4],
                (false, false) => of_second.hessian[4 * j + i],
                _ => 0.0,
            };
            assert_eq!(after.hessian[6 * j + i].to_bits(), cell.to_bits());
        }
    }
    assert_eq!(after.gradient[..4], of_second.gradient);
    assert_eq!(after.gradient[4..], of_first.gradient);
}

#[test]
fn a_frame_that_goes_nowhere_costs() {
    for (factor, cost) in both().into_iter().zip([7.0, 4.0]) {
        let beside = Beside::of(&[([2, 1], &[1.0, 2.0])]);
        let mut target = Target::patterned(3);
        assert_eq!(
            factor.accumulate(2, &[UNMAPPED], &beside, &mut target),
            Ok(())
        );
        assert_eq!(target.cost, cost);
        assert_eq!(bits(&target.hessian), bits(&patterns(9)));
        assert_eq!(bits(&target.gradient), bits(&patterns(3)));
    }
}

#[test]
fn words_then_transforms_then_segments() {
    let (bad, past) = (UNMAPPED + 1, 9);
    let (good, wide, tall) = ([2, 1], [2, 10], [3, 1]);
    for factor in both() {
        // A map of two words, of which the second has no frame.
        for (map, shapes, answer) in [
            ([past, bad], [wide, tall], Err(Refusal::MapWord)),
            ([bad, 0], [good, NONE], Err(Refusal::MapWord)),
            ([past, 0], [wide, NONE], Err(Refusal::Transform)),
            ([past, 0], [tall, NONE], Err(Refusal::Transform)),
            ([past, 0], [good, wide], Err(Refusal::Transform)),
            ([past, UNMAPPED], [NONE, tall], Err(Refusal::Transform)),
            ([0, 0], [good, tall], Err(Refusal::Transform)),
            ([UNMAPPED, 0], [wide, NONE], Err(Refusal::Transform)),
            ([past, 0], [good, NONE], Err(Refusal::Segment)),
            ([3, 0], [good, good], Err(Refusal::Segment)),
            ([2, past], [NONE, good], Err(Refusal::Segment)),
            ([2, past], [good, good], Ok(())),
            ([1, past], [NONE, good], Ok(())),
        ] {
            let beside = Beside::of(&shapes.map(|shape| (shape, &[1.0, 2.0][..])));
            let mut target = Target::patterned(3);
            assert_eq!(
                factor.accumulate(2, &map, &beside, &mut target),
                answer,
                "{map:X?} {shapes:X?}"
            );
        }
    }
}

/// Only both numbers together say that there is no transform.
#[test]
fn half_a_shape_of_none_is_a_bad_shape() {
    for factor in both() {
        for shape in [
            [NO_TRANSFORM, 1],
            [2, NO_TRANSFORM],
            [NO_TRANSFORM, NO_TRANSFORM - 1],
            [NO_TRANSFORM - 1; 2],
            [0, 0],
            [1, 2],
            [3, 9],
            [2, 10],
        ] {
            let beside = Beside::of(&[(shape, &[])]);
            let answer = factor.accumulate(2, &[0], &beside, &mut Target::patterned(9));
            assert_eq!(answer, Err(Refusal::Transform), "{shape:X?}");
        }
    }
}

/// The answer beside a map with slices of these lengths, which say that no word has a transform.
fn of_lengths(
    factor: &Factor,
    map: &[u32],
    shapes: usize,
    transforms: usize,
) -> Result<(), Refusal> {
    let beside = Beside {
        shapes: vec![NO_TRANSFORM; shapes],
        transforms: patterns(transforms),
    };
    factor.accumulate(2, map, &beside, &mut Target::patterned(3))
}

#[test]
fn two_and_81_numbers_a_word_or_none() {
    let bad_word = [UNMAPPED + 1, 0];
    for factor in both() {
        for shapes in [0, 1, 2, 3, 4, 5] {
            for transforms in [0, 1, 81, 161, 162, 163] {
                let expected = match (shapes, transforms) {
                    (0, 0) | (4, 162) => Refusal::MapWord,
                    _ => Refusal::Length,
                };
                let answer = of_lengths(&factor, &bad_word, shapes, transforms);
                assert_eq!(answer, Err(expected), "{shapes} and {transforms}");
            }
        }
        // Beside no words both are empty.
        for lengths in [(2, TRANSFORM), (0, TRANSFORM), (2, 0)] {
            let answer = of_lengths(&factor, &[], lengths.0, lengths.1);
            assert_eq!(answer, Err(Refusal::Length));
        }
        assert_eq!(of_lengths(&factor, &[], 0, 0), Ok(()));
    }
}

#[test]
fn as_many_words_as_allowed_and_no_more() {
    for factor in both() {
        for (words, expected) in [(MAX_WORDS, Ok(())), (MAX_WORDS + 1, Err(Refusal::Length))] {
            let map = vec![UNMAPPED; words];
            for [shapes, transforms] in [[2 * words, TRANSFORM * words], [0, 0]] {
                let answer = of_lengths(&factor, &map, shapes, transforms);
                assert_eq!(answer, expected);
            }
        }
    }
}

/// Each reason of the frames' call with those after it.
#[test]
fn reasons_of_frames() {
    let call = |dof: u32, [frames, actions, decomposition]: [usize; 3], sigma: f64| {
        let mut own = frame(SCATTER);
        own.frames.resize(frames, 0.0);
        own.actions.resize(actions, 0.0);
        own.decomposition.resize(decomposition, 0.0);
        own.sigma = sigma;
        let wide = Beside::of(&[([2, 10], &[])]);
        Factor::Frames(own).accumulate(dof, &[9], &wide, &mut Target::patterned(3))
    };
    let right = [13, ACTION, DECOMPOSITION];
    assert_eq!(call(10, [0, 0, 0], 0.0), Err(Refusal::Dof));
    assert_eq!(call(2, [0, 0, 0], 0.0), Err(Refusal::EmptyList));
    assert_eq!(call(2, [12, 0, DECOMPOSITION], 0.0), Err(Refusal::Length));
    assert_eq!(call(2, [13, 0, 11], 0.0), Err(Refusal::Length));
    assert_eq!(call(2, [13, 0, DECOMPOSITION], 0.0), Err(Refusal::Sigma));
    assert_eq!(call(2, [13, 0, DECOMPOSITION], 1.0), Err(Refusal::Actions));
    assert_eq!(call(2, right, 1.0), Err(Refusal::Transform));
}

/// Each reason of the matches' call with those after it.
#[test]
fn reasons_of_matches() {
    let call = |dof: u32, matches: &[f64], action: usize| {
        let factor = Factor::Matches {
            matches: matches.to_vec(),
            action: vec![1.0; action],
        };
        let wide = Beside::of(&[([2, 10], &[])]);
        factor.accumulate(dof, &[9], &wide, &mut Target::patterned(3))
    };
    let good = [1.0; MATCH];
    let [mut bad_point, mut bad_sigma] = [good; 2];
    bad_point[2] = f64::NAN;
    bad_sigma[7] = 0.0;
    assert_eq!(call(10, &[], 0), Err(Refusal::Dof));
    assert_eq!(call(2, &[], 0), Err(Refusal::EmptyList));
    assert_eq!(call(2, &bad_point[..7], 0), Err(Refusal::Length));
    let lists = [[good, bad_point, bad_sigma], [good, bad_sigma, bad_point]];
    assert_eq!(call(2, lists[0].as_flattened(), 0), Err(Refusal::NotFinite));
    assert_eq!(call(2, lists[1].as_flattened(), 0), Err(Refusal::Sigma));
    assert_eq!(call(2, &good, ACTION - 1), Err(Refusal::Actions));
    assert_eq!(call(2, &good, ACTION), Err(Refusal::Transform));
}

#[test]
fn without_a_plane_the_transforms_are_tested_too() {
    let mut own = frame(SCATTER);
    own.decomposition[1] = 0.0;
    let factor = Factor::Frames(own);
    let mut target = Target::patterned(3);
    let of_shape = |shape| Beside::of(&[(shape, &[1.0, 2.0][..])]);
    let answer = factor.accumulate(2, &[0], &of_shape([3, 1]), &mut target);
    assert_eq!(answer, Err(Refusal::Transform));
    let answer = factor.accumulate(2, &[0], &of_shape([2, 1]), &mut target);
    assert_eq!((answer, target.cost.to_bits()), (Ok(()), 0));
    assert_eq!(bits(&target.hessian), bits(&patterns(9)));
    assert_eq!(bits(&target.gradient), bits(&patterns(3)));
}
