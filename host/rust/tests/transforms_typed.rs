//! Transforms by their types: what a matrix may be, what lies beside a map, and what factors add through it.

mod lent;

use lent::{bits, patterns};
use maghnelt::{
    Action, BlockMap, Decomposition, FrameFactor, MatchList, Moments, NormalEquations, Plane,
    PlaneMatch, Refusal, Transform, Transforms, MAX_WORDS, NO_TRANSFORM, TRANSFORM,
};

const UNIT: [[f64; 3]; 3] = [[1.0, 0.0, 0.0], [0.0, 1.0, 0.0], [0.0, 0.0, 1.0]];
const X: [f64; 3] = UNIT[0];

/// A turn about x by the angle whose cosine is 0.6 and whose sine is 0.8, and then about z by the same.
const TILTED: [[f64; 3]; 3] = [[0.6, 0.8, 0.0], [-0.48, 0.36, 0.8], [0.64, -0.48, 0.6]];

fn columns<const ROWS: usize>(columns: &[[f64; ROWS]]) -> Transform {
    Transform::from_columns(columns).unwrap()
}

fn map(offsets: &[Option<u32>]) -> BlockMap {
    BlockMap::new(offsets.iter().copied()).unwrap()
}

#[test]
fn a_matrix_has_its_columns_first() {
    let t = columns(&[[1.0, 2.0, 3.0], [4.0, 5.0, 6.0]]);
    assert_eq!((t.rows(), t.columns()), (3, 2));
    assert_eq!((t.entry(2, 0), t.entry(0, 1)), (3.0, 4.0));
    let numbers = [1.0, 2.0, 3.0, 4.0, 5.0, 6.0];
    assert_eq!(t.as_array()[..6], numbers);
    assert_eq!(bits(&t.as_array()[6..]), [0; TRANSFORM - 6]);
    assert_eq!(Transform::new(3, 2, &numbers), Ok(t));
    assert_ne!(Transform::new(2, 3, &numbers), Ok(t));
}

#[test]
#[should_panic(expected = "row 3 of 3")]
fn no_row_past_the_last() {
    let _ = columns(&[[1.0, 2.0, 3.0], [4.0, 5.0, 6.0]]).entry(3, 0);
}

#[test]
#[should_panic(expected = "column 2 of 2")]
fn no_column_past_the_last() {
    let _ = columns(&[[1.0, 2.0, 3.0], [4.0, 5.0, 6.0]]).entry(0, 2);
}

#[test]
fn matrices_that_are_refused() {
    let new = |rows, columns, length| {
        let made = Transform::new(rows, columns, &vec![1.0; length]);
        made.map(|t| (t.rows(), t.columns()))
    };
    for (rows, columns) in [(9, 9), (0, 9), (9, 0), (0, 0), (1, 9)] {
        assert_eq!(new(rows, columns, rows * columns), Ok((rows, columns)));
    }
    let huge = usize::MAX;
    for (rows, columns) in [
        (10, 9),
        (9, 10),
        (10, 10),
        (1, 10),
        (10, 1),
        (0, 10),
        (10, 0),
        (huge, 0),
        (0, huge),
    ] {
        let expected = Err(Refusal::Transform);
        assert_eq!(
            new(rows, columns, rows * columns),
            expected,
            "{rows} by {columns}"
        );
    }
    for (rows, columns, length) in [(2, 3, 5), (2, 3, 7), (0, 3, 1), (10, 10, 81), (huge, 2, 0)] {
        assert_eq!(new(rows, columns, length), Err(Refusal::Length));
    }
    assert_eq!(
        Transform::from_columns(&[[0.0; 10]; 2]),
        Err(Refusal::Transform)
    );
    assert_eq!(
        Transform::from_columns(&[[0.0; 2]; 10]),
        Err(Refusal::Transform)
    );
    assert_eq!(columns::<6>(&[]).columns(), 0);
    assert_eq!(columns(&[[0.0; 0]; 4]).columns(), 4);
}

#[test]
fn a_step_is_the_matrix_times_the_part() {
    let t = columns(&[[1.0, 2.0, 3.0], [10.0, 20.0, 40.0]]);
    assert_eq!(t.step(&[1.0, -1.0]).unwrap(), [-9.0, -18.0, -37.0]);
    for part in [0, 1, 3, 9, 10] {
        assert_eq!(t.step(&vec![1.0; part]), Err(Refusal::Transform));
    }
    assert_eq!(columns::<2>(&[]).step(&[]).unwrap(), [0.0, 0.0]);
    assert!(columns(&[[0.0; 0]; 4]).step(&[1.0; 4]).unwrap().is_empty());
}

#[test]
fn a_locked_height() {
    let t = Transform::locked_height(&TILTED);
    // Rows 0 and 1 of the rotation, then the turns.
    let along_x = [0.6, -0.48, 0.64, 0.0, 0.0, 0.0];
    let along_y = [0.8, 0.36, -0.48, 0.0, 0.0, 0.0];
    let turn = |axis: usize| std::array::from_fn(|row| f64::from(row == 3 + axis));
    assert_eq!(t, columns(&[along_x, along_y, turn(0), turn(1), turn(2)]));

    let step = t.step(&[2.0, -1.0, 0.1, 0.2, 0.3]).unwrap();
    let in_site: [f64; 3] = std::array::from_fn(|r| (0..3).map(|c| TILTED[c][r] * step[c]).sum());
    for (moved, expected) in in_site.into_iter().zip([2.0, -1.0, 0.0]) {
        assert!((moved - expected).abs() < 1e-15, "{moved}");
    }
    assert_eq!(step[3..], [0.1, 0.2, 0.3]);
}

#[test]
fn what_lies_beside_a_map() {
    let t = columns(&[[1.0, 2.0]]);
    let beside = Transforms::new([None, Some(t)]).unwrap();
    assert_eq!(beside.shapes(), [NO_TRANSFORM, NO_TRANSFORM, 2, 1]);
    assert_eq!(beside.numbers()[..TRANSFORM], [0.0; TRANSFORM]);
    assert_eq!(beside.numbers()[TRANSFORM..], *t.as_array());
    assert_eq!(
        [0, 1, 2].map(|k| beside.transform(k)),
        [None, Some(t), None]
    );
    assert_eq!([0, 1, 2].map(|k| beside.width(2, k)), [2, 1, 2]);

    assert_eq!(Transforms::new([]), Ok(Transforms::NONE));
    assert_eq!(Transforms::default(), Transforms::NONE);
    assert!(Transforms::NONE.shapes().is_empty() && Transforms::NONE.numbers().is_empty());
    assert_eq!(
        (Transforms::NONE.transform(0), Transforms::NONE.width(6, 0)),
        (None, 6)
    );

    let most = Transforms::new(vec![Some(t); MAX_WORDS]).unwrap();
    assert_eq!(most.width(2, MAX_WORDS - 1), 1);
    assert_eq!(
        Transforms::new(std::iter::repeat(None)),
        Err(Refusal::Length)
    );
}

#[test]
fn a_further_transform_multiplies_from_the_left() {
    let map = map(&[Some(0), None]);
    let old = columns(&[[1.0, 10.0, 100.0]]);
    let further = columns(&[[1.0, 2.0], [3.0, 4.0], [5.0, 6.0]]);
    let beside = Transforms::new([Some(old), Some(old)]).unwrap();
    let after = beside.transformed(2, &map, 0, &further).unwrap();
    let product = columns(&[[531.0, 642.0]]);
    assert_eq!(after, Transforms::new([Some(product), Some(old)]).unwrap());
    // Beside none the first one is taken, and past the end none.
    let first = Transforms::NONE.transformed(2, &map, 1, &further).unwrap();
    assert_eq!(first, Transforms::new([None, Some(further)]).unwrap());
    for place in [2, usize::MAX] {
        assert_eq!(
            beside.transformed(2, &map, place, &further),
            Ok(beside.clone())
        );
        let none = Transforms::NONE.transformed(2, &map, place, &further);
        assert_eq!(none, Transforms::new([None, None]));
    }
}

#[test]
fn further_transforms_that_are_refused() {
    let two = map(&[Some(0), None]);
    let t = columns(&[[1.0, 2.0], [3.0, 4.0]]);
    let beside = Transforms::new([Some(t), None]).unwrap();
    let narrow = columns(&[[1.0, 2.0]]);
    let refused = |dof, map: &BlockMap, further: &Transform| {
        beside.transformed(dof, map, 0, further).unwrap_err()
    };
    let one = map(&[Some(0)]);
    assert_eq!(refused(10, &one, &narrow), Refusal::Dof);
    assert_eq!(refused(3, &one, &narrow), Refusal::Length);
    assert_eq!(refused(3, &BlockMap::NOT_WANTED, &narrow), Refusal::Length);
    assert_eq!(refused(3, &two, &t), Refusal::Transform);
    assert_eq!(refused(2, &two, &narrow), Refusal::Transform);
    assert_eq!(
        beside.transformed(2, &two, 1, &narrow).unwrap().width(2, 1),
        1
    );
}

/// A frame of the plane x = 0 whose block by columns is (1, 4, 5), (4, 5, 6), (5, 6, 7) and whose vector is (5, 6, 7), up to the
/// dof, with its action and decomposition. It costs 7.
fn frame(dof: u32) -> (FrameFactor, [Action; 1], Decomposition) {
    let mut record = *Moments::EMPTY.as_array();
    record[0] = 4.0;
    let outer = [[1.0, 4.0, 5.0], [4.0, 5.0, 6.0], [5.0, 6.0, 7.0]];
    record[4..13].copy_from_slice(outer.as_flattened());
    // The normal is (0, 0, 1) in the frame, and parameter k turns axis k along x.
    let turned = [UNIT[1], UNIT[2], UNIT[0]];
    let zero = [0.0; 3];
    let axes: [&[[f64; 3]]; 3] = [&[X], &[zero, X], &[zero, zero, X]];
    let decomposition = Decomposition {
        eigenvalues: [0.0, 1.0, 2.0],
        vectors: UNIT,
    };
    let factor = FrameFactor::new(dof, &[Moments::from(record)], None, 1.0).unwrap();
    (
        factor,
        [Action::new(&turned, &zero, &[], axes)],
        decomposition,
    )
}

/// One match of the residual 2 and the row (3, 5, 0, …).
fn one_match(dof: u32) -> (MatchList, Action) {
    let plane = Plane {
        normal: X,
        offset: 0.0,
    };
    let record = PlaneMatch {
        point: [2.0, 0.0, 0.0],
        plane,
        sigma: 1.0,
    };
    let origin = [[3.0, 0.0, 0.0], [5.0, 0.0, 0.0]];
    let pose = Action::new(&UNIT, &[0.0; 3], &origin, [&[]; 3]);
    (MatchList::new(dof, [record]), pose)
}

/// A call that adds to normal equations and gives a cost.
type Call<'a> = &'a dyn Fn(&mut NormalEquations) -> Result<f64, Refusal>;

/// The frame's and the list's own call with transforms, on a target that a refused one leaves.
fn accumulated(
    dof: u32,
    map: &BlockMap,
    beside: &Transforms,
    order: usize,
) -> [Result<(f64, NormalEquations), Refusal>; 2] {
    let mut lent = NormalEquations::zeros(order);
    let (hessian, gradient) = lent.parts_mut();
    hessian.copy_from_slice(&patterns(order * order));
    gradient.copy_from_slice(&patterns(order));
    let (factor, actions, fitted) = frame(dof);
    let (matches, pose) = one_match(dof);
    let calls: [Call; 2] = [
        &|normal| factor.accumulate_transformed(&actions, &fitted, map, beside, normal),
        &|normal| matches.accumulate_transformed(&pose, map, beside, normal),
    ];
    calls.map(|call| {
        let mut normal = lent.clone();
        if let Err(refusal) = call(&mut normal) {
            assert_eq!(bits(normal.columns()), bits(lent.columns()));
            assert_eq!(bits(normal.gradient()), bits(lent.gradient()));
            return Err(refusal);
        }
        let mut normal = NormalEquations::zeros(order);
        let cost = call(&mut normal)?;
        Ok((cost, normal))
    })
}

#[test]
fn a_block_and_a_vector_between_a_transform() {
    let beside = Transforms::new([Some(columns(&[[1.0, 2.0]]))]).unwrap();
    let [frame, list] = accumulated(2, &map(&[Some(1)]), &beside, 2).map(Result::unwrap);
    // U = (9, 14), and v = (5, 6).
    assert_eq!(frame.0, 7.0);
    assert_eq!(frame.1.columns(), [0.0, 0.0, 0.0, 37.0]);
    assert_eq!(frame.1.gradient(), [0.0, 17.0]);
    // The row becomes 3 + 2·5.
    assert_eq!(list.0, 4.0);
    assert_eq!(list.1.columns(), [0.0, 0.0, 0.0, 169.0]);
    assert_eq!(list.1.gradient(), [0.0, 26.0]);
}

/// A row J becomes (J·further)·old.
#[test]
fn the_further_transform_meets_the_block_first() {
    let map = map(&[Some(0)]);
    let beside = Transforms::new([Some(columns(&[[1.0, 2.0]]))]).unwrap();
    let further = columns(&[[1.0, 0.0], [1.0, 1.0]]);
    let total = beside.transformed(2, &map, 0, &further).unwrap();
    let [_, list] = accumulated(2, &map, &total, 1).map(Result::unwrap);
    // (3, 5) becomes (3, 8) and then 19.
    assert_eq!(list.1.columns(), [361.0]);
    assert_eq!(list.1.gradient(), [38.0]);
}

#[test]
fn a_locked_height_needs_five_rows() {
    let map = map(&[Some(0)]);
    let beside = Transforms::new([Some(Transform::locked_height(&UNIT))]).unwrap();
    let none = accumulated(6, &map, &Transforms::NONE, 5);
    assert_eq!(none.map(Result::unwrap_err), [Refusal::Segment; 2]);
    let [frame, list] = accumulated(6, &map, &beside, 5).map(Result::unwrap);
    // The frame's third parameter is gone, which had 7 in the Hessian.
    assert_eq!((frame.1.hessian(1, 1), frame.1.hessian(2, 2)), (5.0, 0.0));
    assert_eq!(frame.1.gradient(), [5.0, 6.0, 0.0, 0.0, 0.0]);
    assert_eq!(list.1.gradient(), [6.0, 10.0, 0.0, 0.0, 0.0]);
    let past = accumulated(6, &BlockMap::new([Some(1)]).unwrap(), &beside, 5);
    assert_eq!(past.map(Result::unwrap_err), [Refusal::Segment; 2]);
}

#[test]
fn without_transforms_the_calls_are_the_old_ones() {
    for dof in [0, 1, 2, 6, 9] {
        for map in [
            map(&[Some(1)]),
            map(&[None]),
            BlockMap::NOT_WANTED,
            map(&[Some(3), Some(0)]),
        ] {
            let order = 12;
            let beside = Transforms::new(vec![None; map.words().len()]).unwrap();
            let [frames, list] = accumulated(dof, &map, &Transforms::NONE, order);
            assert_eq!(
                accumulated(dof, &map, &beside, order),
                [frames.clone(), list.clone()]
            );
            let mut normal = NormalEquations::zeros(order);
            let (factor, actions, fitted) = frame(dof);
            let cost = factor.accumulate(&actions, &fitted, &map, &mut normal);
            assert_eq!(frames, cost.map(|cost| (cost, normal)));
            let mut normal = NormalEquations::zeros(order);
            let (matches, pose) = one_match(dof);
            let cost = matches.accumulate(&pose, &map, &mut normal);
            assert_eq!(list, cost.map(|cost| (cost, normal)));
        }
    }
}

#[test]
fn lengths_then_transforms_then_segments() {
    let [good, tall] = [columns(&[[1.0, 2.0]]), columns(&[[1.0, 2.0, 3.0]])];
    let past = Some(9);
    for (offsets, of_words, expected) in [
        (&[past][..], &[Some(tall), None][..], Refusal::Length),
        (&[past, None], &[Some(tall)], Refusal::Length),
        (&[], &[Some(tall)], Refusal::Length),
        (&[past], &[Some(tall)], Refusal::Transform),
        // Of no frame.
        (&[past, None], &[None, Some(tall)], Refusal::Transform),
        (&[None], &[Some(tall)], Refusal::Transform),
        (&[past], &[Some(good)], Refusal::Segment),
        (&[Some(2)], &[None], Refusal::Segment),
    ] {
        let beside = Transforms::new(of_words.iter().copied()).unwrap();
        let answers = accumulated(2, &map(offsets), &beside, 3);
        assert_eq!(
            answers.map(Result::unwrap_err),
            [expected; 2],
            "{offsets:?}"
        );
    }
}

/// With the Jacobian J of the same matches: H = (J·T)ᵀ·(J·T) and g = (J·T)ᵀ·r.
#[test]
fn a_locked_height_is_the_jacobian_times_the_transform() {
    let normals = [[0.0, 0.0, 1.0], [0.6, 0.8, 0.0], [-0.48, 0.6, 0.64]];
    let matches = MatchList::new(
        6,
        normals.into_iter().enumerate().flat_map(|(k, normal)| {
            [[1.0, 2.0, 3.0], [-4.0, 0.5, 1.0], [2.0, -3.0, 0.25]].map(|point| PlaneMatch {
                point,
                plane: Plane {
                    normal,
                    offset: k as f64 - 2.0,
                },
                sigma: 0.5,
            })
        }),
    );
    let pose = Action::rigid(&TILTED, &[1.0, 2.0, 1.5]);
    let t = Transform::locked_height(&TILTED);
    let rows = matches.linearize(&pose).unwrap();
    let narrow = |row: usize, c: usize| -> f64 {
        (0..6).map(|k| rows.jacobian(row, k) * t.entry(k, c)).sum()
    };
    let mut normal = NormalEquations::zeros(5);
    let beside = Transforms::new([Some(t)]).unwrap();
    let cost = matches.accumulate_transformed(&pose, &map(&[Some(0)]), &beside, &mut normal);
    assert_eq!(cost, matches.cost(&pose));
    // No entry of J·T is above 9 and no residual above 18, so that nine products sum to less than 1500, and some twenty
    // roundings are less than 1e-11.
    for i in 0..5 {
        for j in 0..5 {
            let h: f64 = (0..9).map(|row| narrow(row, i) * narrow(row, j)).sum();
            assert!((normal.hessian(i, j) - h).abs() < 1e-11, "{i} {j}");
        }
        let g: f64 = (0..9)
            .map(|row| narrow(row, i) * rows.residual()[row])
            .sum();
        assert!((normal.gradient()[i] - g).abs() < 1e-11, "{i}");
    }
}
