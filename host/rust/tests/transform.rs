//! A further transform beside a map, on slices: the product at its place, and every other word as it came.

mod beside;
mod lent;

use beside::{numbers, Beside, NONE};
use lent::{bits, patterns};
use maghnelt::{slices, Refusal, MAX_WORDS, NO_TRANSFORM, TRANSFORM, UNMAPPED};

/// A shape with the entries of the matrix, its columns first.
type Matrix<'a> = ([u32; 2], &'a [f64]);

/// A word without a transform.
const NO_MATRIX: Matrix = (NONE, &[]);

/// What an output of words has in it when it is lent.
const LENT: u32 = 0xA5A5_A5A5;

/// The call with outputs of these lengths, and what it makes of them. A refused one leaves them.
fn call(
    dof: u32,
    map: &[u32],
    beside: &Beside,
    place: u32,
    (further_shape, further): (&[u32], &[f64]),
    [of_shapes, of_transforms]: [usize; 2],
) -> Result<Beside, Refusal> {
    let mut out = Beside {
        shapes: vec![LENT; of_shapes],
        transforms: patterns(of_transforms),
    };
    let answer = slices::transform(
        dof,
        map,
        &beside.shapes,
        &beside.transforms,
        place,
        further_shape,
        further,
        &mut out.shapes,
        &mut out.transforms,
    );
    if answer.is_err() {
        assert_eq!(out.shapes, vec![LENT; of_shapes]);
        assert_eq!(bits(&out.transforms), bits(&patterns(of_transforms)));
    }
    answer.map(|()| out)
}

/// The call with all lengths right.
fn transform(
    dof: u32,
    map: &[u32],
    beside: &Beside,
    place: u32,
    further: Matrix,
) -> Result<Beside, Refusal> {
    let outputs = [2 * map.len(), TRANSFORM * map.len()];
    let record = numbers(further.1);
    call(dof, map, beside, place, (&further.0, &record), outputs)
}

/// Why that is refused.
fn refusal(dof: u32, map: &[u32], beside: &Beside, place: u32, further: Matrix) -> Option<Refusal> {
    transform(dof, map, beside, place, further).err()
}

/// The bits of a matrix that is newly made.
fn newly_made(entries: &[f64]) -> Vec<u64> {
    let mut all = [0.0; TRANSFORM];
    all[..entries.len()].copy_from_slice(entries);
    bits(&all)
}

#[test]
fn the_further_one_multiplies_from_the_left() {
    let old: Matrix = ([3, 1], &[1.0, 10.0, 100.0]);
    let further: Matrix = ([2, 3], &[1.0, 2.0, 3.0, 4.0, 5.0, 6.0]);
    let out = transform(2, &[0], &Beside::of(&[old]), 0, further).unwrap();
    assert_eq!(out.shapes, [2, 1]);
    assert_eq!(bits(&out.transforms), newly_made(&[531.0, 642.0]));

    // Two of two rows and columns, the other way round another product.
    let old: Matrix = ([2, 2], &[1.0, 0.0, 1.0, 1.0]);
    let further: Matrix = ([2, 2], &[2.0, 0.0, 0.0, 3.0]);
    let out = transform(2, &[0], &Beside::of(&[old]), 0, further).unwrap();
    assert_eq!(out.shapes, [2, 2]);
    assert_eq!(bits(&out.transforms), newly_made(&[2.0, 0.0, 2.0, 3.0]));
}

#[test]
fn the_first_one_is_taken_as_it_is() {
    let entries = [-0.0, 5e-324, f64::NEG_INFINITY, 1.0, 0.1, -2.0];
    let map = [4, UNMAPPED, 0];
    for beside in [Beside::EMPTY, Beside::of(&[NO_MATRIX; 3])] {
        for place in 0..3 {
            let out = transform(3, &map, &beside, place, ([3, 2], &entries)).unwrap();
            let at = place as usize;
            assert_eq!(out.shapes[2 * at..][..2], [3, 2]);
            let written = &out.transforms[TRANSFORM * at..][..TRANSFORM];
            assert_eq!(bits(written), newly_made(&entries));
        }
    }
}

#[test]
fn other_words_keep_shape_and_numbers() {
    let beside = Beside::of(&[
        ([1, 2], &[7.0, 8.0]),
        NO_MATRIX,
        // Rows are not tested where nothing is multiplied.
        ([1000, 9], &[]),
        ([2, 0], &[]),
    ]);
    let entries = [1.0; 18];
    for (place, columns) in [(0, 1), (1, 9), (3, 2), (4, 3), (NO_TRANSFORM, 0)] {
        let further: Matrix = ([2, columns], &entries[..2 * columns as usize]);
        let out = transform(2, &[0, 5, UNMAPPED, 9], &beside, place, further).unwrap();
        for word in (0..4).filter(|word| *word != place as usize) {
            assert_eq!(out.shapes[2 * word..][..2], beside.shapes[2 * word..][..2]);
            let own = TRANSFORM * word..TRANSFORM * (word + 1);
            let [after, before] = [&out, &beside].map(|all| bits(&all.transforms[own.clone()]));
            assert_eq!(after, before, "word {word}, place {place}");
        }
    }
}

#[test]
fn beside_empty_slices_no_word_had_a_transform() {
    let out = transform(1, &[0, 5, UNMAPPED], &Beside::EMPTY, 1, ([1, 1], &[2.0])).unwrap();
    assert_eq!(out.shapes, [NONE, [1, 1], NONE].as_flattened());
    let all = [newly_made(&[]), newly_made(&[2.0]), newly_made(&[])];
    assert_eq!(bits(&out.transforms), all.concat());
    // A place past the end changes no word.
    for place in [3, u32::MAX] {
        let out = transform(
            1,
            &[0, 5, UNMAPPED],
            &Beside::EMPTY,
            place,
            ([1, 1], &[2.0]),
        )
        .unwrap();
        assert_eq!(out.shapes, [NO_TRANSFORM; 6]);
        assert_eq!(bits(&out.transforms), [0; 3 * TRANSFORM]);
    }
    let out = transform(1, &[], &Beside::EMPTY, 0, ([1, 1], &[2.0])).unwrap();
    assert!(out.shapes.is_empty() && out.transforms.is_empty());
}

/// Entry by entry, the products in rising index from the first.
#[test]
fn how_products_are_added() {
    let product = |further: &[f64], old: &[f64]| {
        let between = old.len() as u32;
        let out = transform(
            1,
            &[0],
            &Beside::of(&[([between, 1], old)]),
            0,
            ([1, between], further),
        );
        out.unwrap().transforms[0]
    };
    assert_eq!(product(&[-1.0], &[0.0]).to_bits(), (-0.0_f64).to_bits());
    let large = 2_f64.powi(53);
    // An odd number behind 2^53 is a tie, and goes to the even one below.
    assert_eq!(product(&[large, 1.0, 1.0], &[1.0; 3]), large);
    assert_eq!(product(&[1.0, 1.0, large], &[1.0; 3]), large + 2.0);
    // A sum of no products.
    assert_eq!(product(&[], &[]).to_bits(), 0);
}

#[test]
fn matrices_without_rows_or_columns() {
    // Two rows over none, and three columns.
    let old: Matrix = ([0, 3], &[]);
    let out = transform(2, &[0], &Beside::of(&[old]), 0, ([2, 0], &[])).unwrap();
    assert_eq!(out.shapes, [2, 3]);
    assert_eq!(bits(&out.transforms), newly_made(&[]));
    let old: Matrix = ([2, 3], &[1.0; 6]);
    let out = transform(0, &[0], &Beside::of(&[old]), 0, ([0, 2], &[])).unwrap();
    assert_eq!(out.shapes, [0, 3]);
    assert_eq!(bits(&out.transforms), newly_made(&[]));
}

#[test]
fn the_largest_product() {
    let old: Vec<f64> = (1..=81).map(f64::from).collect();
    // Row r of the product is row 8 − r, twice.
    let mut further = [0.0; 81];
    (0..9).for_each(|c| further[9 * c + 8 - c] = 2.0);
    let out = transform(
        9,
        &[0],
        &Beside::of(&[([9, 9], &old)]),
        0,
        ([9, 9], &further),
    )
    .unwrap();
    assert_eq!(out.shapes, [9, 9]);
    for (c, column) in out.transforms.chunks(9).enumerate() {
        for (r, x) in column.iter().enumerate() {
            assert_eq!(*x, 2.0 * old[9 * c + 8 - r]);
        }
    }
}

#[test]
fn further_ones_that_are_refused() {
    let beside = Beside::of(&[([3, 1], &[1.0; 3]), NO_MATRIX]);
    let map = [0, 5];
    let bad = Some(Refusal::Transform);
    // Not dof rows, more than nine columns, or no matrix at all: wherever the place is.
    for place in [0, 1, 2, u32::MAX] {
        for shape in [
            [1, 3],
            [3, 3],
            [2, 10],
            [2, NO_TRANSFORM],
            [NO_TRANSFORM, 3],
            NONE,
        ] {
            assert_eq!(
                refusal(2, &map, &beside, place, (shape, &[])),
                bad,
                "{shape:X?}"
            );
            assert_eq!(refusal(2, &map, &Beside::EMPTY, place, (shape, &[])), bad);
            assert_eq!(refusal(2, &[], &Beside::EMPTY, place, (shape, &[])), bad);
        }
    }
    // Other columns than the one at the place has rows, and only there.
    for columns in [0, 1, 2, 4, 9] {
        let further: Matrix = ([2, columns], &[]);
        assert_eq!(refusal(2, &map, &beside, 0, further), bad);
        assert_eq!(refusal(2, &map, &beside, 1, further), None);
        assert_eq!(refusal(2, &map, &beside, 2, further), None);
        assert_eq!(refusal(2, &map, &Beside::EMPTY, 0, further), None);
    }
    assert_eq!(refusal(2, &map, &beside, 0, ([2, 3], &[])), None);
}

#[test]
fn words_whose_transforms_are_refused() {
    let bad = Some(Refusal::Transform);
    for (shape, expected) in [
        ([2, 9], None),
        ([2, 10], bad),
        ([0, NO_TRANSFORM], bad),
        ([NO_TRANSFORM, 10], bad),
        ([NO_TRANSFORM, 9], None),
        (NONE, None),
    ] {
        let beside = Beside::of(&[NO_MATRIX, (shape, &[])]);
        for place in [0, 2] {
            let answer = refusal(2, &[0, UNMAPPED], &beside, place, ([2, 1], &[]));
            assert_eq!(answer, expected, "{shape:X?}");
        }
    }
    // Ten rows below a further one of ten columns.
    let beside = Beside::of(&[([10, 1], &[])]);
    assert_eq!(refusal(2, &[0], &beside, 0, ([2, 10], &[])), bad);
}

#[test]
fn dof_then_lengths_then_words_then_transforms() {
    let wide = Beside::of(&[([1, 10], &[])]);
    let bad_word = [UNMAPPED + 1];
    let answer = |dof: u32, map: &[u32], [shape, numbers]: [usize; 2], outputs: [usize; 2]| {
        let further = (&NONE[..shape], &patterns(TRANSFORM + 1)[..numbers]);
        call(dof, map, &wide, 0, further, outputs).err()
    };
    let (further, outputs) = ([2, TRANSFORM], [2, TRANSFORM]);
    assert_eq!(answer(10, &bad_word, [0, 0], [0, 0]), Some(Refusal::Dof));
    assert_eq!(answer(u32::MAX, &[], [0, 0], [0, 0]), Some(Refusal::Dof));
    for short in [
        [0, TRANSFORM],
        [1, TRANSFORM],
        [2, 0],
        [2, TRANSFORM - 1],
        [2, TRANSFORM + 1],
    ] {
        assert_eq!(answer(9, &bad_word, short, outputs), Some(Refusal::Length));
    }
    for wrong in [
        [0, TRANSFORM],
        [1, TRANSFORM],
        [3, TRANSFORM],
        [2, 0],
        [2, 80],
        [2, 82],
        [4, 162],
    ] {
        assert_eq!(answer(9, &bad_word, further, wrong), Some(Refusal::Length));
    }
    for map in [&[][..], &[UNMAPPED + 1; 2]] {
        let outputs = [2 * map.len(), TRANSFORM * map.len()];
        assert_eq!(answer(9, map, further, outputs), Some(Refusal::Length));
    }
    assert_eq!(
        answer(9, &bad_word, further, outputs),
        Some(Refusal::MapWord)
    );
    assert_eq!(answer(9, &[0], further, outputs), Some(Refusal::Transform));
}

#[test]
fn as_many_words_as_allowed_and_no_more() {
    for (words, expected) in [(MAX_WORDS, None), (MAX_WORDS + 1, Some(Refusal::Length))] {
        let map = vec![UNMAPPED; words];
        let last = words as u32 - 1;
        let none = Beside::of(&vec![NO_MATRIX; words]);
        for beside in [&Beside::EMPTY, &none] {
            assert_eq!(
                refusal(2, &map, beside, last, ([2, 1], &[1.0; 2])),
                expected
            );
        }
    }
    // Half of what lies beside a map.
    let (shapes, transforms) = (vec![NO_TRANSFORM; 4], patterns(2 * TRANSFORM));
    for (shapes, transforms) in [
        (&shapes[..], &transforms[..0]),
        (&[], &transforms),
        (&shapes[..2], &transforms),
    ] {
        let beside = Beside {
            shapes: shapes.to_vec(),
            transforms: transforms.to_vec(),
        };
        assert_eq!(
            refusal(2, &[0, 5], &beside, 0, ([2, 1], &[1.0; 2])),
            Some(Refusal::Length)
        );
    }
}
