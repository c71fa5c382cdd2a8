//! Multiplying the transform of a word by a further one, against the model.

use crate::beside::{
    bad_rows, some_columns, some_numbers, wrong_of, Beside, BAD_COLUMNS, WRONG_LENGTHS,
};
use crate::called::{each_alone, every_pair, Call, Comparison, Fault, Lent};
use crate::draws::{old, old_words};
use crate::generator::Generator;
use crate::lent::number;
use crate::model::transforms::{self as model, Shape, MAX_COLUMNS, NO_SHAPE};
use crate::model::{DOF, LENGTH, MAP_WORD, MAX_DOF, SHAPE};
use crate::report::Report;
use maghnelt::{slices as library, MAX_WORDS, NO_TRANSFORM, TRANSFORM, UNMAPPED};

/// What a call takes, and its outputs.
struct Case {
    dof: u32,
    map: Vec<u32>,
    beside: Beside,
    place: u32,
    further_shape: Vec<u32>,
    further: Vec<f64>,
    out: Beside,
}

impl Case {
    /// A map of so many words, and a further transform that can be multiplied with the one of that shape at the place. The
    /// transforms of other words may have any rows.
    fn with(dof: u32, words: usize, place: u32, shape: Shape, generator: &mut Generator) -> Case {
        let mut beside = Beside::default();
        for word in 0..words as u32 {
            let others = any_shape(generator);
            beside.push(if word == place { shape } else { others }, generator);
        }
        let multiplied = beside.read().shape(place as usize);
        let columns = multiplied.map_or_else(|| some_columns(generator), |[rows, _]| rows);
        Case {
            dof,
            map: (0..words).map(|_| any_word(generator)).collect(),
            beside,
            place,
            further_shape: vec![dof, columns],
            further: some_numbers([dof, columns], generator),
            out: Beside {
                shapes: old_words(2 * words, generator),
                transforms: old(TRANSFORM * words, generator),
            },
        }
    }

    /// Any such case with so many words.
    fn of(words: usize, generator: &mut Generator) -> Case {
        let dof = some_columns(generator);
        let place = match generator.below(6) {
            0 => generator.pick(&places(words)),
            _ => generator.below(words.max(1) as u64) as u32,
        };
        let shape = [some_columns(generator), some_columns(generator)];
        let shape = generator.pick(&[NO_SHAPE, shape, shape]);
        let mut case = Case::with(dof, words, place, shape, generator);
        if generator.below(6) == 0 {
            case.beside = Beside::default();
        }
        case
    }

    fn lent(self) -> Lent<3, 6> {
        let Beside { shapes, transforms } = self.beside;
        Lent {
            numbers: [transforms, self.further, self.out.transforms],
            words: [
                vec![self.dof],
                self.map,
                shapes,
                vec![self.place],
                self.further_shape,
                self.out.shapes,
            ],
        }
    }

    /// The map gets so many words; what lies beside it and the outputs follow, wrong by as much as they were.
    fn resize(&mut self, words: usize, generator: &mut Generator) {
        let before = self.map.len();
        self.beside.follow(before, words, generator);
        self.out.shift(before, words, generator);
        self.map.resize(words, UNMAPPED);
    }

    /// Some word of the map, which has one then.
    fn some_word(&mut self, generator: &mut Generator) -> usize {
        if self.map.is_empty() {
            self.resize(1, generator);
        }
        generator.below(self.map.len() as u64) as usize
    }

    /// Gives a word a shape.
    fn put(&mut self, word: usize, shape: Shape, generator: &mut Generator) {
        let words = self.map.len();
        self.beside.put(word, shape, words, generator);
    }

    /// Makes the further transform's rows (0) or columns (1) another number.
    fn put_further(&mut self, which: usize, number: u32) {
        // Where the length is wrong, it may not be there.
        if let Some(place) = self.further_shape.get_mut(which) {
            *place = number;
        }
    }
}

/// Places at and past the end of a map of so many words; of some a part would be in it.
fn places(words: usize) -> [u32; 8] {
    let end = words as u32;
    [
        end,
        end + 1,
        0x100,
        0x1_0000,
        1 << 30,
        1 << 31,
        u32::MAX - 1,
        u32::MAX,
    ]
}

/// A shape that a word may have which is not multiplied.
fn any_shape(generator: &mut Generator) -> Shape {
    let columns = some_columns(generator);
    match generator.below(6) {
        0 | 1 => NO_SHAPE,
        2 => [generator.pick(&BAD_COLUMNS), columns],
        _ => [some_columns(generator), columns],
    }
}

/// A word of a map.
fn any_word(generator: &mut Generator) -> u32 {
    match generator.below(4) {
        0 => UNMAPPED,
        1 => generator.below(u64::from(UNMAPPED)) as u32,
        _ => generator.below(1024) as u32,
    }
}

/// Compares the library.
pub fn run(generator: &mut Generator, count: u64, report: &mut Report) {
    let call = |[transforms, further, out]: [&mut [f64]; 3], words: [&mut [u32]; 6]| {
        let [dof, map, shapes, place, further_shape, out_shapes] = words;
        number(library::transform(
            dof[0],
            map,
            shapes,
            transforms,
            place[0],
            further_shape,
            further,
            out_shapes,
            out,
        ))
    };
    compare(&call, each_case, generator, count, report);
}

fn model_call(numbers: [&mut [f64]; 3], words: [&mut [u32]; 6]) -> u32 {
    let call = model::transform_call(
        |inputs, outputs| inputs.refusal(outputs),
        |inputs, word| inputs.word(word),
    );
    call(numbers, words)
}

/// Goes through cases of so much work in all: a word of a map counts two, for its 81 numbers in and out.
type Cases = fn(u64, &mut Generator, &mut dyn FnMut(Case));

fn compare(
    call: &Call<'_, 3, 6>,
    cases: Cases,
    generator: &mut Generator,
    count: u64,
    report: &mut Report,
) {
    let mut comparison = Comparison::new(
        "transform",
        ["transforms", "further", "out_transforms"],
        [
            "dof",
            "map",
            "shapes",
            "place",
            "further_shape",
            "out_shapes",
        ],
        call,
        &model_call,
    );
    cases(count, generator, &mut |case| {
        comparison.check(&case.lent(), report);
    });
}

fn each_case(count: u64, generator: &mut Generator, check: &mut dyn FnMut(Case)) {
    let faults = faults();
    for _ in 0..3 {
        each_alone(&faults, accepted, generator, &mut *check);
        every_pair(&faults, accepted, generator, |case, _| check(case));
    }
    each_refused_shape(generator, check);
    each_accepted(count, generator, check);
}

/// Every number of columns and of rows that is refused: of each word of a map, and of a further one at each place.
fn each_refused_shape(generator: &mut Generator, check: &mut dyn FnMut(Case)) {
    for dof in 0..=MAX_DOF {
        for place in 0..4 {
            for columns in BAD_COLUMNS {
                for word in 0..3 {
                    let mut case = Case::with(dof, 3, place, [dof, 5], generator);
                    case.put(word, [some_columns(generator), columns], generator);
                    check(case);
                }
                let mut case = Case::with(dof, 3, place, NO_SHAPE, generator);
                case.put_further(1, columns);
                check(case);
            }
            for rows in bad_rows(dof) {
                for shape in [NO_SHAPE, [5, 3]] {
                    let mut case = Case::with(dof, 3, place, shape, generator);
                    case.put_further(0, rows);
                    check(case);
                }
            }
        }
    }
    // Columns of the further one, and rows of the one that it multiplies, also where both are too many.
    let numbers = || (0..=MAX_COLUMNS).chain(BAD_COLUMNS);
    for (rows, columns) in numbers().flat_map(|rows| numbers().map(move |c| (rows, c))) {
        let mut case = Case::with(4, 2, 1, [3, 3], generator);
        case.put(1, [rows, 3], generator);
        case.put_further(1, columns);
        check(case);
    }
}

/// The cases that are chosen, and then random ones.
fn each_accepted(count: u64, generator: &mut Generator, check: &mut dyn FnMut(Case)) {
    let numbers = || 0..=MAX_COLUMNS;
    let shapes = || numbers().flat_map(|rows| numbers().map(move |columns| [rows, columns]));
    for dof in numbers() {
        for shape in shapes().chain([NO_SHAPE; 20]) {
            check(Case::with(dof, 2, 1, shape, generator));
        }
    }
    for words in 0..4 {
        for place in places(words).into_iter().chain(0..words as u32) {
            for shape in [NO_SHAPE, [4, 3]] {
                check(Case::with(3, words, place, shape, generator));
            }
        }
    }
    for words in [MAX_WORDS - 1, MAX_WORDS, MAX_WORDS + 1] {
        for place in [words as u32 - 1, words as u32] {
            check(Case::with(3, words, place, [4, 3], generator));
        }
    }
    let mut cases = 0;
    while cases < count {
        let case = accepted(generator);
        cases += 4 + 2 * case.map.len() as u64;
        check(case);
    }
}

/// A case that is accepted.
fn accepted(generator: &mut Generator) -> Case {
    let words = match generator.below(256) {
        0 => generator.pick(&[40, MAX_WORDS]),
        _ => generator.below(5) as usize,
    };
    Case::of(words, generator)
}

/// What a call can be refused for.
fn faults() -> Vec<Fault<Case>> {
    let mut faults = vec![
        Fault::new(DOF, |case: &mut Case, generator| {
            case.dof = generator.pick(&[MAX_DOF + 1, 1 << 31, u32::MAX]);
        }),
        Fault::new(MAP_WORD, |case: &mut Case, generator| {
            let bad = [UNMAPPED + 1, 2 * UNMAPPED, 3 * UNMAPPED, u32::MAX];
            let word = case.some_word(generator);
            case.map[word] = generator.pick(&bad);
        }),
    ];
    faults.extend(wrong_lengths());
    faults.extend(wrong_outputs());
    faults.extend(wrong_shapes());
    faults.extend(shapes_that_do_not_fit());
    faults
}

/// Lengths that a call is refused for, of what it reads.
fn wrong_lengths() -> impl Iterator<Item = Fault<Case>> {
    let beside = WRONG_LENGTHS.map(|make| {
        Fault::new(LENGTH, move |case: &mut Case, generator| {
            make(&mut case.beside, case.map.len(), generator);
        })
    });
    let others = [
        Fault::new(LENGTH, |case: &mut Case, generator| {
            let words = MAX_WORDS + generator.pick(&[1, 2, MAX_WORDS]);
            case.resize(words, generator);
        }),
        Fault::new(LENGTH, |case: &mut Case, generator| {
            case.further_shape.resize(generator.pick(&[0, 1, 3, 4]), 1);
        }),
        Fault::new(LENGTH, |case: &mut Case, generator| {
            let wrong = [0, TRANSFORM - 1, TRANSFORM + 1, 2 * TRANSFORM];
            case.further.resize(generator.pick(&wrong), 1.0);
        }),
    ];
    beside.into_iter().chain(others)
}

/// Lengths of its outputs that a call is refused for.
fn wrong_outputs() -> [Fault<Case>; 4] {
    [
        Fault::new(LENGTH, |case: &mut Case, generator| {
            let right = 2 * case.map.len();
            let wrong = wrong_of(right, [right + 1, right + 2, 1, right.saturating_sub(1)]);
            let length = generator.pick(&wrong);
            case.out.shapes = old_words(length, generator);
        }),
        Fault::new(LENGTH, |case: &mut Case, generator| {
            let right = TRANSFORM * case.map.len();
            let one_short = right.saturating_sub(1);
            let wrong = wrong_of(right, [right + 1, right + TRANSFORM, 1, one_short]);
            let length = generator.pick(&wrong);
            case.out.transforms = old(length, generator);
        }),
        // Those of another map.
        Fault::new(LENGTH, |case: &mut Case, generator| {
            let right = case.map.len();
            let others = wrong_of(right, [right + 1, right + 2, 1, right.saturating_sub(1)]);
            let words = generator.pick(&others);
            case.out.resize(words, generator);
        }),
        // None, as there may be nothing beside the map.
        Fault::new(LENGTH, |case: &mut Case, generator| {
            let words = case.map.len().max(1);
            case.resize(words, generator);
            case.out = Beside::default();
        }),
    ]
}

/// A shape that is wrong by itself: of a word, and of the further transform, also where no word is multiplied.
fn wrong_shapes() -> [Fault<Case>; 5] {
    [
        Fault::new(SHAPE, |case: &mut Case, generator| {
            let word = case.some_word(generator);
            let shape = [some_columns(generator), generator.pick(&BAD_COLUMNS)];
            case.put(word, shape, generator);
        }),
        Fault::new(SHAPE, |case: &mut Case, generator| {
            case.put_further(0, generator.pick(&bad_rows(case.dof)));
        }),
        Fault::new(SHAPE, |case: &mut Case, _| {
            case.put_further(0, NO_TRANSFORM);
            case.put_further(1, NO_TRANSFORM);
        }),
        Fault::new(SHAPE, |case: &mut Case, generator| {
            case.put_further(1, generator.pick(&BAD_COLUMNS));
        }),
        Fault::new(SHAPE, |case: &mut Case, generator| {
            case.place = generator.pick(&places(case.map.len()));
            match generator.below(2) {
                0 => case.put_further(0, generator.pick(&bad_rows(case.dof))),
                _ => case.put_further(1, generator.pick(&BAD_COLUMNS)),
            }
        }),
    ]
}

/// A further transform that has not as many columns as the one that it multiplies has rows, or both too many.
fn shapes_that_do_not_fit() -> [Fault<Case>; 3] {
    [
        Fault::new(SHAPE, |case: &mut Case, generator| {
            let word = case.some_word(generator);
            let rows = some_columns(generator);
            let columns = (rows + 1 + generator.below(9) as u32) % 10;
            case.place = word as u32;
            case.put(word, [rows, some_columns(generator)], generator);
            case.put_further(1, columns);
        }),
        Fault::new(SHAPE, |case: &mut Case, generator| {
            let word = case.some_word(generator);
            case.place = word as u32;
            let shape = [generator.pick(&BAD_COLUMNS), some_columns(generator)];
            case.put(word, shape, generator);
        }),
        Fault::new(SHAPE, |case: &mut Case, generator| {
            let word = case.some_word(generator);
            let both = generator.pick(&BAD_COLUMNS);
            case.place = word as u32;
            case.put(word, [both, some_columns(generator)], generator);
            case.put_further(1, both);
        }),
    ]
}

#[cfg(test)]
mod tests {
    use super::*;
    use crate::beside::wrong::{
        zeros_added, Changed, FALLING, FROM_ZERO, FUSED, MINUS_ZERO, NONZERO, PLAIN,
    };
    use crate::called::{answer, check_faults, ACCEPTED};
    use crate::model::blocks::offset;
    use crate::model::{first, sum, written};
    use model::{Multiply, Stored, Transform};
    use std::cell::RefCell;
    use std::collections::BTreeSet;

    /// Its tests, in order.
    const ORDER: [u32; 4] = [DOF, LENGTH, MAP_WORD, SHAPE];

    /// What lies beside a word afterwards, by a call that may be wrong.
    type Word = fn(&Multiply, usize) -> Stored;

    fn mismatches(call: &Call<'_, 3, 6>, cases: Cases) -> u64 {
        let mut report = Report::new("transform");
        compare(call, cases, &mut Generator::new(1), 3_000, &mut report);
        report.mismatches()
    }

    fn with_word(word: Word) -> u64 {
        let call = model::transform_call(|inputs, outputs| inputs.refusal(outputs), word);
        mismatches(&call, each_accepted)
    }

    /// What is right, but another product at the place where a transform is multiplied.
    fn product(
        inputs: &Multiply,
        word: usize,
        product: impl Fn(&Transform, &Transform) -> Stored,
    ) -> Stored {
        match inputs.transforms.of(word) {
            Some(old) if word == inputs.place as usize => product(&inputs.further(), &old),
            _ => inputs.word(word),
        }
    }

    /// The same product with other sums.
    fn summed(inputs: &Multiply, word: usize, sum: fn(&[[f64; 2]]) -> f64) -> Stored {
        product(inputs, word, |further, old| {
            Stored::of(further.rows, old.columns, |r, c| {
                let factors = |k: usize| [further.entry(r, k), old.entry(k, c)];
                written(sum(&(0..old.rows).map(factors).collect::<Vec<_>>()))
            })
        })
    }

    /// What is right at the place, and what `other` makes of it elsewhere.
    fn elsewhere(inputs: &Multiply, word: usize, other: impl Fn(Stored) -> Stored) -> Stored {
        let right = inputs.word(word);
        if word == inputs.place as usize {
            right
        } else {
            other(right)
        }
    }

    /// What is right, but behind the entries of what is newly made the numbers of `other`.
    fn behind(inputs: &Multiply, word: usize, other: &[f64]) -> Stored {
        let mut right = inputs.word(word);
        if word == inputs.place as usize && !other.is_empty() {
            let entries = (right.shape[0] * right.shape[1]) as usize;
            right.numbers[entries..].copy_from_slice(&other[entries..]);
        }
        right
    }

    /// What a call writes that takes another place.
    fn at(inputs: &Multiply, place: usize, word: usize) -> Stored {
        let place = place as u32;
        let moved = Multiply { place, ..*inputs };
        // A place at which it could not multiply is not taken.
        let shape = inputs.transforms.shape(place as usize);
        if shape.is_none_or(|[rows, _]| rows == inputs.further_shape[1]) {
            moved.word(word)
        } else {
            inputs.word(word)
        }
    }

    const PRODUCTS: [(&str, Word); 10] = [
        ("the further one from the right", |inputs, word| {
            product(inputs, word, |further, old| {
                let square = [further.rows, further.columns, old.columns] == [old.rows; 3];
                let [left, right] = if square {
                    [old, further]
                } else {
                    [further, old]
                };
                Stored::of(further.rows, old.columns, |r, c| {
                    let products = (0..left.columns).map(|k| left.entry(r, k) * right.entry(k, c));
                    written(sum(products))
                })
            })
        }),
        ("sums from 0", |inputs, word| {
            summed(inputs, word, FROM_ZERO)
        }),
        ("falling index", |inputs, word| {
            summed(inputs, word, FALLING)
        }),
        ("fused", |inputs, word| summed(inputs, word, FUSED)),
        ("no zeros", |inputs, word| summed(inputs, word, NONZERO)),
        ("-0 for no product", |inputs, word| {
            summed(inputs, word, MINUS_ZERO)
        }),
        ("the further one by rows", |inputs, word| {
            product(inputs, word, |further, old| {
                let entry = |r: usize, k: usize| further.stored[further.columns * r + k];
                Stored::of(further.rows, old.columns, |r, c| {
                    written(sum((0..old.rows).map(|k| entry(r, k) * old.entry(k, c))))
                })
            })
        }),
        ("the product by rows", |inputs, word| {
            product(inputs, word, |_, _| {
                let Stored { shape, numbers } = inputs.word(word);
                let [rows, columns] = shape.map(|number| number as usize);
                let right = Transform {
                    rows,
                    columns,
                    stored: &numbers,
                };
                let by_rows = Stored::of(columns, rows, |c, r| right.entry(r, c));
                Stored { shape, ..by_rows }
            })
        }),
        ("the further one's shape", |inputs, word| {
            product(inputs, word, |_, _| Stored {
                shape: [0, 1].map(|k| inputs.further_shape[k]),
                ..inputs.word(word)
            })
        }),
        ("the further one in the place of the old", |inputs, word| {
            product(inputs, word, |further, _| {
                Stored::of(further.rows, further.columns, |r, c| further.entry(r, c))
            })
        }),
    ];

    const REST: [(&str, Word); 15] = [
        ("behind it what was there", |inputs, word| {
            let kept = inputs.kept(word);
            behind(inputs, word, &kept.numbers)
        }),
        (
            "behind it what lay behind the further one",
            |inputs, word| behind(inputs, word, inputs.further),
        ),
        ("-0 behind it", |inputs, word| {
            behind(inputs, word, &[-0.0; TRANSFORM])
        }),
        ("not changed where none was", |inputs, word| {
            match inputs.transforms.shape(word) {
                None => inputs.kept(word),
                Some(_) => inputs.word(word),
            }
        }),
        ("one number less than none", |inputs, word| {
            let mut right = inputs.word(word);
            if inputs.transforms.is_empty() && word != inputs.place as usize {
                right.shape[1] = 0;
            }
            right
        }),
        ("-0 where nothing was", |inputs, word| {
            elsewhere(inputs, word, |stored| {
                if inputs.transforms.is_empty() {
                    let numbers = [-0.0; TRANSFORM];
                    return Stored { numbers, ..stored };
                }
                stored
            })
        }),
        ("other words without transforms", |inputs, word| {
            elsewhere(inputs, word, |_| Stored::NONE)
        }),
        ("other words' entries alone", |inputs, word| {
            elsewhere(inputs, word, |mut stored| {
                let [rows, columns] = stored.shape.map(|number| number as usize);
                let entries = rows.saturating_mul(columns).min(TRANSFORM);
                stored.numbers[entries..].fill(0.0);
                stored
            })
        }),
        ("+0 beside words without a transform", |inputs, word| {
            elsewhere(inputs, word, |stored| match stored.shape {
                NO_SHAPE => Stored::NONE,
                _ => stored,
            })
        }),
        ("another NaN beside other words", |inputs, word| {
            elsewhere(inputs, word, |stored| Stored {
                numbers: stored
                    .numbers
                    .map(|x| if x.is_nan() { f64::NAN } else { x }),
                ..stored
            })
        }),
        ("every word that can be multiplied", |inputs, word| {
            at(inputs, word, word)
        }),
        ("the last word for a place past the end", |inputs, word| {
            let last = inputs.map.len() - 1;
            at(inputs, last.min(inputs.place as usize), word)
        }),
        ("a place that wraps", |inputs, word| {
            at(inputs, inputs.place as usize % inputs.map.len(), word)
        }),
        ("a place in a byte", |inputs, word| {
            at(inputs, (inputs.place & 0xFF) as usize, word)
        }),
        ("the place of the offset", |inputs, word| {
            let place = inputs.place as usize;
            at(inputs, offset(inputs.map, place).unwrap_or(place), word)
        }),
    ];

    #[test]
    fn the_model_itself_passes() {
        assert_eq!(mismatches(&model_call, each_case), 0);
        assert_eq!(with_word(|inputs, word| summed(inputs, word, PLAIN)), 0);
        assert_eq!(
            with_word(|inputs, word| at(inputs, inputs.place as usize, word)),
            0
        );
    }

    #[test]
    fn faults_are_refused_by_their_numbers() {
        check_faults(&faults(), accepted, |case| answer(&model_call, case.lent()));
    }

    #[test]
    fn other_products_are_found() {
        for (name, word) in PRODUCTS {
            assert!(with_word(word) > 0, "{name}");
        }
    }

    #[test]
    fn other_words_and_other_numbers_behind_are_found() {
        for (name, word) in REST {
            assert!(with_word(word) > 0, "{name}");
        }
    }

    /// The answer where a reason applies otherwise. A call that is accepted by it alone is not made.
    fn with(inputs: &Multiply, outputs: [usize; 2], number: u32, applies: bool) -> u32 {
        let mut reasons = inputs.reasons(outputs);
        for reason in reasons.iter_mut().filter(|reason| reason.0 == number) {
            reason.1 = applies;
        }
        match first(&reasons) {
            0 if inputs.refusal(outputs) != 0 => ACCEPTED,
            answer => answer,
        }
    }

    /// What 14 is about, part by part.
    struct Shapes<'a> {
        /// The shapes of all words, of those without a transform too.
        words: Vec<Shape>,
        /// The further one's.
        further: Shape,
        inputs: &'a Multiply<'a>,
    }

    impl Shapes<'_> {
        fn of<'a>(inputs: &'a Multiply<'a>) -> Shapes<'a> {
            let words = inputs.transforms.shapes.chunks_exact(2);
            Shapes {
                words: words.map(|shape| [shape[0], shape[1]]).collect(),
                further: [0, 1].map(|k| inputs.further_shape.get(k).copied().unwrap_or(0)),
                inputs,
            }
        }

        /// The shape at the place.
        fn place(&self) -> Option<Shape> {
            self.words.get(self.inputs.place as usize).copied()
        }

        /// Whether it applies if such shapes say none and such columns are too many.
        fn by(&self, none: fn(Shape) -> bool, many: fn(u32) -> bool) -> bool {
            let Shapes { words, further, .. } = self;
            let mut columns = words
                .iter()
                .filter(|shape| !none(**shape))
                .map(|shape| shape[1]);
            columns.any(many) || many(further[1]) || self.rows() || self.fit(none)
        }

        /// Whether the columns of some word with a transform are too many.
        fn columns(&self) -> bool {
            self.inputs
                .transforms
                .shapes()
                .any(|[_, columns]| columns > MAX_COLUMNS)
        }

        /// Whether the further one has other than dof rows.
        fn rows(&self) -> bool {
            self.further[0] != self.inputs.dof
        }

        /// Whether the further one has too many columns.
        fn further_columns(&self) -> bool {
            self.further[1] > MAX_COLUMNS
        }

        /// Whether the further one does not fit what is at the place.
        fn fit(&self, none: fn(Shape) -> bool) -> bool {
            let multiplied = self.place().filter(|shape| !none(*shape));
            multiplied.is_some_and(|[rows, _]| rows != self.further[1])
        }
    }

    /// A test of the shapes, and one of the lengths.
    type ShapeTest = fn(&Shapes) -> bool;
    type LengthTest = fn(&Multiply, [usize; 2]) -> bool;

    const NONE: fn(Shape) -> bool = |shape| shape == NO_SHAPE;
    const MANY: fn(u32) -> bool = |columns| columns > MAX_COLUMNS;

    /// Whether 14 applies, by tests that are wrong in one place.
    const SHAPES: [(&str, ShapeTest); 24] = [
        ("not tested", |_| false),
        ("columns of words not tested", |shapes| {
            shapes.rows() || shapes.further_columns() || shapes.fit(NONE)
        }),
        ("rows of the further one not tested", |shapes| {
            shapes.columns() || shapes.further_columns() || shapes.fit(NONE)
        }),
        ("columns of the further one not tested", |shapes| {
            shapes.columns() || shapes.rows() || shapes.fit(NONE)
        }),
        ("the fit not tested", |shapes| {
            shapes.columns() || shapes.rows() || shapes.further_columns()
        }),
        ("the fit not tested against too many rows", |shapes| {
            let many = shapes.place().is_some_and(|[rows, _]| MANY(rows));
            let fit = shapes.fit(NONE) && !many;
            shapes.columns() || shapes.rows() || shapes.further_columns() || fit
        }),
        ("the further one's columns by the fit alone", |shapes| {
            let multiplied = shapes.place().is_some_and(|shape| shape != NO_SHAPE);
            let many = shapes.further_columns() && !multiplied;
            shapes.columns() || shapes.rows() || many || shapes.fit(NONE)
        }),
        ("the further one not tested past the end", |shapes| {
            let past = shapes.inputs.place as usize >= shapes.inputs.map.len();
            shapes.columns() || !past && shapes.by(NONE, MANY)
        }),
        ("rows not tested past the end", |shapes| {
            let past = shapes.inputs.place as usize >= shapes.inputs.map.len();
            shapes.columns()
                || shapes.further_columns()
                || shapes.fit(NONE)
                || !past && shapes.rows()
        }),
        ("columns not tested past the end", |shapes| {
            let past = shapes.inputs.place as usize >= shapes.inputs.map.len();
            let many = shapes.further_columns() && !past;
            shapes.columns() || shapes.rows() || many || shapes.fit(NONE)
        }),
        ("a further one that is none accepted", |shapes| {
            shapes.columns() || shapes.further != NO_SHAPE && shapes.by(NONE, MANY)
        }),
        ("the fit by columns", |shapes| {
            let multiplied = shapes.place().filter(|shape| *shape != NO_SHAPE);
            let fit = multiplied.is_some_and(|shape| shape[1] != shapes.further[1]);
            shapes.columns() || shapes.rows() || shapes.further_columns() || fit
        }),
        ("the fit by dof", |shapes| {
            let multiplied = shapes.place().filter(|shape| *shape != NO_SHAPE);
            let fit = multiplied.is_some_and(|shape| shape[0] != shapes.inputs.dof);
            shapes.columns() || shapes.rows() || shapes.further_columns() || fit
        }),
        ("the fit where nothing is multiplied", |shapes| {
            shapes.by(NONE, MANY) || shapes.fit(|_| false)
        }),
        ("dof rows of every word", |shapes| {
            let dof = shapes.inputs.dof;
            let mut others = shapes.inputs.transforms.shapes();
            shapes.by(NONE, MANY) || others.any(|[rows, _]| rows != dof)
        }),
        ("at most nine rows of every word", |shapes| {
            let mut others = shapes.inputs.transforms.shapes();
            shapes.by(NONE, MANY) || others.any(|[rows, _]| MANY(rows))
        }),
        ("columns at the place alone", |shapes| {
            let place = shapes.place().filter(|shape| *shape != NO_SHAPE);
            let columns = place.is_some_and(|shape| MANY(shape[1]));
            columns || shapes.rows() || shapes.further_columns() || shapes.fit(NONE)
        }),
        ("columns not at the place", |shapes| {
            let words = shapes.words.iter().enumerate();
            let mut others = words.filter(|(word, _)| *word != shapes.inputs.place as usize);
            let columns = others.any(|(_, shape)| *shape != NO_SHAPE && MANY(shape[1]));
            columns || shapes.rows() || shapes.further_columns() || shapes.fit(NONE)
        }),
        ("columns of mapped words alone", |shapes| {
            let words = shapes.words.iter().enumerate();
            let mut mapped = words.filter(|(word, _)| offset(shapes.inputs.map, *word).is_some());
            let columns = mapped.any(|(_, shape)| *shape != NO_SHAPE && MANY(shape[1]));
            columns || shapes.rows() || shapes.further_columns() || shapes.fit(NONE)
        }),
        ("columns with a sign", |shapes| {
            shapes.by(NONE, |columns| columns as i32 > MAX_COLUMNS as i32)
        }),
        ("columns in a byte", |shapes| {
            shapes.by(NONE, |columns| MANY(columns & 0xFF))
        }),
        ("none by either number", |shapes| {
            shapes.by(|shape| shape.contains(&NO_TRANSFORM), MANY)
        }),
        ("none by its rows", |shapes| {
            shapes.by(|shape| shape[0] == NO_TRANSFORM, MANY)
        }),
        ("none by its columns", |shapes| {
            shapes.by(|shape| shape[1] == NO_TRANSFORM, MANY)
        }),
    ];

    /// What 3 is about, of the call and the lengths of its outputs.
    fn lengths(inputs: &Multiply, outputs: [usize; 2]) -> [bool; 6] {
        let words = inputs.map.len();
        [
            words > MAX_WORDS,
            inputs.transforms.bad_lengths(words),
            inputs.further_shape.len() != 2,
            inputs.further.len() != TRANSFORM,
            outputs[0] != 2 * words,
            outputs[1] != TRANSFORM * words,
        ]
    }

    /// Whether 3 applies, by tests that are wrong in one place.
    const LENGTHS: [(&str, LengthTest); 13] = [
        ("a map of any length", |inputs, outputs| {
            lengths(inputs, outputs)[1..].contains(&true)
        }),
        ("the longest map refused", |inputs, outputs| {
            lengths(inputs, outputs).contains(&true) || inputs.map.len() == MAX_WORDS
        }),
        ("anything beside the map", |inputs, outputs| {
            let [map, _, rest @ ..] = lengths(inputs, outputs);
            map || rest.contains(&true)
        }),
        ("shapes of any length", |inputs, outputs| {
            let [map, beside, rest @ ..] = lengths(inputs, outputs);
            let numbers = inputs.transforms.numbers.len() != TRANSFORM * inputs.map.len();
            map || beside && numbers || rest.contains(&true)
        }),
        ("transforms of any length", |inputs, outputs| {
            let [map, beside, rest @ ..] = lengths(inputs, outputs);
            let shapes = inputs.transforms.shapes.len() != 2 * inputs.map.len();
            map || beside && shapes || rest.contains(&true)
        }),
        ("transforms without shapes", |inputs, outputs| {
            let [map, beside, rest @ ..] = lengths(inputs, outputs);
            map || beside && !inputs.transforms.shapes.is_empty() || rest.contains(&true)
        }),
        ("shapes without transforms", |inputs, outputs| {
            let [map, beside, rest @ ..] = lengths(inputs, outputs);
            map || beside && !inputs.transforms.numbers.is_empty() || rest.contains(&true)
        }),
        (
            "nothing beside a map of words refused",
            |inputs, outputs| {
                let nothing = inputs.transforms.is_empty() && !inputs.map.is_empty();
                lengths(inputs, outputs).contains(&true) || nothing
            },
        ),
        ("a further shape of any length", |inputs, outputs| {
            let [map, beside, _, rest @ ..] = lengths(inputs, outputs);
            map || beside || rest.contains(&true)
        }),
        ("a further one of any length", |inputs, outputs| {
            let [map, beside, shape, _, rest @ ..] = lengths(inputs, outputs);
            map || beside || shape || rest.contains(&true)
        }),
        ("output shapes of any length", |inputs, outputs| {
            let [rest @ .., _, transforms] = lengths(inputs, outputs);
            transforms || rest.contains(&true)
        }),
        ("output transforms of any length", |inputs, outputs| {
            lengths(inputs, outputs)[..5].contains(&true)
        }),
        ("no outputs where nothing was", |inputs, outputs| {
            let nothing = inputs.transforms.is_empty() && outputs == [0, 0];
            let [rest @ .., shapes, transforms] = lengths(inputs, outputs);
            rest.contains(&true) || !nothing && (shapes || transforms)
        }),
    ];

    #[test]
    fn other_answers_and_orders_are_found() {
        let found = RefCell::new(BTreeSet::new());
        let beside = RefCell::new(BTreeSet::new());
        let look = |inputs: &Multiply, outputs: [usize; 2]| {
            let right = inputs.refusal(outputs);
            let shapes = Shapes::of(inputs);
            // What the wrong tests are made of is right but for its one place.
            let bad = lengths(inputs, outputs).contains(&true);
            assert_eq!(with(inputs, outputs, LENGTH, bad), right);
            assert_eq!(with(inputs, outputs, SHAPE, shapes.by(NONE, MANY)), right);
            let mut found = found.borrow_mut();
            let by_shapes = SHAPES.map(|(name, bad)| (name, SHAPE, bad(&shapes)));
            let by_lengths = LENGTHS.map(|(name, bad)| (name, LENGTH, bad(inputs, outputs)));
            for (name, number, applies) in by_shapes.into_iter().chain(by_lengths) {
                if with(inputs, outputs, number, applies) != right {
                    found.insert((number, name));
                }
            }
            let applying = inputs
                .reasons(outputs)
                .into_iter()
                .filter(|reason| reason.1);
            beside
                .borrow_mut()
                .extend(applying.map(|reason| [right, reason.0]));
            right
        };
        let call = model::transform_call(look, |inputs, word| inputs.word(word));
        assert_eq!(mismatches(&call, each_case), 0);
        let names = SHAPES.map(|(name, _)| (SHAPE, name)).into_iter();
        for name in names.chain(LENGTHS.map(|(name, _)| (LENGTH, name))) {
            assert!(found.borrow().contains(&name), "{name:?}");
        }
        for (place, earlier) in ORDER.into_iter().enumerate() {
            for later in &ORDER[place..] {
                let both = [earlier, *later];
                assert!(beside.borrow().contains(&both), "{both:?}");
            }
        }
    }

    #[test]
    fn refused_calls_that_write_are_found() {
        let changed = RefCell::new(Changed::default());
        let writes = |numbers: [&mut [f64]; 3], words: [&mut [u32]; 6]| {
            let [transforms, further, out] = numbers;
            let [dof, map, shapes, place, further_shape, out_shapes] = words;
            let words = [dof, map, shapes, place, further_shape, &mut *out_shapes];
            let answer = model_call([transforms, further, &mut *out], words);
            if answer != 0 {
                out_shapes.iter_mut().for_each(|word| *word ^= 1);
                let outputs = [!out_shapes.is_empty(), zeros_added(out)];
                changed.borrow_mut().note(answer, &outputs);
            }
            answer
        };
        let found = mismatches(&writes, each_case);
        changed.borrow().check(&ORDER, 2, found);
    }
}
