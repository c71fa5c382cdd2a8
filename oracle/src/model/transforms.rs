//! The model of block transforms, written from document 02: what lies beside a map, what a transform makes of a frame's block
//! and vector, and the call that multiplies transforms.

use super::blocks::{bad_word, Block};
use super::{first, matrix, sum, written, Matrix, DOF, LENGTH, MAP_WORD, MAX_DOF, SHAPE};
use maghnelt::{MAX_WORDS, NO_TRANSFORM, TRANSFORM};

/// Rows and columns.
pub type Shape = [u32; 2];

/// The shape of a word without a transform.
pub const NO_SHAPE: Shape = [NO_TRANSFORM; 2];

/// The most columns of a transform.
pub const MAX_COLUMNS: u32 = 9;

/// A transform, as it lies beside a word.
#[derive(Clone, Copy)]
pub struct Transform<'a> {
    /// The rows.
    pub rows: usize,
    /// The columns.
    pub columns: usize,
    /// Its entries, column after column, and behind them numbers that are not read.
    pub stored: &'a [f64],
}

impl Transform<'_> {
    /// The entry of a row and a column.
    pub fn entry(&self, row: usize, column: usize) -> f64 {
        self.stored[self.rows * column + row]
    }

    /// What it makes of a frame's block M and vector v: Tᵀ·M·T, the left product first, and Tᵀ·v.
    pub fn applied(&self, block: &Block) -> Block {
        let (width, rows) = (self.columns, || 0..self.rows);
        let left: Matrix<9> = within([width, self.rows], |i, k| {
            sum(rows().map(|r| self.entry(r, i) * block.h[r][k]))
        });
        let h = within([width, width], |i, j| {
            sum(rows().map(|k| left[i][k] * self.entry(k, j)))
        });
        let vector: Matrix<9> = within([width, 1], |i, _| {
            sum(rows().map(|r| self.entry(r, i) * block.g[r]))
        });
        Block {
            h,
            g: vector.map(|row| row[0]),
        }
    }
}

/// The matrix with these entries in its first rows and columns; the others are not read.
fn within([rows, columns]: [usize; 2], entry: impl Fn(usize, usize) -> f64) -> Matrix<9> {
    matrix(|r, c| {
        if r < rows && c < columns {
            entry(r, c)
        } else {
            0.0
        }
    })
}

/// What lies beside a map: for each of its words a shape and 81 numbers, or nothing at all.
#[derive(Clone, Copy)]
pub struct Transforms<'a> {
    /// Rows and columns, word after word.
    pub shapes: &'a [u32],
    /// The numbers, word after word.
    pub numbers: &'a [f64],
}

impl<'a> Transforms<'a> {
    /// Beside a map of which no word has a transform.
    pub const NONE: Transforms<'static> = Transforms {
        shapes: &[],
        numbers: &[],
    };

    /// Whether nothing is there.
    pub fn is_empty(&self) -> bool {
        self.shapes.is_empty() && self.numbers.is_empty()
    }

    /// Reason 3: neither two words and 81 numbers for each word of a map of that length, nor nothing.
    pub fn bad_lengths(&self, words: usize) -> bool {
        let right = [2 * words, TRANSFORM * words];
        !self.is_empty() && [self.shapes.len(), self.numbers.len()] != right
    }

    /// The shapes of all words that have a transform.
    pub fn shapes(&self) -> impl Iterator<Item = Shape> + 'a {
        let shapes = self.shapes.chunks_exact(2);
        let read = shapes.map(|shape| [shape[0], shape[1]]);
        read.filter(|shape| *shape != NO_SHAPE)
    }

    /// The shape of a word's transform, if it has one.
    pub fn shape(&self, word: usize) -> Option<Shape> {
        let shapes = self.shapes.get(2 * word..)?;
        Transforms {
            shapes: shapes.get(..2)?,
            ..*self
        }
        .shapes()
        .next()
    }

    /// A word's transform, if it has one.
    pub fn of(&self, word: usize) -> Option<Transform<'a>> {
        let [rows, columns] = self.shape(word)?.map(|number| number as usize);
        Some(Transform {
            rows,
            columns,
            stored: &self.numbers[TRANSFORM * word..][..TRANSFORM],
        })
    }

    /// Reason 14 of an accumulating call: a word has a transform of more than 9 columns, or of other than dof rows.
    pub fn bad_shapes(&self, dof: u32) -> bool {
        let bad = |[rows, columns]: Shape| columns > MAX_COLUMNS || rows != dof;
        self.shapes().any(bad)
    }
}

/// What lies beside one word: a shape and 81 numbers.
pub struct Stored {
    /// The shape.
    pub shape: Shape,
    /// The numbers.
    pub numbers: [f64; TRANSFORM],
}

impl Stored {
    /// Beside a word without a transform, newly made.
    pub const NONE: Stored = Stored {
        shape: NO_SHAPE,
        numbers: [0.0; TRANSFORM],
    };

    /// A transform that is newly made: +0 behind its entries.
    pub fn of(rows: usize, columns: usize, entry: impl Fn(usize, usize) -> f64) -> Stored {
        let mut numbers = [0.0; TRANSFORM];
        for column in 0..columns {
            for row in 0..rows {
                numbers[rows * column + row] = entry(row, column);
            }
        }
        Stored {
            shape: [rows as u32, columns as u32],
            numbers,
        }
    }
}

/// What `transform` takes, its outputs apart.
#[derive(Clone, Copy)]
pub struct Multiply<'a> {
    /// The rows of a frame.
    pub dof: u32,
    /// The block map.
    pub map: &'a [u32],
    /// What lies beside it.
    pub transforms: Transforms<'a>,
    /// The word whose transform is multiplied.
    pub place: u32,
    /// The further transform's shape.
    pub further_shape: &'a [u32],
    /// Its numbers.
    pub further: &'a [f64],
}

impl Multiply<'_> {
    /// Tests 1, 3, 9, 14, each with whether it applies; `outputs` are the lengths of the shapes and of the transforms.
    pub fn reasons(&self, outputs: [usize; 2]) -> [(u32, bool); 4] {
        let words = self.map.len();
        let lengths = words > MAX_WORDS
            || self.transforms.bad_lengths(words)
            || self.further_shape.len() != 2
            || self.further.len() != TRANSFORM
            || outputs != [2 * words, TRANSFORM * words];
        [
            (DOF, self.dof > MAX_DOF),
            (LENGTH, lengths),
            (MAP_WORD, bad_word(self.map)),
            (SHAPE, self.bad_shapes()),
        ]
    }

    /// Why it is refused, or 0.
    pub fn refusal(&self, outputs: [usize; 2]) -> u32 {
        first(&self.reasons(outputs))
    }

    /// Reason 14: a word's transform has more than 9 columns, or the further one has more, or other than dof rows, or other
    /// columns than the one that it multiplies has rows. A further shape of no transform has other than dof rows.
    fn bad_shapes(&self) -> bool {
        let [rows, columns] = [0, 1].map(|k| self.further_shape.get(k).copied().unwrap_or(0));
        let multiplied = self.transforms.shape(self.place as usize);
        self.transforms
            .shapes()
            .any(|[_, columns]| columns > MAX_COLUMNS)
            || columns > MAX_COLUMNS
            || rows != self.dof
            || multiplied.is_some_and(|[rows, _]| rows != columns)
    }

    /// The further transform.
    pub fn further(&self) -> Transform<'_> {
        Transform {
            rows: self.further_shape[0] as usize,
            columns: self.further_shape[1] as usize,
            stored: self.further,
        }
    }

    /// What lay beside a word, as it came.
    pub fn kept(&self, word: usize) -> Stored {
        if self.transforms.is_empty() {
            return Stored::NONE;
        }
        let numbers = &self.transforms.numbers[TRANSFORM * word..][..TRANSFORM];
        Stored {
            shape: [0, 1].map(|k| self.transforms.shapes[2 * word + k]),
            numbers: numbers.try_into().expect("81 numbers"),
        }
    }

    /// What lies beside a word afterwards: at the place the product of the further one with what was there, or the further one
    /// where none was; elsewhere what was there.
    pub fn word(&self, word: usize) -> Stored {
        if word != self.place as usize {
            return self.kept(word);
        }
        let further = self.further();
        match self.transforms.of(word) {
            None => Stored::of(further.rows, further.columns, |r, c| further.entry(r, c)),
            Some(old) => Stored::of(further.rows, old.columns, |r, c| {
                let products = (0..old.rows).map(|k| further.entry(r, k) * old.entry(k, c));
                written(sum(products))
            }),
        }
    }
}

/// The call `transform` on transforms, further and output, with dof, map, shapes, place, further shape and output shapes.
pub fn transform_call(
    refusal: impl Fn(&Multiply, [usize; 2]) -> u32,
    word: impl Fn(&Multiply, usize) -> Stored,
) -> impl Fn([&mut [f64]; 3], [&mut [u32]; 6]) -> u32 {
    move |[numbers, further, out], [dof, map, shapes, place, further_shape, out_shapes]| {
        let inputs = Multiply {
            dof: dof[0],
            map,
            transforms: Transforms { shapes, numbers },
            place: place[0],
            further_shape,
            further,
        };
        let refusal = refusal(&inputs, [out_shapes.len(), out.len()]);
        if refusal == 0 {
            let outputs = out_shapes.chunks_mut(2).zip(out.chunks_mut(TRANSFORM));
            for (k, (out_shape, out)) in outputs.enumerate() {
                let Stored { shape, numbers } = word(&inputs, k);
                out_shape.copy_from_slice(&shape);
                out.copy_from_slice(&numbers);
            }
        }
        refusal
    }
}

#[cfg(test)]
mod tests {
    use super::*;
    use crate::model::blocks::{added, Blocks, Cell, Target, Work};
    use crate::model::SEGMENT;

    /// What lies beside one word, with numbers behind its entries that nobody may read.
    fn beside(entries: &[f64]) -> [f64; TRANSFORM] {
        let mut numbers = [f64::NAN; TRANSFORM];
        numbers[..entries.len()].copy_from_slice(entries);
        numbers
    }

    /// The terms of one frame with a transform of that shape and these entries, at row 0.
    fn terms(shape: Shape, entries: &[f64], block: &Block) -> Vec<f64> {
        let blocks = Blocks {
            dof: shape[0],
            map: &[0],
            transforms: Transforms {
                shapes: &shape,
                numbers: &beside(entries),
            },
        };
        let (segment, block) = added(&blocks, 0, block).unwrap();
        let mut work = Work {
            cost: 0.0,
            terms: Vec::new(),
        };
        work.add(segment, &block);
        work.terms.into_iter().map(|(_, term)| term).collect()
    }

    /// The block with these rows, and a vector.
    fn block<const N: usize>(rows: [[f64; N]; N], vector: [f64; N]) -> Block {
        Block {
            h: within([N, N], |r, c| rows[r][c]),
            g: std::array::from_fn(|r| vector.get(r).copied().unwrap_or(f64::NAN)),
        }
    }

    #[test]
    fn a_block_in_whole_numbers() {
        let whole = block([[1.0, 3.0], [4.0, 5.0]], [5.0, 6.0]);
        assert_eq!(terms([2, 1], &[1.0, 2.0], &whole), [35.0, 17.0]);
        // Two columns, (1,2) and (0,1): Tᵀ·M has the rows (9,13) and (4,5).
        let two = terms([2, 2], &[1.0, 2.0, 0.0, 1.0], &whole);
        assert_eq!(two, [35.0, 14.0, 13.0, 5.0, 17.0, 6.0]);
    }

    #[test]
    fn the_left_product_is_first() {
        let large = 9_007_199_254_740_992.0;
        // Tᵀ·M is (0, 1). M·T would be (large, -large), since large + 1 is rounded to large.
        let block = block([[large, 1.0], [-large, 0.0]], [1.0, 1.0]);
        assert_eq!(terms([2, 1], &[1.0, 1.0], &block), [1.0, 2.0]);
    }

    #[test]
    fn sums_start_from_the_first_product() {
        let bits = |terms: Vec<f64>| terms.into_iter().map(f64::to_bits).collect::<Vec<_>>();
        let [plus, minus] = [0.0, -0.0].map(f64::to_bits);
        let (one, ones) = (1.0f64.to_bits(), block([[1.0]], [1.0]));
        // Of the columns -0 and 1: (-0·1)·-0, then -0 by 1 in both orders, and 1.
        let products = bits(terms([1, 2], &[-0.0, 1.0], &ones));
        assert_eq!(products, [plus, minus, minus, one, minus, one]);
        // No product.
        let none = bits(terms([0, 2], &[], &block::<0>([], [])));
        assert_eq!(none, [plus; 6]);
    }

    #[test]
    fn a_zero_that_is_added_can_change_a_sign() {
        let work = Work {
            cost: 0.0,
            terms: vec![(Cell::Hessian(0, 0), 0.0), (Cell::Gradient(0), -0.0)],
        };
        let (mut hessian, mut gradient) = ([-0.0], [-0.0]);
        work.write(&mut hessian, &mut gradient, &mut 0.0);
        let signs = [hessian[0], gradient[0]].map(f64::is_sign_negative);
        assert_eq!(signs, [false, true]);
    }

    /// Why the shapes beside a map are refused where there is one frame.
    fn refusal(dof: u32, map: &[u32], shapes: &[u32], order: usize) -> u32 {
        let numbers = vec![0.0; TRANSFORM * map.len()];
        let transforms = Transforms {
            shapes,
            numbers: &numbers,
        };
        let blocks = Blocks {
            dof,
            map,
            transforms,
        };
        let target = Target {
            hessian: order * order,
            gradient: order,
        };
        assert!(!target.bad_lengths(&blocks));
        first(&target.reasons(&blocks, 1))
    }

    #[test]
    fn a_segment_is_as_wide_as_its_transform() {
        assert_eq!(refusal(6, &[0], &[6, 5], 5), 0);
        assert_eq!(refusal(6, &[1], &[6, 5], 5), SEGMENT);
        assert_eq!(refusal(6, &[0], &NO_SHAPE, 5), SEGMENT);
        assert_eq!(refusal(3, &[0], &[3, 6], 5), SEGMENT);
        assert_eq!(refusal(0, &[5], &[0, 0], 5), 0);
        assert_eq!(refusal(0, &[6], &[0, 0], 5), SEGMENT);
        // Past the last frame a segment is not looked at.
        assert_eq!(refusal(6, &[0, 9], &[6, 5, 6, 5], 5), 0);
    }

    #[test]
    fn shapes_that_are_refused() {
        let none = NO_TRANSFORM;
        for shape in [
            [6, 10],
            [5, 6],
            [7, 6],
            [none, 6],
            [6, none],
            [0xFFFF_FFFE, 3],
        ] {
            assert_eq!(refusal(6, &[0], &shape, 9), SHAPE, "{shape:?}");
            // Of no existing frame, and before the segment of one.
            let [rows, columns] = shape;
            assert_eq!(refusal(6, &[9, 0], &[6, 6, rows, columns], 9), SHAPE);
            // After a bad word, of whichever frame.
            let bad = [0, u32::MAX];
            assert_eq!(refusal(6, &bad, &[rows, columns, 6, 6], 9), MAP_WORD);
        }
    }

    #[test]
    fn both_slices_are_there_or_neither() {
        let bad = |shapes: usize, numbers: usize, words: usize| {
            let transforms = Transforms {
                shapes: &vec![0; shapes],
                numbers: &vec![0.0; numbers],
            };
            transforms.bad_lengths(words)
        };
        assert!(!bad(4, 162, 2) && !bad(0, 0, 2) && !bad(0, 0, 0));
        for (shapes, numbers) in [(4, 0), (0, 162), (3, 162), (4, 161), (2, 81), (6, 243)] {
            assert!(bad(shapes, numbers, 2), "{shapes} and {numbers}");
        }
        assert!(bad(2, 81, 0) && bad(1, 0, 0) && bad(0, 1, 0));
    }

    /// Two words, of which the second has the columns (5,7) and (6,8).
    const SHAPES: [u32; 4] = [NO_TRANSFORM, NO_TRANSFORM, 2, 2];

    /// A further transform of dof 2 at a place.
    fn multiply<'a>(place: u32, numbers: &'a [f64], further: &'a [f64]) -> Multiply<'a> {
        Multiply {
            dof: 2,
            map: &[0, 0],
            transforms: Transforms {
                shapes: &SHAPES,
                numbers,
            },
            place,
            further_shape: &[2, 2],
            further,
        }
    }

    #[test]
    fn the_further_transform_multiplies_from_the_left() {
        let numbers = [beside(&[]), beside(&[5.0, 7.0, 6.0, 8.0])].concat();
        // The columns (1,3) and (2,4).
        let further = beside(&[1.0, 3.0, 2.0, 4.0]);
        let second = multiply(1, &numbers, &further).word(1);
        assert_eq!(second.shape, [2, 2]);
        assert_eq!(second.numbers[..4], [19.0, 43.0, 22.0, 50.0]);
        assert!(second.numbers[4..].iter().all(|x| x.to_bits() == 0));
        // Where none was, it is the further one.
        let first = multiply(0, &numbers, &further).word(0);
        assert_eq!(first.shape, [2, 2]);
        assert_eq!(first.numbers[..4], further[..4]);
        assert!(first.numbers[4..].iter().all(|x| x.to_bits() == 0));
        // Other words stay, what lies behind their entries too, and so do all for a place past the end.
        for (place, word) in [(0, 1), (1, 0), (2, 0), (2, 1), (u32::MAX, 1)] {
            let kept = multiply(place, &numbers, &further).word(word);
            assert_eq!(kept.shape, SHAPES[2 * word..][..2]);
            let bits = |numbers: &[f64]| numbers.iter().map(|x| x.to_bits()).collect::<Vec<_>>();
            assert_eq!(
                bits(&kept.numbers),
                bits(&numbers[TRANSFORM * word..][..TRANSFORM])
            );
        }
    }

    #[test]
    fn nothing_beside_a_map_becomes_none() {
        let further = beside(&[1.0, 3.0, 2.0, 4.0]);
        let inputs = Multiply {
            transforms: Transforms::NONE,
            ..multiply(1, &[], &further)
        };
        assert_eq!(inputs.word(1).numbers[..4], further[..4]);
        let none = inputs.word(0);
        assert_eq!(none.shape, NO_SHAPE);
        assert!(none.numbers.iter().all(|x| x.to_bits() == 0));
    }

    #[test]
    fn further_shapes_that_are_refused() {
        let refusal = |place: u32, shapes: &[u32], further_shape: &[u32]| {
            let numbers = vec![0.0; TRANSFORM * 2];
            let inputs = Multiply {
                transforms: Transforms {
                    shapes,
                    numbers: &numbers,
                },
                further_shape,
                ..multiply(place, &[], &[0.0; TRANSFORM])
            };
            inputs.refusal([4, 162])
        };
        let ([a, b], none) = (NO_SHAPE, NO_TRANSFORM);
        // At a word without a transform, at one of 3 rows, and past the end.
        assert_eq!(refusal(0, &[a, b, 3, 4], &[2, 9]), 0);
        assert_eq!(refusal(1, &[a, b, 3, 4], &[2, 3]), 0);
        assert_eq!(refusal(1, &[a, b, 3, 4], &[2, 4]), SHAPE);
        assert_eq!(refusal(2, &[a, b, 3, 4], &[2, 4]), 0);
        for further in [[2, 10], [1, 3], [3, 3], NO_SHAPE, [none, 3], [2, none]] {
            for place in [0, 1, 2, u32::MAX] {
                assert_eq!(
                    refusal(place, &[a, b, 3, 4], &further),
                    SHAPE,
                    "{further:?}"
                );
            }
        }
        // Too many columns of any word; too many rows only where it is multiplied, which no further one fits.
        for place in 0..3 {
            assert_eq!(refusal(place, &[a, b, 3, 10], &[2, 3]), SHAPE);
            let rows = if place == 1 { SHAPE } else { 0 };
            assert_eq!(refusal(place, &[a, b, none, 4], &[2, 3]), rows);
        }
        assert_eq!(refusal(1, &[a, b, 10, 4], &[2, 10]), SHAPE);
    }
}
