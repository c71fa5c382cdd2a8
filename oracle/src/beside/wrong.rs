//! Accumulating with transforms as it should not be, for the tests of the groups.

use crate::called::ACCEPTED;
use crate::model::blocks::{added, offset, Added, Block, Blocks, Target};
use crate::model::transforms::{Shape, Transform, Transforms, MAX_COLUMNS, NO_SHAPE};
use crate::model::{first, matrix, sum, sum_from_zero, LENGTH, MAP_WORD, SEGMENT, SHAPE};
use maghnelt::{NO_TRANSFORM, TRANSFORM};
use std::collections::BTreeSet;
use std::ops::Range;

/// A sum of products.
pub type Sum = fn(&[[f64; 2]]) -> f64;
/// The entry of a transform by row and column.
type Entry = fn(&Transform, usize, usize) -> f64;

/// As they should be.
pub const PLAIN: Sum = |products| sum(products.iter().map(|[a, b]| a * b));
/// From 0, not from the first product.
pub const FROM_ZERO: Sum = |products| sum_from_zero(products.iter().map(|[a, b]| a * b));
/// In falling index.
pub const FALLING: Sum = |products| sum(products.iter().rev().map(|[a, b]| a * b));
/// Each product but the first fused with its sum.
pub const FUSED: Sum = |products| match products {
    [[a, b], rest @ ..] => rest.iter().fold(a * b, |sum, [a, b]| a.mul_add(*b, sum)),
    [] => 0.0,
};
/// Products with a zero left out.
pub const NONZERO: Sum = |products| {
    let kept = products.iter().filter(|product| !product.contains(&0.0));
    sum(kept.map(|[a, b]| a * b))
};
/// -0 for no product.
pub const MINUS_ZERO: Sum = |products| match products {
    [] => -0.0,
    _ => PLAIN(products),
};

/// What a transform makes of a block and a vector by such entries of it, and sums of Tᵀ·M, of its product with T, and of Tᵀ·v.
fn applied(t: &Transform, block: &Block, entry: Entry, [left, right, vector]: [Sum; 3]) -> Block {
    let summed = |sum: Sum, factors: &dyn Fn(usize) -> [f64; 2]| {
        sum(&(0..t.rows).map(factors).collect::<Vec<_>>())
    };
    let product = matrix::<9>(|i, k| summed(left, &|r| [entry(t, r, i), block.h[r][k]]));
    Block {
        h: matrix(|i, j| summed(right, &|k| [product[i][k], entry(t, k, j)])),
        g: std::array::from_fn(|i| summed(vector, &|r| [entry(t, r, i), block.g[r]])),
    }
}

/// What is added by another way to apply the transform.
fn by(
    blocks: &Blocks,
    frame: usize,
    block: &Block,
    applied: impl Fn(&Transform, &Block) -> Block,
) -> Option<(Range<usize>, Block)> {
    let transform = blocks.transforms.of(frame);
    let block = transform.map_or(*block, |t| applied(&t, block));
    Some((blocks.segment(frame)?, block))
}

/// What is added by other entries of the transform.
fn by_entries(
    blocks: &Blocks,
    frame: usize,
    block: &Block,
    entry: Entry,
) -> Option<(Range<usize>, Block)> {
    by(blocks, frame, block, |t, block| {
        applied(t, block, entry, [PLAIN; 3])
    })
}

/// What is added by other sums.
fn by_sums(
    blocks: &Blocks,
    frame: usize,
    block: &Block,
    sums: [Sum; 3],
) -> Option<(Range<usize>, Block)> {
    let entry: Entry = |t, r, c| t.entry(r, c);
    by(blocks, frame, block, |t, block| {
        applied(t, block, entry, sums)
    })
}

/// What is added by another word's transform, if it is as wide as the right one.
fn by_another(
    blocks: &Blocks,
    frame: usize,
    block: &Block,
    word: usize,
) -> Option<(Range<usize>, Block)> {
    let other = blocks.transforms.of(word);
    by(blocks, frame, block, |t, block| {
        let same = other.filter(|other| other.columns == t.columns);
        same.unwrap_or(*t).applied(block)
    })
}

/// Tᵀ·(M·T) in place of (Tᵀ·M)·T.
fn right_product_first(t: &Transform, block: &Block) -> Block {
    let rows = || 0..t.rows;
    let right = matrix::<9>(|r, j| sum(rows().map(|k| block.h[r][k] * t.entry(k, j))));
    Block {
        h: matrix(|i, j| sum(rows().map(|r| t.entry(r, i) * right[r][j]))),
        ..t.applied(block)
    }
}

/// An action whose derivative columns are those of J·T in place of J: what comes of it is Tᵀ·M·T but for rounding.
pub fn columns_transformed(action: &[f64], t: &Transform) -> Vec<f64> {
    let mut moved = action.to_vec();
    for matrix in [12, 39, 66, 93] {
        for (column, r) in (0..t.columns).flat_map(|column| (0..3).map(move |r| (column, r))) {
            let products = (0..t.rows).map(|k| action[matrix + 3 * k + r] * t.entry(k, column));
            moved[matrix + 3 * column + r] = sum(products);
        }
    }
    moved
}

/// The rule by which a block that is as wide as its segment is added as it is.
pub const AS_IT_IS: Added = |blocks, frame, block| Some((blocks.segment(frame)?, *block));

/// The right rule, as the wrong ones are made.
pub const RIGHT: Added = |blocks, frame, block| by_sums(blocks, frame, block, [PLAIN; 3]);

/// The rule that is wrong where there are more frames than one.
pub const FIRST_WORD: &str = "the first word's transform";

/// Rules for what is added that are wrong in one place.
pub const ADDED: [(&str, Added); 23] = [
    ("the right product first", |blocks, frame, block| {
        by(blocks, frame, block, right_product_first)
    }),
    ("T for its transpose", |blocks, frame, block| {
        by_entries(blocks, frame, block, |t, r, c| t.entry(c, r))
    }),
    ("T by rows", |blocks, frame, block| {
        by_entries(blocks, frame, block, |t, r, c| t.stored[t.columns * r + c])
    }),
    ("T with nine rows a column", |blocks, frame, block| {
        by_entries(blocks, frame, block, |t, r, c| t.stored[9 * c + r])
    }),
    ("all sums from 0", |blocks, frame, block| {
        by_sums(blocks, frame, block, [FROM_ZERO; 3])
    }),
    ("sums of the left product from 0", |blocks, frame, block| {
        by_sums(blocks, frame, block, [FROM_ZERO, PLAIN, PLAIN])
    }),
    ("sums of the block from 0", |blocks, frame, block| {
        by_sums(blocks, frame, block, [PLAIN, FROM_ZERO, PLAIN])
    }),
    ("sums of the vector from 0", |blocks, frame, block| {
        by_sums(blocks, frame, block, [PLAIN, PLAIN, FROM_ZERO])
    }),
    ("products in falling index", |blocks, frame, block| {
        by_sums(blocks, frame, block, [FALLING; 3])
    }),
    ("products fused with sums", |blocks, frame, block| {
        by_sums(blocks, frame, block, [FUSED; 3])
    }),
    ("products with a zero left out", |blocks, frame, block| {
        by_sums(blocks, frame, block, [NONZERO; 3])
    }),
    ("-0 for no product", |blocks, frame, block| {
        by_sums(blocks, frame, block, [MINUS_ZERO; 3])
    }),
    ("nothing for no product", |blocks, frame, block| {
        added(blocks, frame, block).filter(|_| blocks.dof > 0)
    }),
    ("added into zeros first", |blocks, frame, block| {
        by(blocks, frame, block, |t, block| {
            let Block { h, g } = t.applied(block);
            Block {
                h: h.map(|row| row.map(|entry| 0.0 + entry)),
                g: g.map(|entry| 0.0 + entry),
            }
        })
    }),
    (
        "mirrored from above the diagonal",
        |blocks, frame, block| {
            by(blocks, frame, block, |t, block| {
                let Block { h, g } = t.applied(block);
                let h = matrix(|i, j| h[i.min(j)][i.max(j)]);
                Block { h, g }
            })
        },
    ),
    ("the block transposed", |blocks, frame, block| {
        by(blocks, frame, block, |t, block| {
            let Block { h, g } = t.applied(block);
            let h = matrix(|i, j| h[j][i]);
            Block { h, g }
        })
    }),
    ("M as it is where T is square", |blocks, frame, block| {
        by(blocks, frame, block, |t, block| {
            let Block { h, g } = t.applied(block);
            let h = if t.rows == t.columns { block.h } else { h };
            Block { h, g }
        })
    }),
    ("v as it is where T is square", |blocks, frame, block| {
        by(blocks, frame, block, |t, block| {
            let Block { h, g } = t.applied(block);
            let g = if t.rows == t.columns { block.g } else { g };
            Block { h, g }
        })
    }),
    ("the offset's word's transform", |blocks, frame, block| {
        by_another(blocks, frame, block, offset(blocks.map, frame)?)
    }),
    (FIRST_WORD, |blocks, frame, block| {
        by_another(blocks, frame, block, 0)
    }),
    ("the last word's transform", |blocks, frame, block| {
        by_another(blocks, frame, block, blocks.map.len().saturating_sub(1))
    }),
    ("at most dof rows", |blocks, frame, block| {
        let (segment, block) = added(blocks, frame, block)?;
        let end = segment.end.min(segment.start + blocks.dof as usize);
        Some((segment.start..end, block))
    }),
    ("the last column left out", |blocks, frame, block| {
        let (segment, block) = added(blocks, frame, block)?;
        let end = segment.end - usize::from(segment.len() == MAX_COLUMNS as usize);
        Some((segment.start..end, block))
    }),
];

/// Adds zeros to the gradient behind the first frame's segment, up to dof rows of it where these are there. Given are dof, map
/// and shapes.
pub fn dof_wide([dof, map, shapes]: [&[u32]; 3], gradient: &mut [f64]) {
    let numbers: &[f64] = &[];
    let blocks = Blocks {
        dof: dof[0],
        map,
        transforms: Transforms { shapes, numbers },
    };
    if let Some(segment) = blocks.segment(0) {
        let end = (segment.start + blocks.dof as usize).min(gradient.len());
        let behind = gradient.get_mut(segment.end..end);
        behind.into_iter().flatten().for_each(|cell| *cell += 0.0);
    }
}

/// What refused calls have changed that should have left their outputs.
#[derive(Default)]
pub struct Changed {
    /// The reasons, and the output's number.
    outputs: BTreeSet<(u32, usize)>,
    calls: u64,
}

impl Changed {
    /// Notes which outputs a call has changed that was refused for a reason.
    pub fn note(&mut self, reason: u32, outputs: &[bool]) {
        let changed = (0..outputs.len()).filter(|&output| outputs[output]);
        self.outputs.extend(changed.map(|output| (reason, output)));
        self.calls += u64::from(outputs.contains(&true));
    }

    /// Each of these calls has to be found, and each of so many outputs was changed for each reason.
    pub fn check(&self, reasons: &[u32], outputs: usize, found: u64) {
        assert_eq!(found, self.calls);
        for &reason in reasons {
            for output in 0..outputs {
                assert!(
                    self.outputs.contains(&(reason, output)),
                    "{reason}, {output}"
                );
            }
        }
    }
}

/// Adds zeros to cells, and says whether a bit of them has changed, as of -0 and of a NaN that signals.
pub fn zeros_added(cells: &mut [f64]) -> bool {
    let mut changed = false;
    for cell in cells {
        let before = cell.to_bits();
        *cell += 0.0;
        changed |= cell.to_bits() != before;
    }
    changed
}

/// What an accumulating call answers by.
pub struct Tried<'a> {
    /// Where its frames go.
    pub blocks: Blocks<'a>,
    /// The lengths of Hessian and gradient.
    pub target: Target,
    /// How many frames there are.
    pub frames: usize,
    /// Its reasons in order, each with whether it applies.
    pub reasons: Vec<(u32, bool)>,
    /// The same without transforms.
    pub plain: Vec<(u32, bool)>,
}

impl Tried<'_> {
    /// The answer.
    pub fn right(&self) -> u32 {
        first(&self.reasons)
    }

    /// The answer where a reason applies otherwise. A call that is accepted by it alone is not made.
    fn with(&self, number: u32, applies: bool) -> u32 {
        let mut reasons = self.reasons.clone();
        for reason in reasons.iter_mut().filter(|reason| reason.0 == number) {
            reason.1 = applies;
        }
        match first(&reasons) {
            0 if self.right() != 0 => ACCEPTED,
            answer => answer,
        }
    }

    /// The answer where 3 applies otherwise to what lies beside the map.
    fn with_lengths(&self, bad: impl Fn(&Transforms, usize) -> bool) -> u32 {
        let others = self.plain.contains(&(LENGTH, true));
        let words = self.blocks.map.len();
        self.with(LENGTH, others || bad(&self.blocks.transforms, words))
    }

    /// The answer where 14 applies otherwise to the shapes.
    fn with_shapes(&self, bad: impl Fn(u32, Shape) -> bool) -> u32 {
        let shapes = self.blocks.transforms.shapes.chunks_exact(2);
        let dof = self.blocks.dof;
        let mut shapes = shapes.map(|shape| [shape[0], shape[1]]);
        self.with(SHAPE, shapes.any(|shape| bad(dof, shape)))
    }

    /// The answer where 10 applies otherwise: by the width of a frame's segment, which is given that of its transform.
    fn with_widths(&self, width: impl Fn(usize, usize) -> usize) -> u32 {
        let segments = (0..self.frames).filter_map(|frame| self.blocks.segment(frame));
        let dof = self.blocks.dof as usize;
        let mut ends = segments.map(|segment| segment.start + width(segment.len(), dof));
        self.with(SEGMENT, ends.any(|end| end > self.target.gradient))
    }

    /// The answer where 14 is tested elsewhere: before another reason.
    fn shapes_before(&self, other: u32) -> u32 {
        let shape = self.reasons.contains(&(SHAPE, true));
        let place = self.reasons.iter().position(|reason| reason.0 == other);
        let earlier = first(&self.reasons[..place.unwrap_or(0)]);
        if earlier == 0 && shape {
            SHAPE
        } else {
            self.right()
        }
    }
}

/// Whether a shape is refused, as it should be.
fn bad_shape(dof: u32, shape: Shape) -> bool {
    shape != NO_SHAPE && (shape[1] > MAX_COLUMNS || shape[0] != dof)
}

/// What a call answers.
pub type Answer = fn(&Tried) -> u32;

/// Answers that are wrong in one place.
pub const ANSWERS: [(&str, Answer); 33] = [
    ("10 by dof", |tried| tried.with_widths(|_, dof| dof)),
    ("10 by the wider", |tried| tried.with_widths(usize::max)),
    ("10 by the narrower", |tried| tried.with_widths(usize::min)),
    ("10 a row short", |tried| {
        tried.with_widths(|width, _| width.saturating_sub(1))
    }),
    ("10 not of segments without rows", |tried| {
        let segments = (0..tried.frames).filter_map(|frame| tried.blocks.segment(frame));
        let mut with_rows = segments.filter(|segment| !segment.is_empty());
        tried.with(
            SEGMENT,
            with_rows.any(|segment| segment.end > tried.target.gradient),
        )
    }),
    ("10 of every word", |tried| {
        let words = tried.blocks.map.len();
        tried.with(SEGMENT, tried.target.exceeded(&tried.blocks, words))
    }),
    ("14 not tested", |tried| tried.with(SHAPE, false)),
    ("14 after 10", |tried| match tried.right() {
        SHAPE if tried.reasons.contains(&(SEGMENT, true)) => SEGMENT,
        answer => answer,
    }),
    ("14 before 9", |tried| tried.shapes_before(MAP_WORD)),
    ("14 before 3", |tried| tried.shapes_before(LENGTH)),
    ("14 of existing frames only", |tried| {
        let frames = 0..tried.frames;
        let mut shapes = frames.filter_map(|frame| tried.blocks.transforms.shape(frame));
        let dof = tried.blocks.dof;
        tried.with(SHAPE, shapes.any(|shape| bad_shape(dof, shape)))
    }),
    ("14 of mapped words only", |tried| {
        let Blocks {
            map,
            transforms,
            dof,
        } = tried.blocks;
        let mapped = (0..map.len()).filter(|&word| offset(map, word).is_some());
        let mut shapes = mapped.filter_map(|word| transforms.shape(word));
        tried.with(SHAPE, shapes.any(|shape| bad_shape(dof, shape)))
    }),
    ("14 of the first word only", |tried| {
        let shape = tried.blocks.transforms.shape(0);
        let dof = tried.blocks.dof;
        tried.with(SHAPE, shape.is_some_and(|shape| bad_shape(dof, shape)))
    }),
    ("14 not of the last word", |tried| {
        let shapes = tried.blocks.transforms.shapes;
        let shapes = &shapes[..shapes.len().saturating_sub(2)];
        let transforms = Transforms {
            shapes,
            numbers: &[],
        };
        tried.with(SHAPE, transforms.bad_shapes(tried.blocks.dof))
    }),
    ("columns not tested", |tried| {
        tried.with_shapes(|dof, shape| shape != NO_SHAPE && shape[0] != dof)
    }),
    ("nine columns too many", |tried| {
        tried.with_shapes(|dof, shape| bad_shape(dof, shape) || shape[1] == MAX_COLUMNS)
    }),
    ("ten columns allowed", |tried| {
        tried.with_shapes(|dof, shape| bad_shape(dof, shape) && shape != [dof, 10])
    }),
    ("not more than dof columns", |tried| {
        tried.with_shapes(|dof, shape| bad_shape(dof, shape) || shape != NO_SHAPE && shape[1] > dof)
    }),
    ("columns with a sign", |tried| {
        tried.with_shapes(|dof, [rows, columns]| {
            let none = [rows, columns] == NO_SHAPE;
            !none && (rows != dof || columns as i32 > MAX_COLUMNS as i32)
        })
    }),
    ("columns in a byte", |tried| {
        tried.with_shapes(|dof, shape| {
            shape != NO_SHAPE && bad_shape(dof, [shape[0], shape[1] & 0xFF])
        })
    }),
    ("as many numbers as are there", |tried| {
        tried.with_shapes(|dof, [rows, columns]| {
            let numbers = u64::from(rows) * u64::from(columns);
            [rows, columns] != NO_SHAPE && (rows != dof || numbers > TRANSFORM as u64)
        })
    }),
    ("rows not tested", |tried| {
        tried.with_shapes(|_, shape| shape != NO_SHAPE && shape[1] > MAX_COLUMNS)
    }),
    ("fewer rows allowed", |tried| {
        tried.with_shapes(|dof, [rows, columns]| bad_shape(dof, [rows.max(dof), columns]))
    }),
    ("more rows allowed", |tried| {
        tried.with_shapes(|dof, shape| {
            let rows = if shape == NO_SHAPE {
                NO_TRANSFORM
            } else {
                shape[0].min(dof)
            };
            bad_shape(dof, [rows, shape[1]])
        })
    }),
    ("rows in a byte", |tried| {
        tried.with_shapes(|dof, shape| {
            shape != NO_SHAPE && bad_shape(dof, [shape[0] & 0xFF, shape[1]])
        })
    }),
    ("none by either number", |tried| {
        tried.with_shapes(|dof, shape| !shape.contains(&NO_TRANSFORM) && bad_shape(dof, shape))
    }),
    ("none by its rows", |tried| {
        tried.with_shapes(|dof, shape| shape[0] != NO_TRANSFORM && bad_shape(dof, shape))
    }),
    ("none by its columns", |tried| {
        tried.with_shapes(|dof, shape| shape[1] != NO_TRANSFORM && bad_shape(dof, shape))
    }),
    ("shapes of any length", |tried| {
        tried.with_lengths(|beside, words| {
            !beside.is_empty() && beside.numbers.len() != TRANSFORM * words
        })
    }),
    ("transforms of any length", |tried| {
        tried.with_lengths(|beside, words| !beside.is_empty() && beside.shapes.len() != 2 * words)
    }),
    ("at least the right lengths", |tried| {
        tried.with_lengths(|beside, words| {
            let short = beside.shapes.len() < 2 * words || beside.numbers.len() < TRANSFORM * words;
            !beside.is_empty() && short
        })
    }),
    ("nothing beside a map of words refused", |tried| {
        tried.with_lengths(|beside, words| {
            beside.bad_lengths(words) || beside.is_empty() && words > 0
        })
    }),
    ("one of both empty", |tried| {
        tried.with_lengths(|beside, words| {
            let empty = beside.shapes.is_empty() || beside.numbers.is_empty();
            !empty && beside.bad_lengths(words)
        })
    }),
];

/// Which wrong answers some case has shown, and which reasons applied together with the one that was answered.
pub struct Shown {
    answers: [bool; ANSWERS.len()],
    together: BTreeSet<[u32; 2]>,
}

impl Shown {
    /// None so far.
    pub fn none() -> Shown {
        Shown {
            answers: [false; ANSWERS.len()],
            together: BTreeSet::new(),
        }
    }

    /// Looks at a case.
    pub fn look(&mut self, tried: &Tried) {
        let right = tried.right();
        // What the wrong answers are made of is right but for its one place.
        let lengths = |beside: &Transforms, words: usize| beside.bad_lengths(words);
        assert_eq!(tried.with_lengths(lengths), right);
        assert_eq!(tried.with_shapes(bad_shape), right);
        assert_eq!(tried.with_widths(|width, _| width), right);
        for (shown, (_, answer)) in self.answers.iter_mut().zip(ANSWERS) {
            *shown |= answer(tried) != right;
        }
        let applying = tried.reasons.iter().filter(|reason| reason.1);
        let pairs = applying.map(|reason| [right, reason.0]);
        self.together.extend(pairs);
    }

    /// Each wrong answer has to be shown, and any two tests in the wrong order, given in the right one. Some two never apply
    /// both.
    pub fn check(&self, order: &[u32], never: &[[u32; 2]]) {
        for (shown, (name, _)) in self.answers.iter().zip(ANSWERS) {
            assert!(shown, "{name}");
        }
        for (place, &earlier) in order.iter().enumerate() {
            for later in &order[place..] {
                let both = [earlier, *later];
                assert_eq!(
                    self.together.contains(&both),
                    !never.contains(&both),
                    "{both:?}"
                );
            }
        }
    }
}
