//! What lies beside a block map: shapes and transforms as they are met, and such that a call is refused for them.

use crate::draws::{fill, old};
use crate::generator::Generator;
use crate::model::transforms::{Shape, Transforms, MAX_COLUMNS, NO_SHAPE};
use maghnelt::{MAX_DOF, NO_TRANSFORM, TRANSFORM};

/// Shapes and transforms for each word of a map, or nothing.
#[derive(Clone, Default)]
pub struct Beside {
    /// Rows and columns, word after word.
    pub shapes: Vec<u32>,
    /// The numbers, word after word.
    pub transforms: Vec<f64>,
}

impl Beside {
    /// Beside so many words: some have a transform of these rows, others none. In half of them a word mostly has the shape of
    /// the word before it, since frames of one shape are added together.
    pub fn random(words: usize, rows: u32, generator: &mut Generator) -> Beside {
        let mut beside = Beside::default();
        let in_runs = generator.below(2) == 0;
        let mut last = None;
        for _ in 0..words {
            let shape = match (last, generator.below(4)) {
                (Some(shape), 1..) if in_runs => shape,
                _ => some_shape(rows, generator),
            };
            beside.push(shape, generator);
            last = Some(shape);
        }
        beside
    }

    /// Beside so many words that all have that shape.
    pub fn of_shape(words: usize, shape: Shape, generator: &mut Generator) -> Beside {
        let mut beside = Beside::default();
        for _ in 0..words {
            beside.push(shape, generator);
        }
        beside
    }

    /// Adds a word of that shape.
    pub fn push(&mut self, shape: Shape, generator: &mut Generator) {
        self.shapes.extend(shape);
        self.transforms.extend(some_numbers(shape, generator));
    }

    /// As the model reads it.
    pub fn read(&self) -> Transforms<'_> {
        Transforms {
            shapes: &self.shapes,
            numbers: &self.transforms,
        }
    }

    /// Whether nothing is there.
    pub fn is_empty(&self) -> bool {
        self.read().is_empty()
    }

    /// How wide a word's segment is, where it has dof rows without a transform.
    pub fn width(&self, word: usize, dof: usize) -> usize {
        let shape = self.read().shape(word);
        shape.map_or(dof, |[_, columns]| columns as usize)
    }

    /// Gives a word that shape, with numbers that fit it. Where nothing lies beside the so many words, the others get none.
    pub fn put(&mut self, word: usize, shape: Shape, words: usize, generator: &mut Generator) {
        if self.is_empty() {
            self.resize(words, generator);
        }
        // Where the lengths are wrong, a word may have none.
        if let Some(place) = self.shapes.get_mut(2 * word..2 * word + 2) {
            place.copy_from_slice(&shape);
        }
        if let Some(place) = self
            .transforms
            .get_mut(TRANSFORM * word..TRANSFORM * (word + 1))
        {
            place.copy_from_slice(&some_numbers(shape, generator));
        }
    }

    /// Has the lengths for so many words; further ones have no transform.
    pub fn resize(&mut self, words: usize, generator: &mut Generator) {
        self.set_lengths([2 * words, TRANSFORM * words], generator);
    }

    /// Follows a map that has grown or shrunk. Nothing stays nothing, and a wrong length stays wrong by as much.
    pub fn follow(&mut self, before: usize, after: usize, generator: &mut Generator) {
        if !self.is_empty() {
            self.shift(before, after, generator);
        }
    }

    /// The same of outputs, which are never nothing beside words.
    pub fn shift(&mut self, before: usize, after: usize, generator: &mut Generator) {
        let shifted =
            |length: usize, each: usize| (length + each * after).saturating_sub(each * before);
        let shapes = shifted(self.shapes.len(), 2);
        let transforms = shifted(self.transforms.len(), TRANSFORM);
        self.set_lengths([shapes, transforms], generator);
    }

    fn set_lengths(&mut self, [shapes, transforms]: [usize; 2], generator: &mut Generator) {
        self.shapes.resize(shapes, NO_TRANSFORM);
        let missing = transforms.saturating_sub(self.transforms.len());
        self.transforms.extend(old(missing, generator));
        self.transforms.truncate(transforms);
    }
}

/// A number of columns that is allowed.
pub fn some_columns(generator: &mut Generator) -> u32 {
    generator.below(1 + u64::from(MAX_COLUMNS)) as u32
}

/// The shape of a transform of so many rows, or none.
fn some_shape(rows: u32, generator: &mut Generator) -> Shape {
    match generator.below(4) {
        0 => NO_SHAPE,
        _ => [rows, some_columns(generator)],
    }
}

/// The 81 numbers of a transform of that shape, behind its entries any patterns. For a shape that is none, or not allowed, all
/// are such.
pub fn some_numbers(shape: Shape, generator: &mut Generator) -> Vec<f64> {
    let mut numbers = old(TRANSFORM, generator);
    let [rows, columns] = shape.map(|number| number as usize);
    if rows.max(columns) <= MAX_DOF {
        let entries = &mut numbers[..rows * columns];
        match generator.below(6) {
            0 => unit_columns(rows, entries, generator),
            _ => fill(entries, generator),
        }
    }
    numbers
}

/// Columns of the unit matrix, one of which is left out, as where a height is locked.
fn unit_columns(rows: usize, entries: &mut [f64], generator: &mut Generator) {
    let left_out = generator.below(1 + MAX_DOF as u64) as usize;
    let zero = generator.pick(&[0.0, -0.0]);
    for (place, entry) in entries.iter_mut().enumerate() {
        let (row, column) = (place % rows, place / rows);
        let one = row == column + usize::from(column >= left_out);
        *entry = if one { 1.0 } else { zero };
    }
}

/// A way to make the lengths wrong beside a map of so many words.
pub type WrongLength = fn(&mut Beside, usize, &mut Generator);

/// The ways that there are. Each leaves something there, so that no two of them leave nothing, which is right.
pub const WRONG_LENGTHS: [WrongLength; 6] = [
    |beside, words, generator| {
        let right = 2 * words;
        let shapes = wrong_of(
            right,
            [right + 1, right + 2, right.saturating_sub(1), 2 * right],
        );
        let transforms = beside.transforms.len().max(TRANSFORM * words);
        beside.set_lengths([generator.pick(&shapes), transforms], generator);
    },
    |beside, words, generator| {
        let right = TRANSFORM * words;
        let one_short = right.saturating_sub(1);
        let transforms = wrong_of(right, [right + 1, right + TRANSFORM, one_short, 2 * right]);
        let shapes = beside.shapes.len().max(2 * words);
        beside.set_lengths([shapes, generator.pick(&transforms)], generator);
    },
    |beside, words, generator| beside.set_lengths([0, TRANSFORM * words.max(1)], generator),
    |beside, words, generator| beside.set_lengths([2 * words.max(1), 0], generator),
    // As beside a map of another length.
    |beside, words, generator| {
        let others = wrong_of(
            words,
            [words + 1, words + 2, words.saturating_sub(1), 2 * words],
        );
        let words = generator.pick(&others);
        beside.resize(words, generator);
    },
    // Each as long as the other should be.
    |beside, words, generator| {
        let words = words.max(1);
        beside.set_lengths([TRANSFORM * words, 2 * words], generator);
    },
];

/// Of these lengths those that are neither right nor 0.
pub fn wrong_of(right: usize, lengths: [usize; 4]) -> Vec<usize> {
    let lengths = lengths.into_iter();
    lengths
        .filter(|&length| length != right && length > 0)
        .collect()
}

/// Numbers of columns that no transform may have; the last is one of the two numbers that say none.
pub const BAD_COLUMNS: [u32; 8] = [
    10,
    11,
    81,
    // Of which a byte, or half a word, would be allowed.
    0x0000_0103,
    0x0001_0003,
    0x8000_0000,
    0xFFFF_FFFE,
    NO_TRANSFORM,
];

/// Numbers of rows that are not dof.
pub fn bad_rows(dof: u32) -> Vec<u32> {
    let rows = [
        0,
        9,
        dof.wrapping_add(1),
        dof.wrapping_sub(1),
        dof | 0x100,
        dof | 0x1_0000,
        0x8000_0000,
        0x8000_0000 | dof,
        0xFFFF_FFFE,
        NO_TRANSFORM,
    ];
    rows.into_iter().filter(|&rows| rows != dof).collect()
}

/// Shapes that an accumulating call with that dof is refused for.
pub fn bad_shapes(dof: u32) -> Vec<Shape> {
    let columns = BAD_COLUMNS.map(|columns| [dof, columns]);
    let rows = bad_rows(dof).into_iter();
    let allowed = |rows: u32| [[rows, 0], [rows, 3], [rows, MAX_COLUMNS]];
    rows.flat_map(allowed).chain(columns).collect()
}

#[cfg(test)]
pub mod wrong;
