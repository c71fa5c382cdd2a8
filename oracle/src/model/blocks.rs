//! The model of block maps, and of what is added to a Hessian and a gradient through them.

use super::transforms::Transforms;
use super::{first, written, Matrix, LENGTH, MAP_WORD, SEGMENT, SHAPE};
use maghnelt::{MAX_ORDER, MAX_WORDS, UNMAPPED};
use std::ops::Range;

/// What a word of a map or of an index list says, by its top two bits.
#[derive(Clone, Copy, Debug, PartialEq)]
pub enum Word {
    /// 00: an offset, or a place in a map, in the low bits.
    At(usize),
    /// 01 with low bits of zero.
    Unmapped,
    /// Any other.
    Bad,
}

impl Word {
    /// What a word says.
    pub fn read(word: u32) -> Word {
        match (word >> 30, word & ((1 << 30) - 1)) {
            (0b00, low) => Word::At(low as usize),
            (0b01, 0) => Word::Unmapped,
            _ => Word::Bad,
        }
    }
}

/// Reason 9: a word has a bad kind or a bad low part.
pub fn bad_word(words: &[u32]) -> bool {
    words.iter().any(|&word| Word::read(word) == Word::Bad)
}

/// The word that a word of an index list becomes.
pub fn remapped(map: &[u32], word: u32) -> u32 {
    match Word::read(word) {
        Word::At(place) if place < map.len() => map[place],
        _ => UNMAPPED,
    }
}

/// The call `remap` on map, list and output.
pub fn remap_call(
    remapped: impl Fn(&[u32], u32) -> u32,
) -> impl Fn([&mut [f64]; 0], [&mut [u32]; 3]) -> u32 {
    move |[], [map, list, out]| {
        let too_long = map.len() > MAX_WORDS || list.len() > MAX_WORDS;
        let refusal = first(&[
            (LENGTH, too_long || out.len() != list.len()),
            (MAP_WORD, bad_word(map) || bad_word(list)),
        ]);
        if refusal == 0 {
            for (out, &word) in out.iter_mut().zip(&*list) {
                *out = remapped(map, word);
            }
        }
        refusal
    }
}

/// The offset of a frame, if the map has one for it.
pub fn offset(map: &[u32], frame: usize) -> Option<usize> {
    match Word::read(*map.get(frame)?) {
        Word::At(offset) => Some(offset),
        _ => None,
    }
}

/// A block and a vector, of which as many rows and columns count as a segment has.
#[derive(Clone, Copy)]
pub struct Block {
    /// The block, by row and column.
    pub h: Matrix<9>,
    /// The vector.
    pub g: [f64; 9],
}

/// Where the frames of a call go.
#[derive(Clone, Copy)]
pub struct Blocks<'a> {
    /// The rows of a frame without a transform.
    pub dof: u32,
    /// The block map.
    pub map: &'a [u32],
    /// What lies beside it.
    pub transforms: Transforms<'a>,
}

impl Blocks<'_> {
    /// The rows of a frame, if it is mapped: from its offset on as many as its transform has columns, dof rows without one.
    pub fn segment(&self, frame: usize) -> Option<Range<usize>> {
        let offset = offset(self.map, frame)?;
        let columns = self.transforms.shape(frame).map(|[_, columns]| columns);
        Some(offset..offset + columns.unwrap_or(self.dof) as usize)
    }
}

/// Where the block and the vector of dof rows go that a frame has, by its number, and what is added there; nothing for a frame
/// that is not mapped.
pub fn added(blocks: &Blocks, frame: usize, block: &Block) -> Option<(Range<usize>, Block)> {
    let segment = blocks.segment(frame)?;
    let transform = blocks.transforms.of(frame);
    Some((segment, transform.map_or(*block, |t| t.applied(block))))
}

/// Such a rule: [`added`], or another one.
pub type Added = fn(&Blocks, usize, &Block) -> Option<(Range<usize>, Block)>;

/// The lengths of the Hessian and of the gradient that a call is lent, which are all that it knows of them beforehand.
#[derive(Clone, Copy)]
pub struct Target {
    /// The length of the Hessian.
    pub hessian: usize,
    /// The length of the gradient.
    pub gradient: usize,
}

impl Target {
    /// Reason 3 of Hessian, gradient, map and what lies beside it.
    pub fn bad_lengths(self, blocks: &Blocks) -> bool {
        let (order, words) = (self.gradient, blocks.map.len());
        order > MAX_ORDER
            || self.hessian != order * order
            || words > MAX_WORDS
            || blocks.transforms.bad_lengths(words)
    }

    /// Reason 10: the segment of one of the first frames goes past the end.
    pub fn exceeded(self, blocks: &Blocks, frames: usize) -> bool {
        (0..frames)
            .filter_map(|frame| blocks.segment(frame))
            .any(|segment| segment.end > self.gradient)
    }

    /// Tests 9, 14 and 10, each with whether it applies to so many frames.
    pub fn reasons(self, blocks: &Blocks, frames: usize) -> [(u32, bool); 3] {
        [
            (MAP_WORD, bad_word(blocks.map)),
            (SHAPE, blocks.transforms.bad_shapes(blocks.dof)),
            (SEGMENT, self.exceeded(blocks, frames)),
        ]
    }
}

/// A cell of the gradient or of the Hessian.
#[derive(Clone, Copy, Debug, PartialEq)]
pub enum Cell {
    /// By row and column.
    Hessian(usize, usize),
    /// By row.
    Gradient(usize),
}

/// What an accepted call works out from its own inputs: its cost, and the terms that it adds to cells, in order.
pub struct Work {
    /// The cost.
    pub cost: f64,
    /// The terms.
    pub terms: Vec<(Cell, f64)>,
}

impl Work {
    /// Adds the terms of a block and a vector, at a segment.
    pub fn add(&mut self, segment: Range<usize>, block: &Block) {
        let from = segment.start;
        for j in 0..segment.len() {
            for i in 0..segment.len() {
                let cell = Cell::Hessian(from + i, from + j);
                self.terms.push((cell, block.h[i][j]));
            }
        }
        for i in 0..segment.len() {
            self.terms.push((Cell::Gradient(from + i), block.g[i]));
        }
    }

    /// Adds the terms to the cells, each sum rounded once, and writes the cost.
    pub fn write(&self, hessian: &mut [f64], gradient: &mut [f64], cost: &mut f64) {
        let order = gradient.len();
        for &(cell, term) in &self.terms {
            let cell = match cell {
                Cell::Hessian(row, column) => &mut hessian[column * order + row],
                Cell::Gradient(row) => &mut gradient[row],
            };
            *cell = written(*cell + term);
        }
        *cost = written(self.cost);
    }
}
