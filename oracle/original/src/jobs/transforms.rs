//! Transforms of blocks: what wrapping factors do to the blocks that they are lent, one after the other, and what each
//! transform makes of those before it.

use super::draw::{self, Temper};
use super::{maps, refused};
use crate::calls::{self, Value};
use crate::case::{After, Case};
use crate::factors::{beside, NormalBlocks};
use nalgebra::{DMatrix, DVector};
use oracle::draws::within;
use oracle::generator::Generator;
use oracle::patterns;

/// The most rows and columns of a transform, and the numbers that it has room for.
const MOST: usize = 9;
const ROOM: usize = MOST * MOST;
/// Rows and columns where there is no transform.
const NONE: u32 = u32::MAX;

/// A transform, where a block has one.
type Transform = Option<DMatrix<f64>>;

/// What a wrapping factor does to the blocks that it is lent.
pub enum Step {
    /// The inner factor's blocks are these of them, or dropped.
    Remapped(Vec<Option<usize>>),
    /// A block is transformed.
    Transformed(usize, DMatrix<f64>),
}

/// Lends blocks as they are after some steps.
pub fn stepped<T>(
    blocks: &mut NormalBlocks<'_>,
    steps: &[Step],
    work: impl FnOnce(&mut NormalBlocks<'_>) -> T,
) -> T {
    match steps {
        [] => work(blocks),
        [Step::Remapped(list), rest @ ..] => stepped(&mut blocks.remapped(list), rest, work),
        [Step::Transformed(place, matrix), rest @ ..] => {
            stepped(&mut blocks.transformed(*place, matrix.clone()), rest, work)
        }
    }
}

/// The offset and the transform of each block, as the original has them.
#[derive(Clone)]
pub struct Blocks {
    /// None where a block is dropped.
    pub offsets: Vec<Option<usize>>,
    /// Empty where no block has one.
    transforms: Vec<Transform>,
}

impl Blocks {
    fn of(blocks: &NormalBlocks<'_>) -> Blocks {
        Blocks {
            offsets: beside::offsets(blocks),
            transforms: beside::transforms(blocks),
        }
    }

    /// What blocks at these offsets are after some steps.
    pub fn after(offsets: &[usize], steps: &[Step]) -> Blocks {
        let mut hessian = DMatrix::from_fn(0, 0, |_, _| 0.0);
        let mut gradient = DVector::from_fn(0, |_, _| 0.0);
        let mut blocks = NormalBlocks::new(&mut hessian, &mut gradient, offsets);
        stepped(&mut blocks, steps, |blocks| Blocks::of(blocks))
    }

    /// The transform of a block.
    pub fn transform(&self, block: usize) -> Option<&DMatrix<f64>> {
        self.transforms.get(block).and_then(Option::as_ref)
    }

    /// The rows of a block's segment.
    pub fn width(&self, block: usize, dof: usize) -> usize {
        self.transform(block).map_or(dof, DMatrix::ncols)
    }

    fn shapes(&self) -> Vec<u32> {
        self.transforms.iter().flat_map(shape).collect()
    }

    /// Shapes and transforms as the library is lent them; where no block has one, empty in half the cases.
    pub fn lent(&self, generator: &mut Generator) -> (Vec<u32>, Vec<f64>) {
        let mut all = self.clone();
        if all.transforms.is_empty() && generator.below(2) == 0 {
            all.transforms = vec![None; all.offsets.len()];
        }
        let numbers = all.transforms.iter();
        let numbers = numbers.flat_map(|transform| roomy(transform, generator));
        (all.shapes(), numbers.collect())
    }
}

/// The words of a transform: its rows and columns.
fn shape(transform: &Transform) -> [u32; 2] {
    let size = |size: usize| u32::try_from(size).expect("at most nine");
    match transform {
        Some(matrix) => [size(matrix.nrows()), size(matrix.ncols())],
        None => [NONE; 2],
    }
}

fn entries(transform: &Transform) -> &[f64] {
    transform.as_ref().map_or(&[], |matrix| matrix.as_slice())
}

/// The numbers of a transform, and any where none is read: mostly zeros, for which a sample has room.
fn roomy(transform: &Transform, generator: &mut Generator) -> Vec<f64> {
    let mut numbers = entries(transform).to_vec();
    let read = numbers.len();
    numbers.resize(ROOM, 0.0);
    for _ in 0..generator.below(4) {
        let place = generator.below(ROOM as u64) as usize;
        if place >= read {
            numbers[place] = f64::from_bits(patterns::random(generator));
        }
    }
    numbers
}

/// A matrix of a job's numbers: as they are met, some columns of the identity, as where a height is locked, or any.
fn matrix(rows: usize, columns: usize, temper: Temper, generator: &mut Generator) -> DMatrix<f64> {
    let any = match temper {
        // Each column has signs of its own: with the same in all of them no block is -0.
        Temper::Zeros => (0..columns)
            .flat_map(|_| temper.any(rows, generator))
            .collect(),
        Temper::Hostile if generator.below(2) == 0 => temper.any(rows * columns, generator),
        _ => return met(rows, columns, generator),
    };
    DMatrix::from_column_slice(rows, columns, &any)
}

fn met(rows: usize, columns: usize, generator: &mut Generator) -> DMatrix<f64> {
    let locked = generator.below(3) == 0;
    let first = generator.below(MOST as u64) as usize;
    DMatrix::from_fn(rows, columns, |row, column| match locked {
        true => f64::from(u8::from((first + column) % rows == row)),
        false => within(-2.0, 2.0, generator),
    })
}

/// Rows or columns: as many as degrees of freedom, one fewer, or any.
fn size(dof: usize, generator: &mut Generator) -> usize {
    match generator.below(4) {
        0 => dof,
        1 => dof.saturating_sub(1),
        _ => generator.below(MOST as u64 + 1) as usize,
    }
}

/// Steps that are drawn, and the rows that each block's transform has after them.
struct Drawn {
    steps: Vec<Step>,
    rows: Vec<Option<usize>>,
    dof: usize,
    temper: Temper,
}

impl Drawn {
    fn of(blocks: usize, dof: usize, temper: Temper) -> Drawn {
        Drawn {
            steps: Vec::new(),
            rows: vec![None; blocks],
            dof,
            temper,
        }
    }

    fn rows_of(&self, block: usize) -> Option<usize> {
        self.rows.get(block).copied().flatten()
    }

    fn remap(&mut self, length: usize, generator: &mut Generator) {
        let list = maps::list(length as u64, self.rows.len() as u64, generator);
        let rows = list.iter().map(|block| self.rows_of((*block)?));
        self.rows = rows.collect();
        self.steps.push(Step::Remapped(list));
    }

    fn transform(&mut self, block: usize, rows: usize, generator: &mut Generator) {
        let columns = match self.rows_of(block) {
            Some(rows) => rows,
            None => size(self.dof, generator),
        };
        if let Some(after) = self.rows.get_mut(block) {
            *after = Some(rows);
        }
        let matrix = matrix(rows, columns, self.temper, generator);
        self.steps.push(Step::Transformed(block, matrix));
    }

    /// Transforms some blocks; now and then one past the end.
    fn some(&mut self, generator: &mut Generator) {
        let blocks = self.rows.len() as u64;
        for _ in 0..generator.below(3 + blocks.min(4)) {
            let block = match generator.below(8) {
                0 => blocks + generator.below(2),
                _ => generator.below(blocks.max(1)),
            };
            let rows = size(self.dof, generator);
            self.transform(block as usize, rows, generator);
        }
    }

    /// Transforms blocks once more, so that every transform has as many rows as degrees of freedom.
    fn finish(&mut self, generator: &mut Generator) {
        for block in 0..self.rows.len() {
            if self.rows_of(block).is_some_and(|rows| rows != self.dof) {
                self.transform(block, self.dof, generator);
            }
        }
    }
}

/// Some steps from a wrapping factor's blocks to as many as this, and the number of the wrapping factor's.
fn drawn(words: usize, dof: usize, temper: Temper, generator: &mut Generator) -> (usize, Drawn) {
    let remaps = generator.pick(&[0, 0, 0, 1, 1, 2]);
    let mut length = |left: usize| match left {
        0 => words,
        _ => generator.below(words as u64 + 2) as usize,
    };
    let lengths: Vec<usize> = (0..=remaps).rev().map(&mut length).collect();
    let mut drawn = Drawn::of(lengths[0], dof, temper);
    for length in &lengths[1..] {
        drawn.some(generator);
        drawn.remap(*length, generator);
    }
    drawn.some(generator);
    (lengths[0], drawn)
}

/// Such steps to the blocks that a factor of these degrees of freedom is lent.
pub fn steps(
    words: usize,
    dof: usize,
    temper: Temper,
    generator: &mut Generator,
) -> (usize, Vec<Step>) {
    // A call with more degrees of freedom is refused whatever its transforms are.
    let (outer, mut drawn) = drawn(words, dof.min(MOST), temper, generator);
    drawn.finish(generator);
    (outer, drawn.steps)
}

pub fn run(generator: &mut Generator, cases: &mut Vec<Case>) {
    let words = match generator.below(400) {
        0 => 1024,
        1..40 => generator.below(30),
        _ => 1 + generator.below(3),
    };
    let dof = generator.below(MOST as u64 + 1) as usize;
    let (outer, drawn) = drawn(words as usize, dof, Temper::random(generator), generator);
    let offsets: Vec<usize> = (0..outer).map(|_| generator.below(1024) as usize).collect();
    let mut hessian = DMatrix::from_fn(0, 0, |_, _| 0.0);
    let mut gradient = DVector::from_fn(0, |_, _| 0.0);
    let mut blocks = NormalBlocks::new(&mut hessian, &mut gradient, &offsets);
    walk(&mut blocks, &drawn.steps, generator, cases);
    refused::add(cases, generator);
}

/// Takes the steps, with a call for each that transforms a block.
fn walk(
    blocks: &mut NormalBlocks<'_>,
    steps: &[Step],
    generator: &mut Generator,
    cases: &mut Vec<Case>,
) {
    match steps {
        [] => {}
        [Step::Remapped(list), rest @ ..] => {
            walk(&mut blocks.remapped(list), rest, generator, cases);
        }
        [Step::Transformed(place, further), rest @ ..] => {
            let before = Blocks::of(blocks);
            let mut inner = blocks.transformed(*place, further.clone());
            let after = Blocks::of(&inner);
            cases.push(case(&before, *place, further, &after, generator));
            walk(&mut inner, rest, generator, cases);
        }
    }
}

fn case(
    before: &Blocks,
    place: usize,
    further: &DMatrix<f64>,
    after: &Blocks,
    generator: &mut Generator,
) -> Case {
    let (shapes, transforms) = before.lent(generator);
    let further = Some(further.clone());
    let words = before.offsets.len();
    let old = [
        Value::Words((0..2 * words).map(|_| generator.bits() as u32).collect()),
        Value::Numbers(draw::old(ROOM * words, generator)),
    ];
    let kind = match (before.transform(place), shapes.len()) {
        _ if place >= words => "past the end",
        (Some(_), _) => "multiplied",
        (None, 0) => "the first",
        (None, _) => "beside others",
    };
    let out = left(&transforms, place, after);
    let [further_shape, place] = [&shape(&further)[..], &[place as u32]].map(<[u32]>::to_vec);
    let parameters = [
        Value::Words(further_shape[..1].to_vec()),
        Value::Words(maps::words(&before.offsets)),
        Value::Words(shapes),
        Value::Numbers(transforms),
        Value::Words(place),
        Value::Words(further_shape),
        Value::Numbers(roomy(&further, generator)),
    ];
    Case::accepted(
        &calls::TRANSFORM,
        kind.to_string(),
        [&parameters[..], &old].concat(),
        [
            ("out_shapes", After::Words(after.shapes())),
            ("out_transforms", After::numbers(&out)),
        ],
    )
}

/// The numbers of all transforms afterwards: behind one that was made there are zeros, behind others what was there before.
fn left(before: &[f64], made: usize, after: &Blocks) -> Vec<f64> {
    let numbers = after.transforms.iter().enumerate();
    let numbers = numbers.flat_map(|(block, transform)| {
        let places = ROOM * block..ROOM * (block + 1);
        let old = before.get(places).filter(|_| block != made);
        let mut numbers = old.map_or(vec![0.0; ROOM], <[f64]>::to_vec);
        let entries = entries(transform);
        numbers[..entries.len()].copy_from_slice(entries);
        numbers
    });
    numbers.collect()
}
