//! What calls accumulate into.

use super::draw::{self, Temper};
use super::maps;
use super::transforms::{self, stepped, Blocks, Step};
use crate::calls::Value;
use crate::case::{After, Cell};
use crate::factors::NormalBlocks;
use nalgebra::{DMatrix, DVector};
use oracle::generator::Generator;

/// What a call accumulates into: Hessian, gradient and the blocks in them, or nothing of it.
pub struct Target {
    wanted: bool,
    n: usize,
    hessian: Vec<f64>,
    gradient: Vec<f64>,
    /// Where a wrapping factor's blocks are, what it does to them, and what the factor gets.
    places: Vec<usize>,
    steps: Vec<Step>,
    blocks: Blocks,
    /// Shapes and transforms as they are handed in, where the call takes them.
    slices: Option<[Value; 2]>,
    frames: usize,
}

/// The words of a map: one fewer than frames, as many or one more.
fn words(frames: usize, generator: &mut Generator) -> usize {
    (frames + generator.below(3) as usize).saturating_sub(1)
}

impl Target {
    /// A target for some frames: the map may be shorter or longer than the list of frames.
    pub fn drawn(wanted: bool, dof: usize, frames: usize, generator: &mut Generator) -> Target {
        if !wanted {
            return Target::nowhere(frames);
        }
        let n = dof + generator.below(2 + dof as u64) as usize;
        let words = words(frames, generator);
        let offsets: Vec<Option<usize>> = (0..words)
            .map(|_| {
                (generator.below(5) != 0).then(|| generator.below((n - dof + 1) as u64) as usize)
            })
            .collect();
        // Those of a wrapping factor are remapped where some are dropped.
        let all: Option<Vec<usize>> = offsets.iter().copied().collect();
        let (places, steps) = match all {
            Some(places) => (places, Vec::new()),
            None => ((0..=n).collect(), vec![Step::Remapped(offsets)]),
        };
        Target::of(n, places, steps, frames, generator)
    }

    /// A target for some frames, of a call that takes transforms of their blocks.
    pub fn transformed(
        temper: Temper,
        dof: usize,
        frames: usize,
        generator: &mut Generator,
    ) -> Target {
        if generator.below(16) == 0 {
            let mut target = Target::nowhere(frames);
            target.slices = Some([Value::Words(Vec::new()), Value::Numbers(Vec::new())]);
            return target;
        }
        let words = words(frames, generator);
        let (outer, steps) = transforms::steps(words, dof, temper, generator);
        // Which of the wrapping factor's blocks each is, so that its segment fits.
        let numbers: Vec<usize> = (0..outer).collect();
        let numbered = Blocks::after(&numbers, &steps);
        let mut widest = vec![0; outer];
        for (block, place) in numbered.offsets.iter().enumerate() {
            if let Some(place) = *place {
                widest[place] = numbered.width(block, dof).max(widest[place]);
            }
        }
        let least = widest.iter().max().copied().unwrap_or(0);
        let n = least + generator.below(2 + least as u64) as usize;
        let places = widest.iter().map(|width| n - width + 1);
        let places = places.map(|places| generator.below(places as u64) as usize);
        let mut target = Target::of(n, places.collect(), steps, frames, generator);
        if temper == Temper::Zeros {
            // A sum of -0 shows in a cell of -0 alone.
            target.hessian = temper.any(n * n, generator);
            target.gradient = temper.any(n, generator);
        }
        let (shapes, transforms) = target.blocks.lent(generator);
        target.slices = Some([Value::Words(shapes), Value::Numbers(transforms)]);
        target
    }

    fn nowhere(frames: usize) -> Target {
        Target {
            wanted: false,
            n: 0,
            hessian: Vec::new(),
            gradient: Vec::new(),
            places: Vec::new(),
            steps: Vec::new(),
            blocks: Blocks::after(&[], &[]),
            slices: None,
            frames,
        }
    }

    fn of(
        n: usize,
        places: Vec<usize>,
        steps: Vec<Step>,
        frames: usize,
        generator: &mut Generator,
    ) -> Target {
        Target {
            wanted: true,
            n,
            hessian: draw::content(n * n, generator),
            gradient: draw::content(n, generator),
            blocks: Blocks::after(&places, &steps),
            places,
            steps,
            slices: None,
            frames,
        }
    }

    /// Map, Hessian and gradient as they are handed in, with shapes and transforms after the map where the call takes them.
    pub fn parameters(&self) -> Vec<Value> {
        let mut parameters = vec![Value::Words(maps::words(&self.blocks.offsets))];
        parameters.extend(self.slices.iter().flatten().cloned());
        parameters.push(Value::Numbers(self.hessian.clone()));
        parameters.push(Value::Numbers(self.gradient.clone()));
        parameters
    }

    /// Lends the original the blocks.
    pub fn lend<T>(&mut self, work: impl FnOnce(Option<&mut NormalBlocks<'_>>) -> T) -> T {
        if !self.wanted {
            return work(None);
        }
        let mut hessian = DMatrix::from_column_slice(self.n, self.n, &self.hessian);
        let mut gradient = DVector::from_column_slice(&self.gradient);
        let mut outer = NormalBlocks::new(&mut hessian, &mut gradient, &self.places);
        let answer = stepped(&mut outer, &self.steps, |blocks| work(Some(blocks)));
        self.hessian = hessian.as_slice().to_vec();
        self.gradient = gradient.as_slice().to_vec();
        answer
    }

    /// The blocks of frames that exist.
    fn known(&self) -> usize {
        self.blocks.offsets.len().min(self.frames)
    }

    /// Hessian and gradient afterwards: the cells of a frame's segment as the original left them, the others kept.
    pub fn written(&self, dof: usize) -> Vec<(&'static str, After)> {
        let segments: Vec<(usize, usize)> = (0..self.known())
            .filter_map(|block| Some((self.blocks.offsets[block]?, self.blocks.width(block, dof))))
            .collect();
        let within = |row: usize, (from, width): (usize, usize)| from <= row && row < from + width;
        let cell = |written: bool, number: f64| {
            if written {
                Cell::Is(number)
            } else {
                Cell::Kept
            }
        };
        let hessian = (0..self.hessian.len()).map(|place| {
            let (row, column) = (place % self.n, place / self.n);
            let written = segments
                .iter()
                .any(|&segment| within(row, segment) && within(column, segment));
            cell(written, self.hessian[place])
        });
        let gradient = (0..self.n).map(|row| {
            cell(
                segments.iter().any(|&segment| within(row, segment)),
                self.gradient[row],
            )
        });
        vec![
            ("hessian", After::Numbers(hessian.collect())),
            ("gradient", After::Numbers(gradient.collect())),
        ]
    }

    /// What kind of target it is.
    pub fn label(&self) -> String {
        let known = self.known();
        let mapped = match &self.blocks.offsets[..known] {
            _ if !self.wanted => "unwanted",
            [] => "no map",
            offsets if offsets.iter().all(Option::is_none) => "unmapped",
            offsets if known < self.frames || offsets.iter().any(Option::is_none) => "some mapped",
            _ => "mapped",
        };
        let Some([shapes, _]) = &self.slices else {
            return mapped.to_string();
        };
        let is_transformed = |block: &usize| {
            self.blocks.offsets[*block].is_some() && self.blocks.transform(*block).is_some()
        };
        let transforms = match (0..known).filter(is_transformed).count() {
            _ if shapes.is_empty() => "no shapes",
            0 => "untransformed",
            1 => "one transform",
            _ => "transforms",
        };
        format!("{mapped} {transforms}")
    }
}
