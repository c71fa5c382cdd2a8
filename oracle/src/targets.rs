//! What accumulating calls add to: block maps, and Hessians and gradients of any first content.

use crate::beside::{bad_shapes, some_columns, Beside, WRONG_LENGTHS};
use crate::called::Fault;
use crate::draws::{fill_with, old, Size};
use crate::generator::Generator;
use crate::model::transforms::{Shape, MAX_COLUMNS, NO_SHAPE};
use crate::model::{LENGTH, MAP_WORD, MAX_DOF, SEGMENT, SHAPE};
use maghnelt::{MAX_ORDER, MAX_WORDS, UNMAPPED};

/// So many words more than frames a map may have.
const MORE_WORDS: usize = 3;

/// A block map with what lies beside it, a Hessian and a gradient.
#[derive(Clone)]
pub struct Destination {
    /// The rows of a frame without a transform.
    pub dof: usize,
    /// The map.
    pub map: Vec<u32>,
    /// What lies beside it.
    pub beside: Beside,
    /// The Hessian.
    pub hessian: Vec<f64>,
    /// The gradient.
    pub gradient: Vec<f64>,
}

impl Destination {
    /// A destination in which so many frames of dof rows fit: each mapped, also onto rows of another, or not.
    pub fn random(dof: usize, frames: usize, generator: &mut Generator) -> Destination {
        Destination::with_beside(Beside::default(), dof, frames, generator)
    }

    /// The same with transforms beside the map, or none.
    pub fn transformed(dof: usize, frames: usize, generator: &mut Generator) -> Destination {
        let beside = match generator.below(4) {
            0 => Beside::default(),
            _ => Beside::random(frames + MORE_WORDS, dof as u32, generator),
        };
        Destination::with_beside(beside, dof, frames, generator)
    }

    /// Such a destination with what lies beside the words, of which the map may have fewer.
    fn with_beside(
        mut beside: Beside,
        dof: usize,
        frames: usize,
        generator: &mut Generator,
    ) -> Destination {
        let most = frames + MORE_WORDS;
        let widths: Vec<usize> = (0..most).map(|word| beside.width(word, dof)).collect();
        let start = |word: usize| widths[..word].iter().sum::<usize>();
        let order = match generator.below(16) {
            // Nothing is wanted.
            0 | 1 => return Destination::nowhere(dof),
            2 => 0,
            3..=9 => widths[..frames].iter().max().unwrap_or(&dof) + generator.below(5) as usize,
            _ => start(frames).min(40) + generator.below(4) as usize,
        };
        let words = match generator.below(4) {
            0 => generator.below(1 + frames as u64) as usize,
            1 => frames + generator.below(1 + MORE_WORDS as u64) as usize,
            _ => frames,
        };
        let in_a_row = generator.below(2) == 0;
        let map = (0..words)
            .map(|word| match (generator.below(5), widths[word]) {
                (0, _) => UNMAPPED,
                // A word that no frame has may be past the end.
                (1, _) if word >= frames => generator.below(u64::from(UNMAPPED)) as u32,
                (_, width) if order < width => UNMAPPED,
                (_, width) if in_a_row && start(word) + width <= order => start(word) as u32,
                (_, width) => generator.below((order - width + 1) as u64) as u32,
            })
            .collect();
        beside.follow(most, words, generator);
        let target = Destination::of_order(order, dof, map, generator);
        Destination { beside, ..target }
    }

    /// The one that is not wanted.
    pub fn nowhere(dof: usize) -> Destination {
        Destination {
            dof,
            map: Vec::new(),
            beside: Beside::default(),
            hessian: Vec::new(),
            gradient: Vec::new(),
        }
    }

    /// A destination of that order, with any content and nothing beside the map.
    pub fn of_order(
        order: usize,
        dof: usize,
        map: Vec<u32>,
        generator: &mut Generator,
    ) -> Destination {
        Destination {
            dof,
            map,
            beside: Beside::default(),
            hessian: cells(order * order, generator),
            gradient: cells(order, generator),
        }
    }

    /// A map of three words, one of which has that word and that shape; the others are not mapped.
    fn of_one(
        place: usize,
        word: u32,
        shape: Shape,
        dof: u32,
        generator: &mut Generator,
    ) -> Destination {
        let mut target = Destination::nowhere(dof as usize);
        for k in 0..3 {
            let columns = some_columns(generator);
            let other = generator.pick(&[NO_SHAPE, [dof, columns]]);
            let (word, shape) = if k == place {
                (word, shape)
            } else {
                (UNMAPPED, other)
            };
            target.map.push(word);
            target.beside.push(shape, generator);
        }
        target
    }

    /// The same with a Hessian of that order, of any content.
    fn at_order(self, order: usize, generator: &mut Generator) -> Destination {
        Destination {
            hessian: cells(order * order, generator),
            gradient: cells(order, generator),
            ..self
        }
    }

    /// The order of the Hessian.
    pub fn order(&self) -> usize {
        self.gradient.len()
    }

    /// The Hessian and the gradient get another length.
    fn resize(&mut self, hessian: usize, gradient: usize) {
        self.hessian.resize(hessian, -0.0);
        self.gradient.resize(gradient, -0.0);
    }

    /// The map gets so many words, those that are new unmapped and without a transform.
    fn resize_map(&mut self, words: usize, generator: &mut Generator) {
        self.beside.follow(self.map.len(), words, generator);
        self.map.resize(words, UNMAPPED);
    }

    /// A place in the map or, if it can grow, behind it, where it then has words.
    fn some_word(&mut self, generator: &mut Generator) -> usize {
        let words = self.map.len();
        let place = generator.below(words as u64 + 2) as usize;
        if place >= words && words < MAX_WORDS - 2 {
            self.resize_map(place + 1, generator);
        }
        place.min(self.map.len() - 1)
    }

    /// What an accumulating call can be refused for in it.
    pub fn faults() -> Vec<Fault<Destination>> {
        vec![
            Fault::new(LENGTH, |target: &mut Destination, generator| {
                let order = target.order();
                let wrong = [
                    order * order + 1,
                    order * order + order + 1,
                    (order + 1).pow(2),
                ];
                target.resize(generator.pick(&wrong), order);
            }),
            Fault::new(LENGTH, |target: &mut Destination, generator| {
                let order = target.order();
                match order {
                    0 => target.resize(0, 1),
                    _ => target.resize(
                        order * order - 1 - generator.below(order as u64) as usize,
                        order,
                    ),
                }
            }),
            Fault::new(LENGTH, |target: &mut Destination, _| {
                target.resize((MAX_ORDER + 1).pow(2), MAX_ORDER + 1);
            }),
            Fault::new(LENGTH, |target: &mut Destination, generator| {
                let wrong = MAX_WORDS + generator.pick(&[1, 2, MAX_WORDS]);
                target.resize_map(wrong, generator);
            }),
            Fault::new(MAP_WORD, |target: &mut Destination, generator| {
                let bad = [UNMAPPED + 1, 2 * UNMAPPED, 3 * UNMAPPED, u32::MAX];
                // In any place, past the last frame's too.
                let place = target.some_word(generator);
                target.map[place] = generator.pick(&bad);
            }),
            // The first offset that does not fit.
            Fault::new(SEGMENT, |target: &mut Destination, generator| {
                let words = target.map.len().max(1);
                target.resize_map(words, generator);
                let width = target.beside.width(0, target.dof);
                target.map[0] = (target.order() + 1).saturating_sub(width) as u32;
            }),
            Fault::new(SEGMENT, |target: &mut Destination, generator| {
                let words = target.map.len().max(1);
                target.resize_map(words, generator);
                target.map[0] = UNMAPPED - 1;
            }),
        ]
    }

    /// What it can be refused for besides in what lies beside the map.
    pub fn transform_faults() -> Vec<Fault<Destination>> {
        let lengths = WRONG_LENGTHS.map(|make| {
            Fault::new(LENGTH, move |target: &mut Destination, generator| {
                make(&mut target.beside, target.map.len(), generator);
            })
        });
        // Of any word, of an existing frame or not.
        let shape = |kind: fn(u32, Shape) -> bool| {
            Fault::new(SHAPE, move |target: &mut Destination, generator| {
                let place = target.some_word(generator);
                let mut shapes = bad_shapes(target.dof as u32);
                shapes.retain(|&shape| kind(target.dof as u32, shape));
                let shape = generator.pick(&shapes);
                let words = target.map.len();
                target.beside.put(place, shape, words, generator);
            })
        };
        let shapes = [
            shape(|_, [_, columns]| columns > MAX_COLUMNS),
            shape(|dof, [rows, _]| rows.abs_diff(dof) == 1),
            shape(|dof, [rows, _]| rows != dof),
        ];
        lengths.into_iter().chain(shapes).collect()
    }
}

/// Every dof with small orders, and offsets that fit, and the first that does not and some after it.
pub fn ends_of_segments() -> impl Iterator<Item = (u32, usize, u32)> {
    (0..=MAX_DOF).flat_map(|dof| {
        (0..12).flat_map(move |order| (0..14).map(move |offset| (dof, order, offset)))
    })
}

/// Goes through destinations of a call with transforms at which something turns, for two frames at most.
pub fn each_turning_transform(
    generator: &mut Generator,
    mut check: impl FnMut(Destination, &mut Generator),
) {
    let numbers = |dof: u32| (0..=MAX_COLUMNS).map(move |columns| (dof, columns));
    for (dof, columns) in (0..=MAX_DOF).flat_map(numbers) {
        for one in ends_of_a_transform(dof, columns, generator) {
            check(one, generator);
        }
    }
    // Every shape that is refused: of a word that has rows, and of one that has none.
    for (dof, word) in (0..=MAX_DOF).flat_map(|dof| [(dof, 0), (dof, UNMAPPED)]) {
        for shape in bad_shapes(dof) {
            let place = generator.below(3) as usize;
            let one = Destination::of_one(place, word, shape, dof, generator);
            check(one.at_order(11, generator), generator);
        }
    }
}

/// Runs of one to five frames that all have one shape, of six rows and each number of columns.
pub fn each_run(
    generator: &mut Generator,
    mut check: impl FnMut(usize, Destination, &mut Generator),
) {
    for columns in 0..=MAX_COLUMNS {
        for frames in 1..=5 {
            let beside = Beside::of_shape(frames + MORE_WORDS, [6, columns], generator);
            let target = Destination::with_beside(beside, 6, frames, generator);
            check(frames, target, generator);
        }
    }
}

/// Goes through destinations of a call with transforms at the limits of a map and of a Hessian.
pub fn each_largest_transform(
    generator: &mut Generator,
    mut check: impl FnMut(Destination, &mut Generator),
) {
    // The most words, of which the last one's shape may be refused.
    for shape in [[4, 9], [4, 10], [5, 4]] {
        let mut most = Destination::nowhere(4);
        most.map = vec![UNMAPPED; MAX_WORDS];
        most.map[0] = 0;
        most.beside = Beside::random(MAX_WORDS, 4, generator);
        most.beside.put(MAX_WORDS - 1, shape, MAX_WORDS, generator);
        check(most.at_order(9, generator), generator);
    }
    // The largest order: the last rows, and one past them.
    for offset in [MAX_ORDER as u32 - 5, MAX_ORDER as u32 - 4] {
        let largest = Destination::of_one(0, offset, [6, 5], 6, generator);
        check(largest.at_order(MAX_ORDER, generator), generator);
    }
}

/// Destinations of one word with a transform of that shape: in the middle of the rows, at their end and past it.
fn ends_of_a_transform(dof: u32, columns: u32, generator: &mut Generator) -> Vec<Destination> {
    let width = columns as usize;
    let rows = [
        (11, 1),
        (width, 0),
        (width, 1),
        (width + 3, 3),
        (width + 3, 4),
    ];
    let mut ends = Vec::new();
    for (order, offset) in rows {
        for place in [0, generator.below(3) as usize] {
            let one = Destination::of_one(place, offset, [dof, columns], dof, generator);
            ends.push(one.at_order(order, generator));
        }
    }
    ends
}

/// Cells of a Hessian or a gradient: zeros of one sign, such as are met, or any patterns with NaNs frequent among them.
pub fn cells(length: usize, generator: &mut Generator) -> Vec<f64> {
    let mut cells = vec![0.0; length];
    match generator.below(4) {
        0 => {}
        1 => cells.fill(-0.0),
        2 => fill_with(Size::Measured, &mut cells, generator),
        _ => return old(length, generator),
    }
    cells
}
