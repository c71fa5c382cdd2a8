//! Transforms beside a map, as slices.

use crate::lent::patterns;
use maghnelt::{NO_TRANSFORM, TRANSFORM};

/// The shape of a word without a transform.
pub const NONE: [u32; 2] = [NO_TRANSFORM; 2];

/// The 81 numbers of a transform: those given, and patterns behind them, which no call may read.
pub fn numbers(given: &[f64]) -> Vec<f64> {
    let mut all = patterns(TRANSFORM);
    all[..given.len()].copy_from_slice(given);
    all
}

/// Shapes and numbers of the words of a map, one after the other.
pub struct Beside {
    pub shapes: Vec<u32>,
    pub transforms: Vec<f64>,
}

impl Beside {
    /// No word has a transform, both slices being empty.
    pub const EMPTY: Beside = Beside {
        shapes: Vec::new(),
        transforms: Vec::new(),
    };

    /// A shape with its numbers for each word.
    pub fn of(words: &[([u32; 2], &[f64])]) -> Beside {
        Beside {
            shapes: words.iter().flat_map(|(shape, _)| *shape).collect(),
            transforms: words.iter().flat_map(|(_, given)| numbers(given)).collect(),
        }
    }
}
