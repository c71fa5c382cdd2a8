//! Maps of blocks: remapped, and remapped again, so that a map with dropped blocks is remapped too.

use super::refused;
use crate::calls::{self, Value};
use crate::case::{After, Case};
use crate::factors::{beside, NormalBlocks};
use nalgebra::{DMatrix, DVector};
use oracle::generator::Generator;

/// The word of a block that goes nowhere.
pub const UNMAPPED: u32 = 0x4000_0000;

/// The word of an offset.
pub fn word(offset: Option<usize>) -> u32 {
    match offset {
        Some(offset) => u32::try_from(offset).expect("an offset of at most 30 bits"),
        None => UNMAPPED,
    }
}

/// The words of offsets.
pub fn words(offsets: &[Option<usize>]) -> Vec<u32> {
    offsets.iter().map(|offset| word(*offset)).collect()
}

fn length(generator: &mut Generator) -> u64 {
    match generator.below(40) {
        0 => 1024,
        1..4 => generator.below(200),
        _ => generator.below(9),
    }
}

/// A list of places in a map, some past its end, some of none.
pub fn list(length: u64, map: u64, generator: &mut Generator) -> Vec<Option<usize>> {
    (0..length)
        .map(|_| match generator.below(12) {
            0 => None,
            1 => Some(generator.below(1 << 30) as usize),
            2 => Some((map + generator.below(2)) as usize),
            _ => Some(generator.below(map.max(1)) as usize),
        })
        .collect()
}

pub fn run(generator: &mut Generator, cases: &mut Vec<Case>) {
    let offsets: Vec<usize> = (0..length(generator))
        .map(|_| match generator.below(8) {
            0 => generator.below(1 << 30) as usize,
            1 => (1 << 30) - 1,
            _ => generator.below(1024) as usize,
        })
        .collect();
    let mut hessian = DMatrix::from_fn(0, 0, |_, _| 0.0);
    let mut gradient = DVector::from_fn(0, |_, _| 0.0);
    let mut blocks = NormalBlocks::new(&mut hessian, &mut gradient, &offsets);
    let of_blocks = beside::offsets(&blocks);
    let first = list(length(generator), of_blocks.len() as u64, generator);
    let mut remapped = blocks.remapped(&first);
    let once = beside::offsets(&remapped);
    cases.push(case("once", &of_blocks, &first, &once, generator));
    let second = list(length(generator), once.len() as u64, generator);
    let twice = beside::offsets(&remapped.remapped(&second));
    cases.push(case("twice", &once, &second, &twice, generator));
    refused::add(cases, generator);
}

fn case(
    times: &str,
    map: &[Option<usize>],
    list: &[Option<usize>],
    out: &[Option<usize>],
    generator: &mut Generator,
) -> Case {
    let kinds = |offsets: &[Option<usize>]| match offsets {
        [] => "empty",
        _ if offsets.iter().all(Option::is_some) => "mapped",
        _ if offsets.iter().all(Option::is_none) => "unmapped",
        _ => "mixed",
    };
    let old = (0..out.len()).map(|_| generator.bits() as u32).collect();
    Case::accepted(
        &calls::REMAP,
        format!("{times} {} {} {}", kinds(map), kinds(list), kinds(out)),
        vec![
            Value::Words(words(map)),
            Value::Words(words(list)),
            Value::Words(old),
        ],
        [("out", After::Words(words(out)))],
    )
}
