//! Building with outputs that are lent with patterns in them.

use crate::lent::{bits, patterns};
use maghnelt::Refusal;

/// One of the two calls that build a factor.
pub type Build =
    fn(u32, &[f64], &[f64], f64, &mut [f64], &mut [f64], &mut f64, &mut u32) -> Result<(), Refusal>;

/// The bits of what a build may write.
#[derive(Debug, PartialEq)]
pub struct Outputs {
    pub centred_frames: Vec<u64>,
    pub centred_fixed: Vec<u64>,
    pub points: u64,
    pub dropped: u32,
}

impl Outputs {
    /// As they are lent, the slices being so long.
    pub fn lent([of_frames, of_fixed]: [usize; 2]) -> Outputs {
        Outputs {
            centred_frames: bits(&patterns(of_frames)),
            centred_fixed: bits(&patterns(of_fixed)),
            points: patterns(1)[0].to_bits(),
            dropped: 77,
        }
    }
}

/// Builds from frames and fixed set, with outputs of these lengths, and sees that a refused call leaves them.
pub fn built(
    build: Build,
    dof: u32,
    [frames, fixed]: [&[f64]; 2],
    sigma: f64,
    lengths: [usize; 2],
) -> (Result<(), Refusal>, Outputs) {
    let before = Outputs::lent(lengths);
    let [mut centred_frames, mut centred_fixed] = lengths.map(patterns);
    let mut points = f64::from_bits(before.points);
    let mut dropped = before.dropped;
    let answer = build(
        dof,
        frames,
        fixed,
        sigma,
        &mut centred_frames,
        &mut centred_fixed,
        &mut points,
        &mut dropped,
    );
    let after = Outputs {
        centred_frames: bits(&centred_frames),
        centred_fixed: bits(&centred_fixed),
        points: points.to_bits(),
        dropped,
    };
    if answer.is_err() {
        assert_eq!(after, before);
    }
    (answer, after)
}
