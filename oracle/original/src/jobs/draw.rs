//! What jobs are drawn of.

use oracle::draws::{self, within, Size, Wall};
use oracle::generator::Generator;
use oracle::patterns;

/// How a job's numbers are: as they are met on a site, or such as lead astray.
#[derive(Clone, Copy, PartialEq, Debug)]
pub enum Temper {
    /// Walls, floors, noisy poses.
    Met,
    /// Huge, tiny, zeros of both signs, overflowing.
    Hostile,
    /// Zeros of both signs and ones: where a sum starts shows in the sign of a zero.
    Zeros,
}

impl Temper {
    /// As they are met, in half the jobs.
    pub fn random(generator: &mut Generator) -> Temper {
        use Temper::{Hostile, Met, Zeros};
        generator.pick(&[Met, Met, Met, Hostile, Hostile, Zeros])
    }

    /// Numbers of a job that are not as they are met.
    pub fn any(self, length: usize, generator: &mut Generator) -> Vec<f64> {
        let mut numbers = vec![0.0; length];
        match self {
            Temper::Zeros => {
                let list: &[f64] = generator.pick(&[
                    &[0.0, 0.0, 1.0],
                    &[-0.0, -0.0, -1.0],
                    &[0.0, -0.0, 1.0, -1.0],
                ]);
                numbers.fill_with(|| generator.pick(list));
            }
            // Of one size each, some special among them.
            _ => draws::fill(&mut numbers, generator),
        }
        numbers
    }

    /// Such numbers, finite: an infinity or a NaN becomes a number of measured size.
    pub fn any_finite(self, length: usize, generator: &mut Generator) -> Vec<f64> {
        let mut numbers = self.any(length, generator);
        for number in &mut numbers {
            if !number.is_finite() {
                *number = within(-50.0, 50.0, generator);
            }
        }
        numbers
    }
}

/// Numbers of which one or two, or all, are any.
pub fn spoilt(mut numbers: Vec<f64>, temper: Temper, generator: &mut Generator) -> Vec<f64> {
    match generator.below(3) {
        0 => temper.any(numbers.len(), generator),
        _ => {
            for _ in 0..=generator.below(2) {
                let place = generator.below(numbers.len() as u64) as usize;
                numbers[place] = temper.any(1, generator)[0];
            }
            numbers
        }
    }
}

/// What an output holds before a call.
pub fn old(length: usize, generator: &mut Generator) -> Vec<f64> {
    draws::old(length, generator)
}

/// What a Hessian or a gradient holds before a call: zeros, numbers as they are met, or any.
pub fn content(length: usize, generator: &mut Generator) -> Vec<f64> {
    let mut numbers = vec![0.0; length];
    match generator.below(4) {
        0 => {}
        1 => return old(length, generator),
        2 => draws::fill(&mut numbers, generator),
        _ => draws::fill_with(Size::Measured, &mut numbers, generator),
    }
    numbers
}

/// A sigma as it is met, or one of which the square is 0, tiny, huge or infinite.
pub fn sigma(temper: Temper, generator: &mut Generator) -> f64 {
    match temper {
        Temper::Met => {
            let measured = within(0.001, 0.3, generator);
            generator.pick(&[0.1, 0.5, measured])
        }
        Temper::Zeros => generator.pick(&[0.5, 1.0, 2.0]),
        Temper::Hostile => generator.pick(&[1e-320, 1e-200, 1e-100, 3.0, 1e100, 1e200, f64::MAX]),
    }
}

/// A sigma that is refused.
pub fn bad_sigma(generator: &mut Generator) -> f64 {
    generator.pick(&[0.0, -0.0, -1.0, f64::INFINITY, f64::NEG_INFINITY, f64::NAN])
}

/// A number that is not finite.
pub fn not_finite(generator: &mut Generator) -> f64 {
    generator.pick(&[f64::INFINITY, f64::NEG_INFINITY, f64::NAN, -f64::NAN])
}

/// A wall, or a floor: a piece whose way out is straight up.
pub fn piece(generator: &mut Generator) -> Wall {
    let mut wall = Wall::random(generator);
    if generator.below(3) == 0 {
        wall.axes = [[1.0, 0.0, 0.0], [0.0, 1.0, 0.0], [0.0, 0.0, 1.0]];
    }
    wall
}

/// A site point as it was seen under an action: carried back by the map's inverse, where that is a turn with a scale.
pub fn carried_back(world: [f64; 3], action: &[f64]) -> [f64; 3] {
    let square: f64 = action[..3].iter().map(|entry| entry * entry).sum();
    std::array::from_fn(|row| {
        let along = |r: usize| action[3 * row + r] * (world[r] - action[9 + r]);
        (along(0) + along(1) + along(2)) / square
    })
}

/// A decomposition that no routine made: eigenvalues at which an answer changes, any axes or any numbers.
pub fn decomposition(generator: &mut Generator) -> [f64; 12] {
    const VALUES: [f64; 16] = [
        0.0,
        -0.0,
        5e-324,
        1e-15,
        1e-14,
        1.000_000_000_000_000_2e-14,
        2e-14,
        1e-12,
        0.5,
        1.0,
        1.0,
        2.0,
        -1.0,
        1e15,
        f64::INFINITY,
        f64::NEG_INFINITY,
    ];
    let mut numbers = [0.0; 12];
    match generator.below(3) {
        0 => draws::fill(&mut numbers, generator),
        _ => {
            for k in 0..3 {
                numbers[3 + 4 * k] = 1.0;
            }
        }
    }
    for value in &mut numbers[..3] {
        *value = match generator.below(5) {
            0 => f64::from_bits(patterns::random(generator)),
            _ => generator.pick(&VALUES),
        };
    }
    numbers
}

/// An order of three.
pub fn order(generator: &mut Generator) -> [usize; 3] {
    generator.pick(&[
        [0, 1, 2],
        [0, 2, 1],
        [1, 0, 2],
        [1, 2, 0],
        [2, 0, 1],
        [2, 1, 0],
    ])
}
