//! What the calls on points and planes are tried on: scanned walls as they are met, and numbers that lead astray.

use crate::generator::Generator;
use crate::model::moments::{with_point, Moments};
use crate::model::{dot, matrix, store_matrix, vector, Matrix, Vector};
use crate::patterns::{self, FRACTION, SIGN};
use maghnelt::MOMENTS;

/// A number from `low` up to `high`, spread evenly.
pub fn within(low: f64, high: f64, generator: &mut Generator) -> f64 {
    let share = (generator.bits() >> 11) as f64 / (1u64 << 53) as f64;
    low + (high - low) * share
}

/// How large the numbers of a slice are.
#[derive(Clone, Copy)]
pub enum Size {
    /// Small whole numbers: zeros of both signs and exact sums are frequent.
    Whole,
    /// Such as are measured.
    Measured,
    /// So large that products overflow.
    Large,
    /// So small that products underflow.
    Small,
    /// Any patterns.
    Any,
}

impl Size {
    /// A random size.
    pub fn random(generator: &mut Generator) -> Size {
        use Size::{Any, Large, Measured, Small, Whole};
        generator.pick(&[
            Whole, Whole, Measured, Measured, Measured, Large, Small, Any,
        ])
    }

    fn number(self, generator: &mut Generator) -> f64 {
        let sign = generator.bits() & SIGN;
        let mut with_exponent = |low: u64, high: u64| {
            let exponent = low + generator.below(high - low);
            sign | exponent << 52 | generator.bits() & FRACTION
        };
        f64::from_bits(match self {
            Size::Whole => sign | (generator.below(3) as f64).to_bits(),
            Size::Measured => with_exponent(1023 - 10, 1023 + 7),
            Size::Large => with_exponent(1023 + 400, 2047),
            Size::Small => with_exponent(0, 1023 - 400),
            Size::Any => patterns::random(generator),
        })
    }
}

/// Fills a slice with numbers of a size; then, in half the cases, one or two of them become special.
pub fn fill_with(size: Size, numbers: &mut [f64], generator: &mut Generator) {
    numbers.fill_with(|| size.number(generator));
    if generator.below(2) == 0 && !numbers.is_empty() {
        for _ in 0..=generator.below(2) {
            let place = generator.below(numbers.len() as u64) as usize;
            numbers[place] = f64::from_bits(patterns::random(generator));
        }
    }
}

/// Fills a slice with numbers of a random size.
pub fn fill(numbers: &mut [f64], generator: &mut Generator) {
    fill_with(Size::random(generator), numbers, generator);
}

/// An array that is filled so.
pub fn numbers<const N: usize>(generator: &mut Generator) -> [f64; N] {
    let mut numbers = [0.0; N];
    fill(&mut numbers, generator);
    numbers
}

/// Slices of these lengths, each filled by itself.
pub fn slices<const N: usize>(lengths: [usize; N], generator: &mut Generator) -> [Vec<f64>; N] {
    lengths.map(|length| {
        let mut slice = vec![0.0; length];
        fill(&mut slice, generator);
        slice
    })
}

/// What an output may hold before it is written: any patterns, NaNs with payloads frequent among them.
pub fn old(length: usize, generator: &mut Generator) -> Vec<f64> {
    let pattern = |generator: &mut Generator| match generator.below(3) {
        0 => patterns::random_nan(generator) | generator.bits() & SIGN,
        _ => patterns::random(generator),
    };
    (0..length)
        .map(|_| f64::from_bits(pattern(generator)))
        .collect()
}

/// The same of an output of words.
pub fn old_words(length: usize, generator: &mut Generator) -> Vec<u32> {
    let numbers = old(length, generator);
    numbers.iter().map(|x| x.to_bits() as u32).collect()
}

/// A rotation into the site and a shift.
pub struct Pose {
    /// The rotation.
    pub rotation: Matrix<3>,
    /// The shift.
    pub shift: Vector,
}

impl Pose {
    /// A pose up to a kilometre from the site's origin.
    pub fn random(generator: &mut Generator) -> Pose {
        Pose {
            rotation: rotation(generator),
            shift: vector_within(1000.0, generator),
        }
    }
}

/// A vector with coordinates of at most that size.
fn vector_within(size: f64, generator: &mut Generator) -> Vector {
    std::array::from_fn(|_| within(-size, size, generator))
}

/// The rotation of a random quaternion.
pub fn rotation(generator: &mut Generator) -> Matrix<3> {
    let [w, x, y, z] = std::array::from_fn(|_| within(-1.0, 1.0, generator));
    let s = 2.0 / (w * w + x * x + y * y + z * z);
    [
        [
            1.0 - s * (y * y + z * z),
            s * (x * y - w * z),
            s * (x * z + w * y),
        ],
        [
            s * (x * y + w * z),
            1.0 - s * (x * x + z * z),
            s * (y * z - w * x),
        ],
        [
            s * (x * z - w * y),
            s * (y * z + w * x),
            1.0 - s * (x * x + y * y),
        ],
    ]
}

/// A flat piece of wall as a scanner sees it, metres away and with some noise.
pub struct Wall {
    /// Along the wall, up the wall and out of it.
    pub axes: [Vector; 3],
    /// The middle of the piece.
    pub middle: Vector,
    /// Half its width, half its height and the size of the noise.
    pub sizes: [f64; 3],
}

impl Wall {
    /// A wall up to some sixty metres away.
    pub fn random(generator: &mut Generator) -> Wall {
        Wall {
            axes: rotation(generator),
            middle: vector_within(40.0, generator),
            sizes: [
                within(0.2, 8.0, generator),
                within(0.2, 3.0, generator),
                within(0.001, 0.03, generator),
            ],
        }
    }

    /// A point of it, with noise.
    pub fn point(&self, generator: &mut Generator) -> Vector {
        let at = self.sizes.map(|size| within(-size, size, generator));
        vector(|r| {
            let off = (0..3).map(|k| self.axes[k][r] * at[k]).sum::<f64>();
            self.middle[r] + off
        })
    }

    /// The mean squares of what its points lie off the middle, along each axis.
    pub fn eigenvalues(&self) -> [f64; 3] {
        self.sizes.map(|size| size * size / 3.0)
    }
}

/// The record of the moments of some points of a wall.
pub fn record_of(wall: &Wall, generator: &mut Generator) -> [f64; MOMENTS] {
    let points = 3 + generator.below(30);
    let moments = (0..points).fold(Moments::EMPTY, |moments, _| {
        with_point(moments, wall.point(generator))
    });
    let mut record = [0.0; MOMENTS];
    moments.write(&mut record);
    record
}

/// Counts at which an answer changes, and some beside them.
pub const COUNTS: [f64; 14] = [
    0.0,
    -0.0,
    5e-324,
    -5e-324,
    0.5,
    1.0,
    2.0,
    2.999_999_999_999_999_6,
    3.0,
    4.0,
    -3.0,
    f64::INFINITY,
    f64::NEG_INFINITY,
    f64::NAN,
];

/// A record of a wall's moments, or one of any numbers; its count is often one of those at which an answer changes.
pub fn record(generator: &mut Generator) -> [f64; MOMENTS] {
    let mut record = match generator.below(3) {
        0 => record_of(&Wall::random(generator), generator),
        _ => numbers(generator),
    };
    if generator.below(3) == 0 {
        record[0] = generator.pick(&COUNTS);
    }
    record
}

/// What is stored for a matrix.
pub fn stored<const N: usize>(matrix: Matrix<N>) -> Vec<f64> {
    let mut stored = vec![0.0; N * N];
    store_matrix(matrix, &mut stored);
    stored
}

/// The product of a random matrix with its transpose, of about that size: a covariance such as is met.
pub fn covariance<const N: usize>(size: f64, generator: &mut Generator) -> Matrix<N> {
    let root: Matrix<N> =
        std::array::from_fn(|_| std::array::from_fn(|_| within(-size, size, generator)));
    matrix(|r, c| dot(root[r], root[c]))
}

#[cfg(test)]
mod tests {
    use super::*;

    #[test]
    fn rotations_keep_lengths_and_angles() {
        let mut generator = Generator::new(1);
        for _ in 0..100 {
            let rotation = rotation(&mut generator);
            for r in 0..3 {
                for c in 0..3 {
                    let product = dot(rotation[r], rotation[c]);
                    let unit = f64::from(u8::from(r == c));
                    assert!((product - unit).abs() < 1e-14);
                }
            }
        }
    }

    #[test]
    fn points_of_a_wall_lie_at_it() {
        let mut generator = Generator::new(1);
        for _ in 0..100 {
            let wall = Wall::random(&mut generator);
            let point = wall.point(&mut generator);
            let off = vector(|r| point[r] - wall.middle[r]);
            let out = dot(wall.axes[2], off);
            assert!(out.abs() <= wall.sizes[2] + 1e-12);
        }
    }

    #[test]
    fn drawn_numbers_are_of_every_size() {
        let mut generator = Generator::new(1);
        let drawn: Vec<f64> = (0..2000)
            .flat_map(|_| numbers::<9>(&mut generator))
            .collect();
        let some = |holds: fn(f64) -> bool| drawn.iter().filter(|&&x| holds(x)).count() > 100;
        assert!(some(|x| x == 0.0 && x.is_sign_negative()));
        assert!(some(|x| x.abs() > 1e200));
        assert!(some(|x| x != 0.0 && x.abs() < 1e-200));
        assert!(some(f64::is_nan));
    }
}
