//! What the calls on bundles are tried on.

use crate::called::Fault;
use crate::draws::{fill_with, Size, Wall};
use crate::generator::Generator;
use crate::model::bundle::Bundle;
use crate::model::{EMPTY_LIST, FRAME_COUNT, LENGTH, NOT_FINITE, TOTAL_COUNT};
use crate::patterns::{random_nan, SIGN};
use crate::scenes::not_finite;
use maghnelt::{MAX_FRAMES, MAX_POINTS};

/// How long a slice is that is lent. It is settled only then, so that what is right follows the points.
#[derive(Clone, Copy)]
pub enum Length {
    /// As long as it should be.
    Right,
    /// So many numbers longer, or shorter where that is below 0.
    Off(isize),
    /// So long, whatever is right.
    Of(usize),
}

impl Length {
    /// The length where `right` is right. What can't be shorter is longer.
    pub fn beside(self, right: usize) -> usize {
        match self {
            Length::Right => right,
            Length::Off(by) => right
                .checked_add_signed(by)
                .unwrap_or(right + by.unsigned_abs()),
            Length::Of(length) => length,
        }
    }
}

/// The points of a bundle.
#[derive(Clone)]
pub struct Bundled {
    /// Each frame's number of points.
    pub counts: Vec<u32>,
    /// The site points.
    pub points: Vec<f64>,
    /// The fixed points.
    pub fixed: Vec<f64>,
    /// How many numbers of site points are lent.
    pub points_length: Length,
    /// How many numbers of fixed points are lent.
    pub fixed_length: Length,
}

impl Bundled {
    /// Frames of so many points and so many fixed points, of a wall or of any finite numbers.
    pub fn of(counts: Vec<u32>, fixed: usize, generator: &mut Generator) -> Bundled {
        let sites = counts.iter().map(|&count| count as usize).sum();
        // Half of the bundles are such as are met: in a long one a single large number hides all others.
        let [points, fixed] = if generator.below(2) == 0 {
            let wall = Wall::random(generator);
            [sites, fixed].map(|points| (0..points).flat_map(|_| wall.point(generator)).collect())
        } else {
            let size = Size::random(generator);
            [sites, fixed].map(|points| finite(size, 3 * points, generator))
        };
        Bundled::right(counts, points, fixed)
    }

    /// One frame and a fixed point, of which every coordinate is one of these numbers.
    pub fn of_numbers(numbers: &[f64], generator: &mut Generator) -> Bundled {
        let [points, fixed] = [3, 1].map(|points| {
            (0..3 * points)
                .map(|_| generator.pick(numbers))
                .collect::<Vec<f64>>()
        });
        Bundled::right(vec![3], points, fixed)
    }

    /// Points whose slices have the right lengths.
    fn right(counts: Vec<u32>, points: Vec<f64>, fixed: Vec<f64>) -> Bundled {
        Bundled {
            counts,
            points,
            fixed,
            points_length: Length::Right,
            fixed_length: Length::Right,
        }
    }

    /// What the model takes.
    pub fn bundle(&self) -> Bundle<'_> {
        Bundle {
            counts: &self.counts,
            points: &self.points,
            fixed: &self.fixed,
        }
    }

    /// The number of site points.
    pub fn sites(&self) -> usize {
        self.points.len() / 3
    }

    /// The number of rows.
    pub fn rows(&self) -> usize {
        self.sites() + self.fixed.len() / 3
    }

    /// The counts, the site points and the fixed points as they are lent.
    pub fn lent(self) -> (Vec<u32>, [Vec<f64>; 2]) {
        let [mut points, mut fixed] = [self.points, self.fixed];
        points.resize(self.points_length.beside(points.len()), 1.0);
        fixed.resize(self.fixed_length.beside(fixed.len()), 1.0);
        (self.counts, [points, fixed])
    }

    /// A frame more than allowed, of a point each.
    pub fn with_a_frame_too_many(&mut self) {
        self.counts = vec![1; MAX_FRAMES + 1];
        self.points.resize(3 * (MAX_FRAMES + 1), 1.0);
    }

    /// A point more than allowed, of which most are fixed.
    pub fn with_a_point_too_many(&mut self) {
        let sites = self.sites();
        self.fixed.resize(3 * (MAX_POINTS + 1 - sites), 1.0);
    }

    /// One or two points in all; a frame that has none stays.
    fn with_too_few_points(&mut self, generator: &mut Generator) {
        let points = 1 + generator.below(2) as u32;
        let mut left = points;
        self.counts.retain_mut(|count| {
            let empty = *count == 0;
            *count = left.min(*count);
            left -= *count;
            empty || *count > 0
        });
        self.points.truncate(3 * (points - left) as usize);
        self.fixed.truncate(3 * left as usize);
    }

    /// What a call can be refused for in it, its limits apart.
    pub fn faults() -> Vec<Fault<Bundled>> {
        let mut faults = faults_of_counts();
        faults.push(Fault::new(TOTAL_COUNT, Bundled::with_too_few_points));
        faults.push(Fault::new(NOT_FINITE, |bundle: &mut Bundled, generator| {
            spoil(&mut bundle.points, generator);
        }));
        faults.push(Fault::new(NOT_FINITE, |bundle: &mut Bundled, generator| {
            if bundle.fixed.is_empty() {
                bundle.fixed.resize(3, 1.0);
            }
            spoil(&mut bundle.fixed, generator);
        }));
        let off = [-3, -2, -1, 1, 2, 3].map(Length::Off);
        faults.extend(wrong_lengths(&off, |bundle: &mut Bundled, length| {
            bundle.points_length = length;
        }));
        // Three numbers more or less are whole points again.
        let off = [-2, -1, 1, 2].map(Length::Off);
        faults.extend(wrong_lengths(&off, |bundle: &mut Bundled, length| {
            bundle.fixed_length = length;
        }));
        faults
    }
}

/// The faults that each of these lengths is, where `set` takes it.
pub fn wrong_lengths<Case: 'static>(
    lengths: &[Length],
    set: fn(&mut Case, Length),
) -> Vec<Fault<Case>> {
    let fault = |&length: &Length| Fault::new(LENGTH, move |case, _| set(case, length));
    lengths.iter().map(fault).collect()
}

/// What a call can be refused for in its counts, the points staying as they are. No two of these make up for each other.
fn faults_of_counts() -> Vec<Fault<Bundled>> {
    vec![
        Fault::new(EMPTY_LIST, |bundle: &mut Bundled, _| bundle.counts.clear()),
        Fault::new(EMPTY_LIST, |bundle: &mut Bundled, _| {
            bundle.counts.clear();
            bundle.points.clear();
        }),
        // A sum of 2^40 less 256.
        Fault::new(LENGTH, |bundle: &mut Bundled, _| {
            bundle.counts = vec![u32::MAX; MAX_FRAMES];
        }),
        // A sum that is right but for 2^32.
        Fault::new(LENGTH, |bundle: &mut Bundled, _| {
            if let Some(count) = bundle.counts.first_mut() {
                *count = count.wrapping_add(1);
                bundle.counts.push(u32::MAX);
            }
        }),
        Fault::new(LENGTH, |bundle: &mut Bundled, _| {
            if let Some(count) = bundle.counts.first_mut() {
                *count = count.wrapping_add(2);
            }
        }),
        Fault::new(LENGTH, |bundle: &mut Bundled, _| {
            if let Some(count) = bundle.counts.last_mut() {
                *count = count.wrapping_sub(4);
            }
        }),
        Fault::new(FRAME_COUNT, |bundle: &mut Bundled, generator| {
            let frames = bundle.counts.len();
            if frames > 0 {
                let place = generator.below(1 + frames as u64) as usize;
                bundle.counts.insert(place, 0);
            }
        }),
    ]
}

/// Any finite numbers of a size.
fn finite(size: Size, length: usize, generator: &mut Generator) -> Vec<f64> {
    let mut numbers = vec![0.0; length];
    fill_with(size, &mut numbers, generator);
    for number in &mut numbers {
        if !number.is_finite() {
            *number = -0.0;
        }
    }
    numbers
}

/// Puts a number that is not finite in the first place, the last or any other.
fn spoil(numbers: &mut [f64], generator: &mut Generator) {
    let Some(last) = numbers.len().checked_sub(1) else {
        return;
    };
    let place = match generator.below(4) {
        0 => 0,
        1 => last,
        _ => generator.below(numbers.len() as u64) as usize,
    };
    numbers[place] = match generator.below(2) {
        0 => not_finite(generator),
        _ => f64::from_bits(random_nan(generator) | generator.bits() & SIGN),
    };
}

/// A bundle that is accepted: mostly few frames of few points, now and then many of either.
pub fn some_bundle(generator: &mut Generator) -> Bundled {
    let (frames, points) = match generator.below(128) {
        0..=95 => (4, 4),
        96..=111 => (12, 12),
        112..=119 => (20, 1),
        120..=123 => (2, 400),
        124..=126 => (42, 20),
        _ => (MAX_FRAMES as u64, 3),
    };
    let fixed = match generator.below(16) {
        0..=7 => 0,
        8..=14 => generator.below(6),
        _ => generator.below(200),
    };
    drawn_up_to(frames, points, fixed as usize, generator)
}

/// A bundle of few points, which is accepted.
pub fn few_points(generator: &mut Generator) -> Bundled {
    let fixed = generator.below(4) as usize;
    drawn_up_to(3, 3, fixed, generator)
}

/// Up to so many frames of up to so many points, and so many fixed points or what three in all take.
fn drawn_up_to(frames: u64, points: u64, fixed: usize, generator: &mut Generator) -> Bundled {
    let frames = 1 + generator.below(frames);
    let counts: Vec<u32> = (0..frames)
        .map(|_| 1 + generator.below(points) as u32)
        .collect();
    let sites = counts.iter().sum::<u32>() as usize;
    Bundled::of(counts, fixed.max(3usize.saturating_sub(sites)), generator)
}

/// Counts and numbers of fixed points such that a frame has every number of points up to some, and so have the fixed ones.
pub fn every_length() -> impl Iterator<Item = (Vec<u32>, usize)> {
    (1..=70).flat_map(|points| [(vec![points], 2), (vec![2, 1], points as usize)])
}

/// Counts and numbers of fixed points at the limits: as few and as many as are accepted, and one frame or point more.
pub fn limits() -> Vec<(Vec<u32>, usize)> {
    let most = MAX_POINTS as u32;
    let frames = vec![most / MAX_FRAMES as u32; MAX_FRAMES];
    let mut one_more = frames.clone();
    one_more[MAX_FRAMES / 2] += 1;
    vec![
        (vec![1], 2),
        (vec![3], 0),
        (vec![1; MAX_FRAMES], 0),
        (vec![1; MAX_FRAMES + 1], 0),
        (vec![most], 0),
        (vec![most + 1], 0),
        (vec![1], MAX_POINTS - 1),
        (vec![1], MAX_POINTS),
        (frames.clone(), 0),
        (frames, 1),
        (one_more, 0),
    ]
}

/// Finite numbers at which sums, differences and products turn.
const TURNING: [f64; 13] = [
    0.0,
    -0.0,
    5e-324,
    -5e-324,
    f64::MIN_POSITIVE,
    1e-160,
    1.0,
    -1.0,
    1e153,
    -1e155,
    1e308,
    f64::MAX,
    f64::MIN,
];

/// Every two of them, for a bundle of these two.
pub fn turning_numbers() -> impl Iterator<Item = [f64; 2]> {
    TURNING
        .into_iter()
        .flat_map(|first| TURNING.into_iter().map(move |second| [first, second]))
}

#[cfg(test)]
mod tests {
    use super::*;

    #[test]
    fn bundles_that_are_drawn_are_accepted() {
        let mut generator = Generator::new(1);
        let mut frames = Vec::new();
        for _ in 0..2000 {
            let bundle = some_bundle(&mut generator);
            assert_eq!(bundle.bundle().refusal(12), 0);
            assert_eq!(few_points(&mut generator).bundle().refusal(12), 0);
            frames.push(bundle.counts.len());
        }
        assert!(frames.contains(&1) && frames.iter().any(|&frames| frames > 200));
        for numbers in turning_numbers() {
            let bundle = Bundled::of_numbers(&numbers, &mut generator);
            assert_eq!(bundle.bundle().refusal(12), 0);
        }
    }

    #[test]
    fn sums_overflow_and_vanish() {
        use crate::model::bundle::fit;
        let mut generator = Generator::new(1);
        let mut sums = |numbers: &[f64]| {
            let bundle = Bundled::of_numbers(numbers, &mut generator);
            fit(&bundle.bundle()).0
        };
        assert_eq!(sums(&[f64::MAX]), [f64::INFINITY; 3]);
        assert_eq!(sums(&[5e-324]), [5e-324; 3]);
    }

    #[test]
    fn a_length_that_is_off_is_never_right() {
        for by in [-3, -1, 1, 3] {
            for right in 0..6 {
                assert_ne!(Length::Off(by).beside(right), right);
            }
        }
        assert_eq!(Length::Off(-1).beside(3), 2);
    }
}
