//! What the builds of a frame factor are tried on.

use crate::called::{each_alone, every_pair, Call, Comparison, Fault, Lent};
use crate::draws::{fill, fill_with, old, record, record_of, within, Pose, Size, Wall, COUNTS};
use crate::generator::Generator;
use crate::lent::number;
use crate::model::{DOF, EMPTY_LIST, FRAME_COUNT, LENGTH, MAX_DOF, NOT_FINITE, SIGMA, TOTAL_COUNT};
use crate::scenes::{bad_sigma, not_finite, seen_from, some_frames, some_sigma};
use maghnelt::{Refusal, CENTRED, MAX_FRAMES, MOMENTS};

/// A build of the library: dof, frames, fixed, sigma, and the outputs.
type LibraryBuild =
    fn(u32, &[f64], &[f64], f64, &mut [f64], &mut [f64], &mut f64, &mut u32) -> Result<(), Refusal>;

/// The call of a build of the library.
pub fn call_of(build: LibraryBuild) -> impl Fn([&mut [f64]; 6], [&mut [u32]; 2]) -> u32 {
    move |numbers, [dof, dropped]| {
        let [frames, fixed, sigma, centred_frames, centred_fixed, points] = numbers;
        number(build(
            dof[0],
            frames,
            fixed,
            sigma[0],
            centred_frames,
            centred_fixed,
            &mut points[0],
            &mut dropped[0],
        ))
    }
}

/// The comparison of a build with what it should be.
pub fn comparison<'a>(
    name: &'static str,
    library: &'a Call<'a, 6, 2>,
    model: &'a Call<'a, 6, 2>,
) -> Comparison<'a, 6, 2> {
    Comparison::new(
        name,
        [
            "frames",
            "fixed",
            "sigma",
            "centred_frames",
            "centred_fixed",
            "points",
        ],
        ["dof", "fixed_dropped"],
        library,
        model,
    )
}

/// What a build takes, and its outputs.
pub struct Build {
    /// The number of parameters.
    pub dof: u32,
    /// The frames' moments.
    pub frames: Vec<f64>,
    /// The fixed set's, or nothing.
    pub fixed: Vec<f64>,
    /// The standard deviation.
    pub sigma: f64,
    /// The output for the frames.
    pub centred_frames: Vec<f64>,
    /// The output for the fixed set.
    pub centred_fixed: Vec<f64>,
}

impl Build {
    /// So many frames that a build accepts, of a wall or of any finite numbers, with every kind of fixed set. Where its
    /// count is below 0, the survey rule alone refuses it.
    pub fn of(frames: usize, generator: &mut Generator) -> Build {
        let wall = Wall::random(generator);
        let mut list = Vec::new();
        let walls = generator.below(2) == 0;
        let size = generator.pick(&[Size::Whole, Size::Measured, Size::Large, Size::Small]);
        for _ in 0..frames {
            let mut moments = [0.0; MOMENTS];
            if walls {
                let pose = Pose::random(generator);
                seen_from(&pose, &wall, generator).write(&mut moments);
            } else {
                any_finite(size, &mut moments, generator);
            }
            list.extend(moments);
        }
        let mut fixed = record_of(&wall, generator);
        if !walls {
            any_finite(size, &mut fixed, generator);
        }
        [list[0], fixed[0]] = enough_points([list[0], fixed[0]], generator);
        let fixed = match generator.below(3) {
            0 => {
                list[0] = list[0].max(3.0);
                Vec::new()
            }
            _ => fixed.to_vec(),
        };
        Build {
            dof: generator.below(1 + u64::from(MAX_DOF)) as u32,
            sigma: some_sigma(generator),
            centred_frames: old(CENTRED * frames, generator),
            centred_fixed: old(fixed.len() / MOMENTS * CENTRED, generator),
            frames: list,
            fixed,
        }
    }

    /// Some frames, now and then with any numbers in one slice, so that some builds are refused for them.
    fn random(generator: &mut Generator) -> Build {
        let mut build = Build::of(some_frames(generator), generator);
        if generator.below(4) == 0 {
            match generator.below(3) {
                0 => fill(&mut build.frames, generator),
                1 => fill(&mut build.fixed, generator),
                _ => build.sigma = record(generator)[1],
            }
        }
        build
    }

    /// What a call is lent for it.
    pub fn lent(self, generator: &mut Generator) -> Lent<6, 2> {
        Lent {
            numbers: [
                self.frames,
                self.fixed,
                vec![self.sigma],
                self.centred_frames,
                self.centred_fixed,
                old(1, generator),
            ],
            words: [vec![self.dof], vec![generator.bits() as u32]],
        }
    }

    fn frames_with(&mut self, number: usize) {
        self.frames.resize(MOMENTS * number, 1.0);
        self.centred_frames.resize(CENTRED * number, 1.0);
    }

    /// The fixed set gets this count. Where there is none, there is one then, and a wrong length of its output stays wrong.
    pub fn with_fixed_count(&mut self, count: f64) {
        if self.fixed.is_empty() {
            self.fixed = vec![1.0; MOMENTS];
            let longer = self.centred_fixed.len() + CENTRED;
            self.centred_fixed.resize(longer, 1.0);
        }
        self.fixed[0] = count;
    }

    /// Two frames and a fixed set, or none, get these counts.
    fn with_counts(&mut self, frames: [f64; 2], fixed: Option<f64>) {
        for (record, count) in self.frames.chunks_mut(MOMENTS).zip(frames) {
            record[0] = count;
        }
        match fixed {
            Some(count) => self.with_fixed_count(count),
            None => {
                self.fixed.clear();
                self.centred_fixed.clear();
            }
        }
    }
}

/// Finite numbers, with a count above 0.
fn any_finite(size: Size, moments: &mut [f64], generator: &mut Generator) {
    fill_with(size, moments, generator);
    for number in &mut *moments {
        if !number.is_finite() {
            *number = -0.0;
        }
    }
    moments[0] = match generator.below(4) {
        0 => within(0.0, 1.0, generator) + 1e-300,
        1 => f64::MAX / 3.0,
        _ => (1 + generator.below(1000)) as f64,
    };
}

/// Counts of a frame and of the fixed set that are three points in all, in whichever of both.
fn enough_points([frame, fixed]: [f64; 2], generator: &mut Generator) -> [f64; 2] {
    match generator.below(6) {
        0 => [3.0, -0.0],
        1 => [3.0, 0.0],
        2 => [6.0, -within(0.0, 3.0, generator)],
        3 => [1e-300, 3.0],
        _ => [frame.max(3.0), fixed],
    }
}

/// Every count of a frame, of another frame and of the fixed set at which something turns, and no fixed set.
fn turning_counts() -> impl Iterator<Item = ([f64; 2], Option<f64>)> {
    let of_fixed = || COUNTS.into_iter().chain([-1.0, -f64::NAN]).map(Some);
    let frames = COUNTS
        .into_iter()
        .flat_map(|first| COUNTS.map(|second| [first, second]));
    frames.flat_map(move |frames| of_fixed().chain([None]).map(move |fixed| (frames, fixed)))
}

/// What a build is tried on.
pub struct Builds {
    /// So many frames that it accepts.
    pub accepted_of: fn(usize, &mut Generator) -> Build,
    /// What it is refused for.
    pub faults: Vec<Fault<Build>>,
}

impl Builds {
    /// A few frames that it accepts.
    fn accepted(&self, generator: &mut Generator) -> Build {
        (self.accepted_of)(1 + generator.below(3) as usize, generator)
    }

    /// Goes through the cases that are chosen, and then through random ones of so many frames in all.
    pub fn each(&self, count: u64, generator: &mut Generator, mut check: impl FnMut(&Lent<6, 2>)) {
        for frames in (1..20).chain([MAX_FRAMES - 1, MAX_FRAMES]) {
            for _ in 0..4 {
                check(&(self.accepted_of)(frames, generator).lent(generator));
            }
        }
        for (frames, fixed) in turning_counts() {
            let mut build = (self.accepted_of)(2, generator);
            build.with_counts(frames, fixed);
            check(&build.lent(generator));
        }
        let accepted = |generator: &mut Generator| self.accepted(generator);
        let mut draws = Generator::new(generator.bits());
        for _ in 0..4 {
            each_alone(&self.faults, accepted, generator, |build| {
                check(&build.lent(&mut draws));
            });
            every_pair(&self.faults, accepted, generator, |build, _| {
                check(&build.lent(&mut draws));
            });
        }
        let mut frames = 0;
        while frames < count {
            let build = Build::random(generator);
            frames += (build.frames.len() / MOMENTS) as u64;
            check(&build.lent(generator));
        }
    }

    /// Each fault has to be refused by its number, and two of them by one of both. For the groups' tests.
    #[cfg(test)]
    pub fn check_faults(&self, call: &Call<'_, 6, 2>) {
        let accepted = |generator: &mut Generator| self.accepted(generator);
        crate::called::check_faults(&self.faults, accepted, |build| {
            crate::called::answer(call, build.lent(&mut Generator::new(1)))
        });
    }
}

/// What every build can be refused for. With one of the fixed counts `too_few` there are too few points in all.
pub fn faults(too_few: &'static [f64]) -> Vec<Fault<Build>> {
    let mut faults = vec![
        Fault::new(DOF, |build: &mut Build, generator| {
            build.dof = generator.pick(&[MAX_DOF + 1, u32::MAX]);
        }),
        Fault::new(EMPTY_LIST, |build: &mut Build, _| build.frames_with(0)),
    ];
    faults.extend(wrong_lengths());
    faults.extend(wrong_counts(too_few));
    faults.extend(wrong_moments());
    faults.push(Fault::new(SIGMA, |build: &mut Build, generator| {
        build.sigma = bad_sigma(generator);
    }));
    faults
}

/// Lengths that a build is refused for, of each slice.
fn wrong_lengths() -> [Fault<Build>; 5] {
    [
        Fault::new(LENGTH, |build: &mut Build, generator| {
            let wrong = build.frames.len() + generator.pick(&[1, 2, MOMENTS - 1]);
            build.frames.resize(wrong, 1.0);
        }),
        Fault::new(LENGTH, |build: &mut Build, _| {
            build.frames_with(MAX_FRAMES + 1)
        }),
        // The output is as long as the whole records have it.
        Fault::new(LENGTH, |build: &mut Build, generator| {
            let wrong = generator.pick(&[1, MOMENTS - 1, MOMENTS + 1, 2 * MOMENTS]);
            build.fixed.resize(wrong, 1.0);
            build.centred_fixed.resize(wrong / MOMENTS * CENTRED, 1.0);
        }),
        Fault::new(LENGTH, |build: &mut Build, generator| {
            let right = build.frames.len() / MOMENTS * CENTRED;
            let wrong = [0, right + 1, right + CENTRED, right.saturating_sub(1)];
            let wrong: Vec<usize> = wrong.into_iter().filter(|&k| k != right).collect();
            build.centred_frames = old(generator.pick(&wrong), generator);
        }),
        Fault::new(LENGTH, |build: &mut Build, generator| {
            let right = build.fixed.len() / MOMENTS * CENTRED;
            let wrong = [0, CENTRED, right + 1, CENTRED - 1, 2 * CENTRED];
            let wrong: Vec<usize> = wrong.into_iter().filter(|&k| k != right).collect();
            build.centred_fixed = old(generator.pick(&wrong), generator);
        }),
    ]
}

/// A frame without points, and too few points in all, by the frames' counts and by the fixed set's.
fn wrong_counts(too_few: &'static [f64]) -> [Fault<Build>; 2] {
    [
        Fault::new(FRAME_COUNT, |build: &mut Build, generator| {
            let frames = build.frames.len() / MOMENTS;
            if frames > 0 {
                let place = MOMENTS * generator.below(frames as u64) as usize;
                let count = [0.0, -0.0, -5e-324, -3.0, f64::NEG_INFINITY];
                build.frames[place] = generator.pick(&count);
            }
        }),
        Fault::new(TOTAL_COUNT, move |build: &mut Build, generator| {
            for count in build.frames.iter_mut().step_by(MOMENTS) {
                *count = 0.5_f64.min(*count);
            }
            if let Some(count) = build.fixed.first_mut() {
                *count = generator.pick(too_few);
            }
        }),
    ]
}

/// A moment that is not finite: of a frame, and of the fixed set or, where there is none, a NaN count. Other counts may be
/// refused for their sign.
fn wrong_moments() -> [Fault<Build>; 2] {
    [
        Fault::new(NOT_FINITE, |build: &mut Build, generator| {
            let bad = not_finite(generator);
            let frames = build.frames.len() / MOMENTS;
            if frames > 0 {
                let frame = generator.below(frames as u64) as usize;
                let place = 1 + generator.below(MOMENTS as u64 - 1) as usize;
                build.frames[MOMENTS * frame + place] = bad;
            }
        }),
        Fault::new(NOT_FINITE, |build: &mut Build, generator| {
            let places = build.fixed.len() as u64;
            let frames = build.frames.len();
            match places {
                2.. => {
                    let place = 1 + generator.below(places - 1) as usize;
                    build.fixed[place] = f64::NEG_INFINITY;
                }
                _ if frames > 0 => build.frames[0] = f64::NAN,
                _ => {}
            }
        }),
    ]
}

/// What wrong builds answer, for the groups' tests.
#[cfg(test)]
pub mod wrong {
    use crate::model::frames::{built, Built, Centred};
    use crate::model::matrix;
    use crate::model::moments::{mean_and_scatter, Moments};

    /// What is right, or nothing where a wrong test let frames through that have no mean: they are found by the number.
    pub fn of_any_counts(frames: &[Moments], fixed: Option<Moments>) -> Built {
        if frames.iter().any(|frame| frame.count <= 0.0) {
            return Built {
                frames: Vec::new(),
                fixed: None,
                points: 0.0,
                dropped: false,
            };
        }
        built(frames, fixed)
    }

    /// A dropped set is not told.
    pub fn drop_not_told(frames: &[Moments], fixed: Option<Moments>) -> Built {
        Built {
            dropped: false,
            ..built(frames, fixed)
        }
    }

    /// A dropped set is written as zeros.
    pub fn drop_written(frames: &[Moments], fixed: Option<Moments>) -> Built {
        let built = built(frames, fixed);
        let zeros = Centred {
            count: 0.0,
            mean: [0.0; 3],
            scatter: [[0.0; 3]; 3],
        };
        Built {
            fixed: built.fixed.or(fixed.map(|_| zeros)),
            ..built
        }
    }

    /// The fixed set counts before the frames.
    pub fn fixed_set_first(frames: &[Moments], fixed: Option<Moments>) -> Built {
        let built = built(frames, fixed);
        let first = built.fixed.map_or(0.0, |fixed| fixed.count);
        let points = frames.iter().fold(first, |sum, frame| sum + frame.count);
        Built { points, ..built }
    }

    /// The scatter times the count is worked out without dividing by it.
    pub fn scatter_not_multiplied(frames: &[Moments], fixed: Option<Moments>) -> Built {
        let centred = |moments: &Moments| {
            let (mean, scatter) = mean_and_scatter(*moments).expect("every frame has points");
            let (outer, n) = (moments.outer, moments.count);
            let scatter = if n == 1.0 {
                scatter
            } else {
                matrix(|r, c| outer[r][c] - (mean[r] * mean[c]) * n)
            };
            Centred {
                count: n,
                mean,
                scatter,
            }
        };
        Built {
            frames: frames.iter().map(centred).collect(),
            ..built(frames, fixed)
        }
    }
}
