//! Building a frame factor, against plain Rust that takes the same slices and tests them for the same reasons.

use crate::harness::measure_on;
use crate::moments::Record;
use maghnelt::{slices, Refusal, CENTRED, MOMENTS};
use oracle::draws::{record_of, Pose, Wall};
use oracle::generator::Generator;
use oracle::scenes::seen_from;
use std::hint::black_box;

/// Records that a batch goes through, in as many planes as that makes.
const RECORDS: usize = 256;

/// What a build is handed: the moments of a wall that several poses see, and those of its fixed set. Nothing of it is a
/// constant, so that the compiler leaves out no test.
struct Sets {
    dof: u32,
    frames: Vec<Record>,
    fixed: Vec<Record>,
    sigma: f64,
}

impl Sets {
    /// A wall that so many poses see.
    fn random(frames: usize, generator: &mut Generator) -> Sets {
        let wall = Wall::random(generator);
        let mut frame = || {
            let mut record = [0.0; MOMENTS];
            seen_from(&Pose::random(generator), &wall, generator).write(&mut record);
            record
        };
        Sets {
            dof: 6,
            frames: (0..frames).map(|_| frame()).collect(),
            fixed: vec![record_of(&wall, generator)],
            sigma: 0.05,
        }
    }

    #[inline(always)]
    fn by_library<const STRICT: bool>(&self, built: &mut Built) -> Result<(), Refusal> {
        let build = if STRICT {
            slices::frames_build_strict
        } else {
            slices::frames_build
        };
        build(
            self.dof,
            self.frames.as_flattened(),
            self.fixed.as_flattened(),
            self.sigma,
            &mut built.frames,
            &mut built.fixed,
            &mut built.points,
            &mut built.fixed_dropped,
        )
    }

    #[inline(always)]
    fn by_rust<const STRICT: bool>(&self, built: &mut Built) -> Result<(), u32> {
        plain::build::<STRICT>(
            self.dof,
            self.frames.as_flattened(),
            self.fixed.as_flattened(),
            self.sigma,
            &mut built.frames,
            &mut built.fixed,
            &mut built.points,
            &mut built.fixed_dropped,
        )
    }
}

/// What a build writes.
struct Built {
    frames: Vec<f64>,
    fixed: Vec<f64>,
    points: f64,
    fixed_dropped: u32,
}

impl Built {
    /// No set of a wall has an infinity, so that a number that is left as it was shows.
    fn unwritten(sets: &Sets) -> Built {
        Built {
            frames: vec![f64::INFINITY; sets.frames.len() * CENTRED],
            fixed: vec![f64::INFINITY; sets.fixed.len() * CENTRED],
            points: f64::INFINITY,
            fixed_dropped: u32::MAX,
        }
    }

    /// The bit patterns of all numbers.
    fn bits(&self) -> Vec<u64> {
        let numbers = self.frames.iter().chain(&self.fixed).chain([&self.points]);
        let dropped = u64::from(self.fixed_dropped);
        numbers.map(|x| x.to_bits()).chain([dropped]).collect()
    }
}

/// Prints the rows of the builds.
pub fn measure_all() {
    let mut generator = Generator::named(754, "builds");
    let mut some = |frames: usize| -> Vec<Sets> {
        let number = (RECORDS / (frames + 1)).max(1);
        (0..number)
            .map(|_| Sets::random(frames, &mut generator))
            .collect()
    };
    let mut without_points = some(32);
    for sets in &mut without_points {
        sets.fixed = vec![[0.0; MOMENTS]];
    }
    let cases = [
        ("1 frame", some(1)),
        ("8 frames", some(8)),
        ("32 frames", some(32)),
        ("32 frames, fixed set dropped", without_points),
        ("256 frames", some(256)),
    ];
    for (case, sets) in &cases {
        measure::<false>("frames_build", case, sets);
        measure::<true>("frames_build_strict", case, sets);
    }
}

fn measure<const STRICT: bool>(function: &str, case: &str, all: &[Sets]) {
    let unwritten = || Built::unwritten(&all[0]);
    let mut memory = unwritten();
    for sets in all {
        let (mut by_library, mut by_rust) = (unwritten(), unwritten());
        assert_eq!(sets.by_library::<STRICT>(&mut by_library), Ok(()));
        assert_eq!(sets.by_rust::<STRICT>(&mut by_rust), Ok(()));
        assert_eq!(by_library.bits(), by_rust.bits());
    }
    measure_on(
        function,
        &format!("{case}, Rust with the same tests"),
        all.len(),
        &mut memory,
        |built| {
            for sets in black_box(all) {
                _ = sets.by_library::<STRICT>(built);
            }
        },
        |built| {
            for sets in black_box(all) {
                _ = sets.by_rust::<STRICT>(built);
            }
        },
    );
}

/// The same in plain Rust: the compiler inlines all below the outermost function, which is called as the library's is.
/// An error is the number of the reason to refuse.
mod plain {
    use crate::finite::all_finite;
    use crate::moments::plain::mean_and_scatter_of;
    use crate::moments::Record;
    use maghnelt::{CENTRED, MAX_DOF, MAX_FRAMES, MOMENTS};

    type Frame = [f64; CENTRED];

    #[allow(clippy::too_many_arguments)]
    #[inline(never)]
    pub fn build<const STRICT: bool>(
        dof: u32,
        frames: &[f64],
        fixed: &[f64],
        sigma: f64,
        centred_frames: &mut [f64],
        centred_fixed: &mut [f64],
        points: &mut f64,
        fixed_dropped: &mut u32,
    ) -> Result<(), u32> {
        if dof > MAX_DOF as u32 {
            return Err(1);
        }
        if frames.is_empty() {
            return Err(2);
        }
        let (frames, of_frames) = of_right_size(frames, centred_frames, MAX_FRAMES)?;
        let (fixed, of_fixed) = of_right_size(fixed, centred_fixed, 1)?;
        let kept: &[Record] = if fixed.iter().any(is_empty) {
            &[]
        } else {
            fixed
        };
        let total = tested::<STRICT>(frames, fixed, kept)?;
        if !(sigma.is_finite() && sigma > 0.0) {
            return Err(7);
        }
        for (frame, out) in frames.iter().zip(of_frames) {
            centre(frame, out);
        }
        for (set, out) in kept.iter().zip(of_fixed) {
            centre(set, out);
        }
        *points = total;
        *fixed_dropped = u32::from(kept.len() < fixed.len());
        Ok(())
    }

    /// Reason 3: the records of a list, and one of the output for each.
    #[inline(always)]
    fn of_right_size<'a>(
        sets: &'a [f64],
        out: &'a mut [f64],
        most: usize,
    ) -> Result<(&'a [Record], &'a mut [Frame]), u32> {
        let (sets, rest) = sets.as_chunks::<MOMENTS>();
        let (out, short) = out.as_chunks_mut::<CENTRED>();
        let whole = rest.is_empty() && short.is_empty();
        if !whole || sets.len() > most || out.len() != sets.len() {
            return Err(3);
        }
        Ok((sets, out))
    }

    #[inline(always)]
    fn is_empty(set: &Record) -> bool {
        set[0] <= 0.0
    }

    /// Reasons 13, where the call is strict, and 4 to 6: the points of the sets that are kept.
    #[inline(always)]
    fn tested<const STRICT: bool>(
        frames: &[Record],
        fixed: &[Record],
        kept: &[Record],
    ) -> Result<f64, u32> {
        if STRICT && fixed.iter().any(|set| set[0] < 0.0) {
            return Err(13);
        }
        if frames.iter().any(is_empty) {
            return Err(4);
        }
        let of_frames: f64 = frames.iter().map(|frame| frame[0]).sum();
        let with = |fixed: &[Record]| of_frames + fixed.first().map_or(0.0, |set| set[0]);
        if with(if STRICT { kept } else { fixed }) < 3.0 {
            return Err(5);
        }
        if !(all_finite(frames.as_flattened()) && all_finite(fixed.as_flattened())) {
            return Err(6);
        }
        Ok(with(kept))
    }

    #[inline(always)]
    fn centre(set: &Record, out: &mut Frame) {
        let (mean, scatter) = mean_and_scatter_of(set);
        out[0] = set[0];
        out[1..4].copy_from_slice(&mean);
        out[4..].copy_from_slice(&scatter.map(|x| x * set[0]));
    }
}
