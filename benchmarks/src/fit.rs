//! The mean and the scatter that a plane is fitted to, against plain Rust on plain arrays of the same layout.

use crate::harness::measure_written;
use crate::planes::Plane;
use maghnelt::slices;
use oracle::generator::Generator;

/// Frames that a batch goes through, in as many planes as that makes.
const FRAMES: usize = 512;

/// Prints the rows of the fit.
pub fn measure_all() {
    let mut generator = Generator::named(754, "fit");
    for frames in [8, 32, 256] {
        let planes: Vec<Plane> = (0..FRAMES / frames)
            .map(|_| Plane::random(frames, &mut generator))
            .collect();
        measure_written(
            "frames_fit",
            &format!("{frames} frames"),
            &planes,
            |plane, out: &mut [f64; 12]| {
                let frames = plane.frames.as_flattened();
                let actions = plane.actions.as_flattened();
                _ = slices::frames_fit(6, frames, &plane.fixed, actions, out);
            },
            |plane, out| plain::fit(&plane.frames, Some(&plane.fixed), &plane.actions, out),
        );
        measure_written(
            "frames_fit",
            &format!("{frames} frames, Rust with the same tests"),
            &planes,
            |plane, out: &mut [f64; 12]| {
                let frames = plane.frames.as_flattened();
                let actions = plane.actions.as_flattened();
                _ = slices::frames_fit(6, frames, &plane.fixed, actions, out);
            },
            |plane, out| {
                let frames = plane.frames.as_flattened();
                let actions = plane.actions.as_flattened();
                _ = plain::fit_of_slices(6, frames, &plane.fixed, actions, out);
            },
        );
    }
}

/// The same in plain Rust: the compiler knows every length and inlines all below the outermost function, which is called as
/// the library's is.
mod plain {
    use maghnelt::{ACTION, CENTRED, MAX_FRAMES};

    type Frame = [f64; CENTRED];
    type Action = [f64; ACTION];

    /// Where mean and scatter are in a frame, after the count.
    const MEAN: usize = 1;
    const SCATTER: usize = 4;

    /// A·mean + b.
    #[inline(always)]
    fn centre(a: &Action, frame: &Frame) -> [f64; 3] {
        let [x, y, z] = [frame[MEAN], frame[MEAN + 1], frame[MEAN + 2]];
        std::array::from_fn(|r| a[r] * x + a[3 + r] * y + a[6 + r] * z + a[9 + r])
    }

    /// A·S·Aᵀ.
    #[inline(always)]
    fn turned(a: &Action, s: &[f64]) -> [f64; 9] {
        let mut left = [0.0; 9];
        for c in 0..3 {
            for r in 0..3 {
                left[3 * c + r] =
                    a[r] * s[3 * c] + a[3 + r] * s[3 * c + 1] + a[6 + r] * s[3 * c + 2];
            }
        }
        let mut turned = [0.0; 9];
        for c in 0..3 {
            for r in 0..3 {
                turned[3 * c + r] =
                    left[r] * a[c] + left[3 + r] * a[3 + c] + left[6 + r] * a[6 + c];
            }
        }
        turned
    }

    #[inline(always)]
    fn add(scatter: &mut [f64; 9], of_set: &[f64], offset: [f64; 3], count: f64) {
        for c in 0..3 {
            for r in 0..3 {
                scatter[3 * c + r] += of_set[3 * c + r] + offset[r] * offset[c] * count;
            }
        }
    }

    #[inline(never)]
    pub fn fit(frames: &[Frame], fixed: Option<&Frame>, actions: &[Action], out: &mut [f64; 12]) {
        worked_out(frames, fixed, actions, out);
    }

    /// The same of slices, with the library's tests of them: the number of the reason to refuse, or 0.
    #[inline(never)]
    pub fn fit_of_slices(
        dof: u32,
        frames: &[f64],
        fixed: &[f64],
        actions: &[f64],
        out: &mut [f64],
    ) -> u32 {
        if dof > 9 {
            return 1;
        }
        if frames.is_empty() {
            return 2;
        }
        let (frames, rest) = frames.as_chunks::<CENTRED>();
        let (fixed, short) = fixed.as_chunks::<CENTRED>();
        let whole = rest.is_empty() && short.is_empty();
        let Ok(out) = out.try_into() else {
            return 3;
        };
        if !whole || frames.len() > MAX_FRAMES || fixed.len() > 1 {
            return 3;
        }
        let (actions, rest) = actions.as_chunks::<ACTION>();
        if !rest.is_empty() || actions.len() != frames.len() {
            return 8;
        }
        worked_out(frames, fixed.first(), actions, out);
        0
    }

    #[inline(always)]
    fn worked_out(
        frames: &[Frame],
        fixed: Option<&Frame>,
        actions: &[Action],
        out: &mut [f64; 12],
    ) {
        let mut total = 0.0;
        let mut weighted = [0.0; 3];
        let mut weigh = |centre: [f64; 3], count: f64| {
            total += count;
            for r in 0..3 {
                weighted[r] += centre[r] * count;
            }
        };
        for (frame, action) in frames.iter().zip(actions) {
            weigh(centre(action, frame), frame[0]);
        }
        if let Some(fixed) = fixed {
            weigh([fixed[MEAN], fixed[MEAN + 1], fixed[MEAN + 2]], fixed[0]);
        }
        let mean = weighted.map(|sum| sum / total);
        let mut scatter = [0.0; 9];
        for (frame, action) in frames.iter().zip(actions) {
            let centre = centre(action, frame);
            let offset = std::array::from_fn(|r| centre[r] - mean[r]);
            add(
                &mut scatter,
                &turned(action, &frame[SCATTER..]),
                offset,
                frame[0],
            );
        }
        if let Some(fixed) = fixed {
            let offset = std::array::from_fn(|r| fixed[MEAN + r] - mean[r]);
            add(&mut scatter, &fixed[SCATTER..], offset, fixed[0]);
        }
        out[..3].copy_from_slice(&mean);
        out[3..].copy_from_slice(&scatter);
    }
}
