//! The model of the calls on frames of one plane.

use super::blocks::{added, Added, Block, Blocks, Target, Work};
use super::moments::{mean_and_scatter, Decomposition, Moments};
use super::transforms::Transforms;
use super::{
    bad_sigma, congruent, dot, first, matrix, store_matrix, stored_matrix, stored_vector, sum,
    sum_from_zero, vector, written, Matrix, Vector, ACTIONS, DOF, EMPTY_LIST, FIXED_COUNT,
    FRAME_COUNT, LENGTH, MAX_DOF, NOT_FINITE, SIGMA, TOTAL_COUNT,
};
use maghnelt::{ACTION, CENTRED, DECOMPOSITION, MAX_FRAMES, MOMENTS};

/// A set of points centred on their mean.
#[derive(Clone, Copy)]
pub struct Centred {
    /// The number of points.
    pub count: f64,
    /// Their mean.
    pub mean: Vector,
    /// Their scatter times the count.
    pub scatter: Matrix<3>,
}

impl Centred {
    /// What a record holds.
    pub fn read(record: &[f64]) -> Centred {
        Centred {
            count: record[0],
            mean: stored_vector(&record[1..]),
            scatter: stored_matrix(&record[4..]),
        }
    }

    /// Writes it to a record.
    pub fn write(&self, record: &mut [f64]) {
        record[0] = written(self.count);
        record[1..4].copy_from_slice(&self.mean.map(written));
        store_matrix(self.scatter.map(|row| row.map(written)), &mut record[4..]);
    }
}

/// `centred`: count, mean, and scatter times count; none for a count at or below 0.
pub fn centred(moments: Moments) -> Option<Centred> {
    let (mean, scatter) = mean_and_scatter(moments)?;
    let count = moments.count;
    Some(Centred {
        count,
        mean,
        scatter: matrix(|r, c| scatter[r][c] * count),
    })
}

/// The affine map of a state, with its derivative columns.
#[derive(Clone, Copy)]
pub struct Action {
    /// The matrix.
    pub a: Matrix<3>,
    /// The shift.
    pub b: Vector,
    /// The derivative's columns at the origin.
    pub origin: [Vector; 9],
    /// Its change along each axis.
    pub axes: [[Vector; 9]; 3],
}

impl Action {
    /// What 120 numbers hold.
    pub fn read(stored: &[f64]) -> Action {
        let columns = |from: usize| std::array::from_fn(|c| stored_vector(&stored[from + 3 * c..]));
        Action {
            a: stored_matrix(stored),
            b: stored_vector(&stored[9..]),
            origin: columns(12),
            axes: [columns(39), columns(66), columns(93)],
        }
    }

    /// A·p + b.
    pub fn carried(&self, p: Vector) -> Vector {
        vector(|r| dot(self.a[r], p) + self.b[r])
    }
}

/// The frames with their actions, and the fixed set if there is one.
pub struct Sets {
    /// A frame and its action each.
    pub frames: Vec<(Centred, Action)>,
    /// The fixed set.
    pub fixed: Option<Centred>,
}

impl Sets {
    /// The sets of the slices that a call takes.
    pub fn read(frames: &[f64], fixed: &[f64], actions: &[f64]) -> Sets {
        let frames = frames.chunks(CENTRED).map(Centred::read);
        let actions = actions.chunks(ACTION).map(Action::read);
        Sets {
            frames: frames.zip(actions).collect(),
            fixed: (!fixed.is_empty()).then(|| Centred::read(fixed)),
        }
    }
}

/// The fit's mean: the centres of the frames and then of the fixed set, weighted by the counts.
pub fn fit_mean(sets: &Sets) -> Vector {
    let moved = |(frame, action): &(Centred, Action)| (action.carried(frame.mean), frame.count);
    let centres = || {
        let fixed = sets.fixed.iter().map(|fixed| (fixed.mean, fixed.count));
        sets.frames.iter().map(moved).chain(fixed)
    };
    let total = sum_from_zero(centres().map(|(_, count)| count));
    vector(|r| sum_from_zero(centres().map(|(centre, count)| centre[r] * count)) / total)
}

/// The fit's scatter about a mean: for each frame A·S·Aᵀ + o·oᵀ·count with o = centre − mean, and for the fixed set S in the
/// place of A·S·Aᵀ.
pub fn fit_scatter(sets: &Sets, mean: Vector) -> Matrix<3> {
    let about = |scatter: Matrix<3>, centre: Vector, count: f64| -> Matrix<3> {
        let o = vector(|r| centre[r] - mean[r]);
        matrix(|r, c| scatter[r][c] + (o[r] * o[c]) * count)
    };
    let of_frame = |(frame, action): &(Centred, Action)| {
        let turned = congruent(action.a, frame.scatter);
        about(turned, action.carried(frame.mean), frame.count)
    };
    let of_fixed = |fixed: &Centred| about(fixed.scatter, fixed.mean, fixed.count);
    let frames = sets.frames.iter().map(of_frame);
    let parts: Vec<Matrix<3>> = frames.chain(sets.fixed.iter().map(of_fixed)).collect();
    matrix(|r, c| sum_from_zero(parts.iter().map(|part| part[r][c])))
}

/// The fit's mean and scatter.
pub fn fit(sets: &Sets) -> (Vector, Matrix<3>) {
    let mean = fit_mean(sets);
    (mean, fit_scatter(sets, mean))
}

/// Reason 3 of a frame list: not whole frames, or more than a call takes.
pub fn bad_frames(frames: &[f64], record: usize) -> bool {
    frames.len() % record != 0 || frames.len() / record > MAX_FRAMES
}

/// Reason 3 of a fixed set: neither empty nor one record.
pub fn bad_fixed(fixed: &[f64], record: usize) -> bool {
    !fixed.is_empty() && fixed.len() != record
}

/// Reason 8: the actions are not 120 numbers for each frame.
pub fn bad_actions(actions: &[f64], frames: &[f64]) -> bool {
    actions.len() != frames.len() / CENTRED * ACTION
}

/// The call `frames_fit` on frames, fixed, actions and output, with the dof.
pub fn fit_call(
    fit: impl Fn(&Sets) -> (Vector, Matrix<3>),
) -> impl Fn([&mut [f64]; 4], [&mut [u32]; 1]) -> u32 {
    move |[frames, fixed, actions, out], [dof]| {
        let lengths = bad_frames(frames, CENTRED) || bad_fixed(fixed, CENTRED) || out.len() != 12;
        let refusal = first(&[
            (DOF, dof[0] > MAX_DOF),
            (EMPTY_LIST, frames.is_empty()),
            (LENGTH, lengths),
            (ACTIONS, bad_actions(actions, frames)),
        ]);
        if refusal == 0 {
            let (mean, scatter) = fit(&Sets::read(frames, fixed, actions));
            out[..3].copy_from_slice(&mean.map(written));
            store_matrix(scatter.map(|row| row.map(written)), &mut out[3..]);
        }
        refusal
    }
}

/// What a build answers.
pub struct Built {
    /// The frames, centred.
    pub frames: Vec<Centred>,
    /// The fixed set, centred, if it is kept.
    pub fixed: Option<Centred>,
    /// The number of points.
    pub points: f64,
    /// Whether a fixed set was dropped.
    pub dropped: bool,
}

/// `LidarPlaneMomentFactor::new` on what passed its tests. A fixed set of count at or below 0 is dropped.
pub fn built(frames: &[Moments], fixed: Option<Moments>) -> Built {
    let centre = |moments: &Moments| centred(*moments).expect("tests 4 and 6 leave a mean");
    let kept = fixed.as_ref().and_then(|fixed| centred(*fixed));
    Built {
        frames: frames.iter().map(centre).collect(),
        fixed: kept,
        points: sum(frames.iter().map(|frame| frame.count)) + kept.map_or(0.0, |fixed| fixed.count),
        dropped: fixed.is_some() && kept.is_none(),
    }
}

/// The call `frames_build` or `frames_build_strict`, by its refusal, on frames, fixed, sigma, their outputs and the points,
/// with the dof and `fixed_dropped`.
pub fn build_call(
    refusal: impl Fn(u32, [&[f64]; 2], f64, [usize; 2]) -> u32,
    built: impl Fn(&[Moments], Option<Moments>) -> Built,
) -> impl Fn([&mut [f64]; 6], [&mut [u32]; 2]) -> u32 {
    move |[frames, fixed, sigma, of_frames, of_fixed, points], [dof, dropped]| {
        let outputs = [of_frames.len(), of_fixed.len()];
        let refusal = refusal(dof[0], [frames, fixed], sigma[0], outputs);
        if refusal == 0 {
            let frames: Vec<Moments> = frames.chunks(MOMENTS).map(Moments::read).collect();
            let fixed = (!fixed.is_empty()).then(|| Moments::read(fixed));
            let built = built(&frames, fixed);
            for (frame, out) in built.frames.iter().zip(of_frames.chunks_mut(CENTRED)) {
                frame.write(out);
            }
            if let Some(fixed) = built.fixed {
                fixed.write(of_fixed);
            }
            points[0] = written(built.points);
            dropped[0] = built.dropped.into();
        }
        refusal
    }
}

/// The frames' counts of a build.
fn counts(frames: &[f64]) -> impl Iterator<Item = f64> + '_ {
    frames.chunks_exact(MOMENTS).map(|record| record[0])
}

/// Reason 3 of a build, of frames and fixed set and the lengths of both outputs.
pub fn bad_build([frames, fixed]: [&[f64]; 2], outputs: [usize; 2]) -> bool {
    let right = [frames, fixed].map(|sets| sets.len() / MOMENTS * CENTRED);
    bad_frames(frames, MOMENTS) || bad_fixed(fixed, MOMENTS) || outputs != right
}

/// Reason 13: there is a fixed set, and its count is below 0.
pub fn bad_fixed_count(fixed: &[f64]) -> bool {
    fixed.first().is_some_and(|&count| count < 0.0)
}

/// Reason 4: a frame's count is at or below 0.
pub fn bad_frame_count(frames: &[f64]) -> bool {
    counts(frames).any(|count| count <= 0.0)
}

/// The points of all sets that are handed in.
pub fn total([frames, fixed]: [&[f64]; 2]) -> f64 {
    sum(counts(frames)) + fixed.first().unwrap_or(&0.0)
}

/// The points of the sets that are kept: all but a fixed set of count at or below 0. One of a NaN count is kept.
pub fn kept_total([frames, fixed]: [&[f64]; 2]) -> f64 {
    let dropped = |count: f64| count <= 0.0;
    let kept = fixed.first().copied().filter(|&count| !dropped(count));
    sum(counts(frames).chain(kept))
}

/// Reason 6: a moment is not finite.
pub fn bad_moments(sets: [&[f64]; 2]) -> bool {
    sets.concat().iter().any(|x| !x.is_finite())
}

/// Why a build is refused: tests 1 to 7, of dof, frames and fixed set, sigma, and the lengths of both outputs.
pub fn build_refusal(dof: u32, sets: [&[f64]; 2], sigma: f64, outputs: [usize; 2]) -> u32 {
    let [frames, _] = sets;
    first(&[
        (DOF, dof > MAX_DOF),
        (EMPTY_LIST, frames.is_empty()),
        (LENGTH, bad_build(sets, outputs)),
        (FRAME_COUNT, bad_frame_count(frames)),
        (TOTAL_COUNT, total(sets) < 3.0),
        (NOT_FINITE, bad_moments(sets)),
        (SIGMA, bad_sigma(sigma)),
    ])
}

/// Why a build is refused by the survey rule: tests 1, 2, 3, 13, 4, 5, 6, 7.
pub fn strict_refusal(dof: u32, sets: [&[f64]; 2], sigma: f64, outputs: [usize; 2]) -> u32 {
    let [frames, fixed] = sets;
    first(&[
        (DOF, dof > MAX_DOF),
        (EMPTY_LIST, frames.is_empty()),
        (LENGTH, bad_build(sets, outputs)),
        (FIXED_COUNT, bad_fixed_count(fixed)),
        (FRAME_COUNT, bad_frame_count(frames)),
        (TOTAL_COUNT, kept_total(sets) < 3.0),
        (NOT_FINITE, bad_moments(sets)),
        (SIGMA, bad_sigma(sigma)),
    ])
}

/// A fitted plane.
#[derive(Clone, Copy)]
pub struct Plane {
    /// The normal.
    pub normal: Vector,
    /// The offset.
    pub offset: f64,
}

impl Plane {
    /// The distance of a point.
    pub fn along(&self, point: Vector) -> f64 {
        dot(self.normal, point) + self.offset
    }
}

/// `smallest_axis`: a plane exactly if gap > 1e-14·max(|third|, 1), a NaN counting as 1 in the maximum.
pub fn smallest_axis(decomposition: &Decomposition, mean: Vector) -> Option<Plane> {
    let order = decomposition.order();
    let [least, second, third] = order.map(|k| f64::from_bits(decomposition.eigenvalues[k]));
    let normal = decomposition.vectors[order[0]];
    // `f64::max` takes the other one for a NaN.
    (second - least > 1e-14 * third.abs().max(1.0)).then(|| Plane {
        normal,
        offset: -dot(normal, mean),
    })
}

/// The derivatives of Aᵀ·n, `d[k][c]`, and of the distance of a point p, `m[c]`.
pub struct Derivatives {
    /// By axis and column.
    pub d: [[f64; 9]; 3],
    /// By column.
    pub m: [f64; 9],
}

/// D(k,c) = Σ n·axes_k, and m = ((n·origin + D(0,c)·p_0) + D(1,c)·p_1) + D(2,c)·p_2.
pub fn derivatives(action: &Action, n: Vector, p: Vector) -> Derivatives {
    let d = action
        .axes
        .map(|columns| columns.map(|column| dot(n, column)));
    let m = std::array::from_fn(|c| {
        let origin = dot(n, action.origin[c]);
        ((origin + d[0][c] * p[0]) + d[1][c] * p[1]) + d[2][c] * p[2]
    });
    Derivatives { d, m }
}

/// What one frame adds: its cost, and the block and the vector as they are without a transform.
pub struct FrameTerms {
    /// The cost.
    pub cost: f64,
    /// The block and the vector.
    pub block: Block,
}

/// What one frame adds under a plane.
pub fn frame_terms(frame: &Centred, action: &Action, plane: &Plane, weight: f64) -> FrameTerms {
    let Centred {
        count,
        mean,
        scatter: s,
    } = *frame;
    let a_n = vector(|c| dot(vector(|r| action.a[r][c]), plane.normal));
    let s_an = vector(|r| dot(s[r], a_n));
    let along = plane.along(action.carried(mean));
    let Derivatives { d, m } = derivatives(action, plane.normal, mean);
    let column = |c: usize| vector(|l| d[l][c]);
    let p: [Vector; 9] = std::array::from_fn(|i| vector(|k| dot(column(i), vector(|l| s[l][k]))));
    FrameTerms {
        cost: (dot(a_n, s_an) + (count * along) * along) * weight,
        block: Block {
            h: matrix(|i, j| (dot(p[i], column(j)) + (m[i] * m[j]) * count) * weight),
            g: std::array::from_fn(|i| (dot(column(i), s_an) + m[i] * (count * along)) * weight),
        },
    }
}

/// What the fixed set costs.
pub fn fixed_cost(fixed: &Centred, plane: &Plane, weight: f64) -> f64 {
    let n = plane.normal;
    let along = plane.along(fixed.mean);
    let spread = dot(n, vector(|r| dot(fixed.scatter[r], n)));
    (spread + (fixed.count * along) * along) * weight
}

/// What `frames_accumulate_transformed` takes, its Hessian and gradient apart; `frames_accumulate` takes no transforms.
pub struct Accumulate<'a> {
    /// The number of parameters.
    pub dof: u32,
    /// The centred frames.
    pub frames: &'a [f64],
    /// The fixed set, or nothing.
    pub fixed: &'a [f64],
    /// The standard deviation.
    pub sigma: f64,
    /// The actions.
    pub actions: &'a [f64],
    /// The fit's decomposition.
    pub decomposition: &'a [f64],
    /// The block map.
    pub map: &'a [u32],
    /// What lies beside it.
    pub transforms: Transforms<'a>,
}

impl<'a> Accumulate<'a> {
    /// Tests 1, 2, 3, 7, 8, 9, 14, 10, each with whether it applies. Without transforms 14 does not.
    pub fn reasons(&self, target: Target) -> Vec<(u32, bool)> {
        let blocks = self.blocks();
        let lengths = bad_frames(self.frames, CENTRED)
            || bad_fixed(self.fixed, CENTRED)
            || self.decomposition.len() != DECOMPOSITION
            || target.bad_lengths(&blocks);
        let mut reasons = vec![
            (DOF, self.dof > MAX_DOF),
            (EMPTY_LIST, self.frames.is_empty()),
            (LENGTH, lengths),
            (SIGMA, bad_sigma(self.sigma)),
            (ACTIONS, bad_actions(self.actions, self.frames)),
        ];
        reasons.extend(target.reasons(&blocks, self.frames.len() / CENTRED));
        reasons
    }

    /// Why it is refused, or 0.
    pub fn refusal(&self, target: Target) -> u32 {
        first(&self.reasons(target))
    }

    /// Where its frames go.
    pub fn blocks(&self) -> Blocks<'a> {
        Blocks {
            dof: self.dof,
            map: self.map,
            transforms: self.transforms,
        }
    }

    /// The sets that it reads.
    pub fn sets(&self) -> Sets {
        Sets::read(self.frames, self.fixed, self.actions)
    }

    /// The fitted plane, or none.
    pub fn plane(&self) -> Option<Plane> {
        smallest_axis(
            &Decomposition::read(self.decomposition),
            fit_mean(&self.sets()),
        )
    }

    /// What it works out when it is accepted: without a plane a cost of 0 and no term.
    pub fn work(&self) -> Work {
        self.work_by(added)
    }

    /// The same with another rule for what is added for a frame.
    pub fn work_by(&self, added: Added) -> Work {
        let mut work = Work {
            cost: 0.0,
            terms: Vec::new(),
        };
        let Some(plane) = self.plane() else {
            return work;
        };
        let weight = 1.0 / (self.sigma * self.sigma);
        let sets = self.sets();
        for (k, (frame, action)) in sets.frames.iter().enumerate() {
            let FrameTerms { cost, block } = frame_terms(frame, action, &plane, weight);
            work.cost += cost;
            if let Some((segment, block)) = added(&self.blocks(), k, &block) {
                work.add(segment, &block);
            }
        }
        if let Some(fixed) = &sets.fixed {
            work.cost += fixed_cost(fixed, &plane, weight);
        }
        work
    }
}

/// The call `frames_accumulate_transformed` on frames, fixed, sigma, actions, decomposition, transforms, Hessian, gradient and
/// cost, with dof, map and shapes.
pub fn accumulate_transformed_call(
    refusal: impl Fn(&Accumulate, Target) -> u32,
    work: impl Fn(&Accumulate) -> Work,
) -> impl Fn([&mut [f64]; 9], [&mut [u32]; 3]) -> u32 {
    move |numbers, [dof, map, shapes]| {
        let [frames, fixed, sigma, actions, decomposition, transforms, hessian, gradient, cost] =
            numbers;
        let inputs = Accumulate {
            dof: dof[0],
            frames,
            fixed,
            sigma: sigma[0],
            actions,
            decomposition,
            map,
            transforms: Transforms {
                shapes,
                numbers: transforms,
            },
        };
        let target = Target {
            hessian: hessian.len(),
            gradient: gradient.len(),
        };
        let refusal = refusal(&inputs, target);
        if refusal == 0 {
            work(&inputs).write(hessian, gradient, &mut cost[0]);
        }
        refusal
    }
}

/// The call `frames_accumulate`, which is the one with transforms without any: on frames, fixed, sigma, actions, decomposition,
/// Hessian, gradient and cost, with dof and map.
pub fn accumulate_call(
    refusal: impl Fn(&Accumulate, Target) -> u32,
    work: impl Fn(&Accumulate) -> Work,
) -> impl Fn([&mut [f64]; 8], [&mut [u32]; 2]) -> u32 {
    let call = accumulate_transformed_call(refusal, work);
    move |numbers, [dof, map]| {
        let [frames, fixed, sigma, actions, decomposition, hessian, gradient, cost] = numbers;
        let none = &mut [];
        let numbers = [
            frames,
            fixed,
            sigma,
            actions,
            decomposition,
            none,
            hessian,
            gradient,
            cost,
        ];
        call(numbers, [dof, map, &mut []])
    }
}

/// What `frames_linearize` takes.
pub struct Linearize<'a> {
    /// The number of parameters.
    pub dof: u32,
    /// The centred frames.
    pub frames: &'a [f64],
    /// The fixed set, or nothing.
    pub fixed: &'a [f64],
    /// The standard deviation.
    pub sigma: f64,
    /// The actions.
    pub actions: &'a [f64],
    /// The decompositions of the fit, of each frame, and of the fixed set.
    pub decompositions: &'a [f64],
}

/// Residuals, and the Jacobian's entries by row and column.
pub struct Rows {
    /// Four a frame and four for the fixed set.
    pub residual: Vec<f64>,
    /// The entries, as many rows as residuals.
    pub jacobian: Vec<Vec<f64>>,
}

/// `Centred::root`: row k is vector k times the square root of the eigenvalue, one below 0 or NaN taken as +0.
pub fn root(decomposition: &Decomposition) -> Matrix<3> {
    let scale = decomposition.eigenvalues.map(|bits| {
        let value = f64::from_bits(bits);
        if value > 0.0 {
            value.sqrt()
        } else {
            0.0
        }
    });
    matrix(|k, c| decomposition.vectors[k][c] * scale[k])
}

impl Linearize<'_> {
    /// Tests 1, 2, 3, 7, 8; `residual` and `jacobian` are lengths.
    pub fn refusal(&self, residual: usize, jacobian: usize) -> u32 {
        let frames = self.frames.len() / CENTRED;
        let rows = 4 * frames + 4;
        let decompositions = 1 + frames + usize::from(!self.fixed.is_empty());
        let columns = frames * self.dof as usize;
        let lengths = bad_frames(self.frames, CENTRED)
            || bad_fixed(self.fixed, CENTRED)
            || self.decompositions.len() != decompositions * DECOMPOSITION
            || residual != rows
            || jacobian != 0 && jacobian != rows * columns;
        first(&[
            (DOF, self.dof > MAX_DOF),
            (EMPTY_LIST, self.frames.is_empty()),
            (LENGTH, lengths),
            (SIGMA, bad_sigma(self.sigma)),
            (ACTIONS, bad_actions(self.actions, self.frames)),
        ])
    }

    /// The rows when it is accepted: without a plane all +0.
    pub fn rows(&self) -> Rows {
        let sets = Sets::read(self.frames, self.fixed, self.actions);
        let decompositions: Vec<Decomposition> = self
            .decompositions
            .chunks(DECOMPOSITION)
            .map(Decomposition::read)
            .collect();
        let (frames, dof) = (sets.frames.len(), self.dof as usize);
        let rows = 4 * frames + 4;
        let mut out = Rows {
            residual: vec![0.0; rows],
            jacobian: vec![vec![0.0; frames * dof]; rows],
        };
        let Some(plane) = smallest_axis(&decompositions[0], fit_mean(&sets)) else {
            return out;
        };
        let information = 1.0 / self.sigma;
        let n = plane.normal;
        for (f, (frame, action)) in sets.frames.iter().enumerate() {
            let root = root(&decompositions[1 + f]);
            let a_n = vector(|c| dot(vector(|r| action.a[r][c]), n));
            let along = plane.along(action.carried(frame.mean));
            let Derivatives { d, m } = derivatives(action, n, frame.mean);
            for k in 0..3 {
                out.residual[4 * f + k] = dot(root[k], a_n) * information;
                for c in 0..dof {
                    let entry = dot(root[k], vector(|l| d[l][c])) * information;
                    out.jacobian[4 * f + k][f * dof + c] = entry;
                }
            }
            out.residual[4 * f + 3] = (frame.count.sqrt() * along) * information;
            for c in 0..dof {
                out.jacobian[4 * f + 3][f * dof + c] = (frame.count.sqrt() * m[c]) * information;
            }
        }
        if let Some(fixed) = &sets.fixed {
            let root = root(&decompositions[1 + frames]);
            for k in 0..3 {
                out.residual[4 * frames + k] = dot(root[k], n) * information;
            }
            let along = plane.along(fixed.mean);
            out.residual[4 * frames + 3] = (fixed.count.sqrt() * along) * information;
        }
        out
    }
}

/// The call `frames_linearize` on frames, fixed, sigma, actions, decompositions, residual and Jacobian, with the dof.
pub fn linearize_call(
    refusal: impl Fn(&Linearize, usize, usize) -> u32,
    rows: impl Fn(&Linearize) -> Rows,
) -> impl Fn([&mut [f64]; 7], [&mut [u32]; 1]) -> u32 {
    move |[frames, fixed, sigma, actions, decompositions, residual, jacobian], [dof]| {
        let inputs = Linearize {
            dof: dof[0],
            frames,
            fixed,
            sigma: sigma[0],
            actions,
            decompositions,
        };
        let refusal = refusal(&inputs, residual.len(), jacobian.len());
        if refusal == 0 {
            rows(&inputs).write(residual, jacobian);
        }
        refusal
    }
}

impl Rows {
    /// Writes residuals and, where it is wanted, the Jacobian, column after column.
    pub fn write(&self, residual: &mut [f64], jacobian: &mut [f64]) {
        let rows = residual.len();
        for (row, number) in residual.iter_mut().enumerate() {
            *number = written(self.residual[row]);
        }
        for (place, entry) in jacobian.iter_mut().enumerate() {
            *entry = written(self.jacobian[place % rows][place / rows]);
        }
    }
}

#[cfg(test)]
mod tests {
    use super::*;
    use crate::draws::within;
    use crate::generator::Generator;
    use crate::model::blocks::Cell;
    use crate::scenes::{decomposition_of, Scene};

    /// One frame of four points, moved along the normal by its one parameter and turned by it too.
    fn whole_numbers(action: &mut [f64; ACTION]) -> [f64; CENTRED] {
        for place in [0, 4, 8] {
            action[place] = 1.0;
        }
        action[12] = 3.0;
        action[39] = 1.0;
        [
            4.0, 1.0, 1.0, 0.0, 4.0, 0.0, 0.0, 0.0, 4.0, 0.0, 0.0, 0.0, 0.0,
        ]
    }

    const UNIT: [f64; 9] = [1.0, 0.0, 0.0, 0.0, 1.0, 0.0, 0.0, 0.0, 1.0];

    fn with_values(values: [f64; 3]) -> Vec<f64> {
        [&values[..], &UNIT].concat()
    }

    #[test]
    fn a_case_in_whole_numbers() {
        let mut action = [0.0; ACTION];
        let frame = whole_numbers(&mut action);
        let fit = with_values([0.0, 1.0, 2.0]);
        let inputs = Accumulate {
            dof: 1,
            frames: &frame,
            fixed: &[],
            sigma: 0.5,
            actions: &action,
            decomposition: &fit,
            map: &[0],
            transforms: Transforms::NONE,
        };
        let work = inputs.work();
        assert_eq!(work.cost, 16.0);
        let terms = [(Cell::Hessian(0, 0), 272.0), (Cell::Gradient(0), 16.0)];
        assert_eq!(work.terms, terms);
        let rows = Linearize {
            dof: 1,
            frames: &frame,
            fixed: &[],
            sigma: 0.5,
            actions: &action,
            decompositions: &[fit, with_values([4.0, 4.0, 0.0])].concat(),
        }
        .rows();
        assert_eq!(rows.residual, [4.0, 0.0, 0.0, 0.0, 0.0, 0.0, 0.0, 0.0]);
        let column: Vec<f64> = rows.jacobian.iter().map(|row| row[0]).collect();
        assert_eq!(column, [4.0, 0.0, 0.0, 16.0, 0.0, 0.0, 0.0, 0.0]);
    }

    #[test]
    fn the_gap_counts_by_the_third_eigenvalue() {
        let plane = |values: [f64; 3]| {
            smallest_axis(&Decomposition::read(&with_values(values)), [1.0, 2.0, 3.0])
        };
        assert_eq!(plane([1.0, 1.0, 0.0]).unwrap().normal, [0.0, 0.0, 1.0]);
        assert!(plane([0.0, 1e-12, 200.0]).is_none());
        assert!(plane([-0.0, 0.0, 1.0]).is_none());
        assert!(plane([0.0, 1e-14, 1.0]).is_none());
        assert!(plane([0.0, 1.1e-14, 0.1]).is_some());
        // A NaN that sorts last counts as 1, and one that sorts first makes the gap a NaN.
        assert!(plane([0.0, 1.0, f64::NAN]).is_some());
        assert!(plane([0.0, 1.0, -f64::NAN]).is_none());
        assert!(plane([f64::INFINITY; 3]).is_none());
    }

    /// What the rows sum to is what accumulating adds, but for rounding.
    #[test]
    fn accumulated_is_what_the_rows_sum_to() {
        let mut generator = Generator::new(1);
        for _ in 0..200 {
            let scene = Scene::of_a_wall(4, &mut generator);
            let sets = Sets::read(&scene.frames, &scene.fixed, &scene.actions);
            let sigma = within(0.5, 2.0, &mut generator);
            let width = scene.dof as usize;
            let map: Vec<u32> = (0..4).map(|k| k * scene.dof).collect();
            let mut decompositions = decomposition_of(fit(&sets).1).to_vec();
            let frames = sets.frames.iter().map(|(frame, _)| frame);
            for set in frames.chain(&sets.fixed) {
                decompositions.extend(decomposition_of(set.scatter));
            }
            let work = Accumulate {
                dof: scene.dof,
                frames: &scene.frames,
                fixed: &scene.fixed,
                sigma,
                actions: &scene.actions,
                decomposition: &decompositions[..DECOMPOSITION],
                map: &map,
                transforms: Transforms::NONE,
            }
            .work();
            let rows = Linearize {
                dof: scene.dof,
                frames: &scene.frames,
                fixed: &scene.fixed,
                sigma,
                actions: &scene.actions,
                decompositions: &decompositions,
            }
            .rows();
            let column = |c: usize| rows.jacobian.iter().map(move |row| row[c]);
            let close = |a: f64, b: f64, size: f64| (a - b).abs() <= 1e-9 * size;
            let squares = |c: usize| column(c).map(|x| x * x).sum::<f64>();
            let residuals: f64 = rows.residual.iter().map(|r| r * r).sum();
            assert!(close(work.cost, residuals, 1.0 + residuals));
            assert_eq!(work.terms.len(), 4 * (width * width + width));
            for (cell, term) in work.terms {
                let (sum, size) = match cell {
                    Cell::Hessian(i, j) => (
                        column(i).zip(column(j)).map(|(x, y)| x * y).sum::<f64>(),
                        (squares(i) * squares(j)).sqrt(),
                    ),
                    Cell::Gradient(i) => (
                        column(i).zip(&rows.residual).map(|(x, r)| x * r).sum(),
                        (squares(i) * residuals).sqrt(),
                    ),
                };
                assert!(close(term, sum, 1.0 + size), "{cell:?}: {term} and {sum}");
            }
        }
    }

    /// A record of this count.
    fn counted(count: f64) -> [f64; MOMENTS] {
        let mut record = [0.0; MOMENTS];
        record[0] = count;
        record
    }

    /// What a frame and a fixed set of these counts are built to.
    fn built_of(frame: f64, fixed: f64) -> Built {
        let [frame, fixed] = [frame, fixed].map(|count| Moments::read(&counted(count)));
        built(&[frame], Some(fixed))
    }

    #[test]
    fn counts_of_a_build() {
        let refusal = |frames: &[f64], fixed: &[f64]| {
            build_refusal(6, [frames, fixed], 1.0, [frames.len(), fixed.len()])
        };
        // Worked cases h, i and j.
        assert_eq!(refusal(&counted(5.0), &counted(-1.0)), 0);
        assert_eq!(refusal(&counted(5.0), &counted(-3.0)), TOTAL_COUNT);
        assert_eq!(refusal(&counted(2.0), &counted(1.0)), 0);
        assert_eq!(refusal(&counted(2.0), &counted(0.5)), TOTAL_COUNT);
        assert_eq!(refusal(&counted(-0.0), &counted(9.0)), FRAME_COUNT);
        assert_eq!(refusal(&counted(f64::NAN), &[]), NOT_FINITE);
        assert_eq!(
            refusal(&counted(f64::INFINITY), &counted(f64::NEG_INFINITY)),
            NOT_FINITE
        );
        assert_eq!(
            refusal(&counted(5.0), &counted(f64::NEG_INFINITY)),
            TOTAL_COUNT
        );
        let built = built_of(5.0, -1.0);
        assert_eq!(built.points, 5.0);
        assert!(built.dropped);
    }

    #[test]
    fn counts_of_a_strict_build() {
        let refusal = |frame: f64, fixed: f64| {
            let [frame, fixed] = [frame, fixed].map(counted);
            strict_refusal(6, [&frame, &fixed], 1.0, [CENTRED; 2])
        };
        for below in [-5e-324, -1.0, -3.0, f64::NEG_INFINITY] {
            assert_eq!(refusal(5.0, below), FIXED_COUNT, "{below}");
        }
        // A dropped set adds nothing.
        for nothing in [0.0, -0.0] {
            assert_eq!(refusal(5.0, nothing), 0);
            assert_eq!(refusal(3.0, nothing), 0);
            assert_eq!(refusal(2.0, nothing), TOTAL_COUNT);
            let built = built_of(5.0, nothing);
            assert_eq!(built.points, 5.0);
            assert!(built.dropped);
        }
        assert_eq!(refusal(2.0, 0.5), TOTAL_COUNT);
        assert_eq!(refusal(2.0, 1.0), 0);
        assert_eq!(built_of(2.0, 1.0).points, 3.0);
        // A NaN is neither below 0 nor dropped, so that the total is a NaN too.
        for not_finite in [f64::NAN, -f64::NAN, f64::INFINITY] {
            assert_eq!(refusal(2.0, not_finite), NOT_FINITE, "{not_finite}");
        }
    }

    #[test]
    fn the_fixed_count_is_tested_after_the_lengths_and_before_the_counts() {
        let [frame, fixed] = [-1.0; 2].map(counted);
        let refusal = |dof: u32, frames: &[f64], outputs: [usize; 2]| {
            strict_refusal(dof, [frames, &fixed], 0.0, outputs)
        };
        assert_eq!(refusal(6, &frame, [CENTRED; 2]), FIXED_COUNT);
        assert_eq!(refusal(10, &frame, [CENTRED; 2]), DOF);
        assert_eq!(refusal(6, &[], [0, CENTRED]), EMPTY_LIST);
        assert_eq!(refusal(6, &frame, [CENTRED, CENTRED - 1]), LENGTH);
        assert_eq!(refusal(6, &frame, [CENTRED + 1, CENTRED]), LENGTH);
    }
}
