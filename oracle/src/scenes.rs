//! What the calls on frames are tried on: a wall seen from several poses, and numbers that lead astray.

use crate::called::Fault;
use crate::draws::{self, fill, numbers, old, record_of, within, Pose, Wall, COUNTS};
use crate::generator::Generator;
use crate::model::frames::{centred, fit, Sets};
use crate::model::moments::{transformed, Moments};
use crate::model::{
    matrix, stored_matrix, vector, Matrix, Vector, ACTIONS, DOF, EMPTY_LIST, LENGTH, MAX_DOF,
};
use crate::patterns;
use maghnelt::{ACTION, CENTRED, DECOMPOSITION, MAX_FRAMES};

/// Frames, a fixed set and actions, as the calls after the build take them.
#[derive(Clone)]
pub struct Scene {
    /// The number of parameters.
    pub dof: u32,
    /// The centred frames.
    pub frames: Vec<f64>,
    /// The fixed set, or nothing.
    pub fixed: Vec<f64>,
    /// An action a frame.
    pub actions: Vec<f64>,
}

impl Scene {
    /// So many frames of a wall, or of any numbers.
    pub fn of(frames: usize, generator: &mut Generator) -> Scene {
        let dof = generator.below(1 + u64::from(MAX_DOF)) as u32;
        let mut scene = if generator.below(2) == 0 {
            wall_seen(dof, frames, generator)
        } else {
            any_numbers(dof, frames, generator)
        };
        // Now and then one of the slices is special, the others being as they were.
        if generator.below(4) == 0 {
            let slices = [&mut scene.frames, &mut scene.fixed, &mut scene.actions];
            let [frames, fixed, actions] = slices;
            fill(
                [frames, fixed, actions][generator.below(3) as usize],
                generator,
            );
        }
        scene
    }

    /// So many frames of a wall, with any dof.
    pub fn of_a_wall(frames: usize, generator: &mut Generator) -> Scene {
        let dof = generator.below(1 + u64::from(MAX_DOF)) as u32;
        wall_seen(dof, frames, generator)
    }

    /// What a call can be refused for in it.
    pub fn faults() -> Vec<Fault<Scene>> {
        vec![
            Fault::new(DOF, |scene: &mut Scene, _| scene.dof = MAX_DOF + 1),
            Fault::new(DOF, |scene: &mut Scene, generator| {
                scene.dof = u32::MAX - generator.below(1 << 31) as u32;
            }),
            Fault::new(EMPTY_LIST, |scene: &mut Scene, _| scene.frames.clear()),
            // Not whole frames.
            Fault::new(LENGTH, |scene: &mut Scene, generator| {
                let wrong = scene.frames.len() + generator.pick(&[1, 2, CENTRED - 1]);
                scene.frames.resize(wrong, 1.0);
            }),
            // A frame too many, each with its action.
            Fault::new(LENGTH, |scene: &mut Scene, _| {
                scene.frames.resize(CENTRED * (MAX_FRAMES + 1), 1.0);
                scene.actions.resize(ACTION * (MAX_FRAMES + 1), 1.0);
            }),
            Fault::new(LENGTH, |scene: &mut Scene, generator| {
                let wrong = [1, CENTRED - 1, CENTRED + 1, 2 * CENTRED];
                scene.fixed.resize(generator.pick(&wrong), 1.0);
            }),
            Fault::new(ACTIONS, |scene: &mut Scene, generator| {
                let right = ACTION * scene.len();
                let wrong = [0, 1, right + 1, right + ACTION, right + ACTION - 1];
                let wrong: Vec<usize> = wrong.into_iter().filter(|&k| k != right).collect();
                scene.actions.resize(generator.pick(&wrong), 1.0);
            }),
            // As many numbers as the frames have.
            Fault::new(ACTIONS, |scene: &mut Scene, _| {
                scene.actions.resize(scene.frames.len() + 1, 1.0);
            }),
        ]
    }

    /// The number of frames.
    pub fn len(&self) -> usize {
        self.frames.len() / CENTRED
    }

    /// Whether there are none.
    pub fn is_empty(&self) -> bool {
        self.frames.is_empty()
    }
}

/// How many frames a case has: mostly few, and now and then up to as many as allowed.
pub fn some_frames(generator: &mut Generator) -> usize {
    let (from, to) = match generator.below(32) {
        0..=19 => (1, 4),
        20..=28 => (5, 12),
        29..=30 => (13, 42),
        _ => (43, MAX_FRAMES as i64),
    };
    generator.between(from, to) as usize
}

/// A wall in the site as several poses see it, with a fixed set of its own points in half the cases.
fn wall_seen(dof: u32, frames: usize, generator: &mut Generator) -> Scene {
    let wall = Wall::random(generator);
    let poses: Vec<Pose> = (0..frames).map(|_| Pose::random(generator)).collect();
    let frames = poses
        .iter()
        .flat_map(|pose| centred_record(seen_from(pose, &wall, generator)))
        .collect();
    let fixed = Moments::read(&record_of(&wall, generator));
    Scene {
        dof,
        frames,
        fixed: match generator.below(2) {
            0 => Vec::new(),
            _ => centred_record(fixed).to_vec(),
        },
        actions: poses
            .iter()
            .flat_map(|pose| action_of(pose, dof, generator))
            .collect(),
    }
}

/// The moments of points of a wall in the site, as a pose sees them.
pub fn seen_from(pose: &Pose, wall: &Wall, generator: &mut Generator) -> Moments {
    // The pose takes p to R·p + t, so the frame saw Rᵀ·p − Rᵀ·t.
    let back = matrix(|r, c| pose.rotation[c][r]);
    let shift = vector(|r| -(0..3).map(|k| back[r][k] * pose.shift[k]).sum::<f64>());
    transformed(Moments::read(&record_of(wall, generator)), back, shift)
}

fn centred_record(moments: Moments) -> [f64; CENTRED] {
    let mut record = [0.0; CENTRED];
    centred(moments)
        .expect("a wall has points")
        .write(&mut record);
    record
}

/// The action of a pose with its derivatives by a shift, a turn, a scale and nothing. From the dof on its columns are as they
/// come or anything.
pub fn action_of(pose: &Pose, dof: u32, generator: &mut Generator) -> Vec<f64> {
    let column = |c: usize| -> Vector { vector(|r| pose.rotation[r][c]) };
    let mut action = vec![0.0; ACTION];
    action[..9].copy_from_slice(&draws::stored(pose.rotation));
    action[9..12].copy_from_slice(&pose.shift);
    for c in 0..3 {
        action[12 + 3 * c..][..3].copy_from_slice(&column(c));
    }
    for k in 0..3 {
        let axis = &mut action[39 + 27 * k..][..27];
        // −R·(e_k × e_c): with e_k × e_c = e_d the column d turned about, and zero for k = c.
        let (next, last) = ((k + 1) % 3, (k + 2) % 3);
        axis[3 * (3 + next)..][..3].copy_from_slice(&column(last).map(|x| -x));
        axis[3 * (3 + last)..][..3].copy_from_slice(&column(next));
        axis[18..21].copy_from_slice(&column(k));
    }
    if generator.below(2) == 0 {
        let past = 3 * (MAX_DOF - dof) as usize;
        for matrix in [12, 39, 66, 93] {
            let end = matrix + 3 * MAX_DOF as usize;
            action[end - past..end].copy_from_slice(&old(past, generator));
        }
    }
    action
}

/// Slices of any numbers, each record by itself or all of one size; a count is often one at which something turns.
fn any_numbers(dof: u32, frames: usize, generator: &mut Generator) -> Scene {
    let records = |record: usize, generator: &mut Generator| {
        let mut list = vec![0.0; record * frames];
        let part = match generator.below(2) {
            0 => record,
            _ => list.len(),
        };
        list.chunks_mut(part).for_each(|part| fill(part, generator));
        list
    };
    let mut scene = Scene {
        dof,
        frames: records(CENTRED, generator),
        fixed: numbers::<CENTRED>(generator).to_vec(),
        actions: records(ACTION, generator),
    };
    if generator.below(2) == 0 {
        for count in scene.frames.iter_mut().step_by(CENTRED) {
            *count = some_count(generator);
        }
    }
    match generator.below(4) {
        0 | 1 => scene.fixed.clear(),
        2 => scene.fixed[0] = some_count(generator),
        _ => {}
    }
    scene
}

/// A number of points, or now and then one at which something turns.
fn some_count(generator: &mut Generator) -> f64 {
    match generator.below(16) {
        0 => generator.pick(&COUNTS),
        1 => within(0.0, 5.0, generator),
        _ => (1 + generator.below(100)) as f64,
    }
}

/// A sigma that is accepted: as it is met, or so small or large that its square is 0 or not finite.
pub fn some_sigma(generator: &mut Generator) -> f64 {
    match generator.below(8) {
        0 => generator.pick(&[1.0, 0.5, 0.1, 3.0]),
        1 => generator.pick(&[5e-324, 1e-200, 1e-160, 1e160, 1e200, f64::MAX]),
        _ => within(0.001, 2.0, generator),
    }
}

/// A sigma that is refused.
pub fn bad_sigma(generator: &mut Generator) -> f64 {
    let minus_nan = f64::from_bits(0xFFF0_0000_0000_0001);
    let bad = [
        0.0,
        -0.0,
        -1.0,
        -5e-324,
        f64::INFINITY,
        f64::NEG_INFINITY,
        f64::NAN,
        minus_nan,
    ];
    generator.pick(&bad)
}

/// An infinity or a NaN.
pub fn not_finite(generator: &mut Generator) -> f64 {
    generator.pick(&[f64::NAN, f64::INFINITY, f64::NEG_INFINITY])
}

/// The eigenvalues of a symmetric matrix and their vectors, by Jacobi's rotations: decompositions as a host makes them.
pub fn jacobi(mut m: Matrix<3>) -> (Vector, [Vector; 3]) {
    let mut vectors: [Vector; 3] = matrix(|r, c| f64::from(u8::from(r == c)));
    for _ in 0..8 {
        for (p, q) in [(0, 1), (0, 2), (1, 2)] {
            if m[p][q] == 0.0 {
                continue;
            }
            let theta = (m[q][q] - m[p][p]) / (2.0 * m[p][q]);
            let tan = theta.signum() / (theta.abs() + (theta * theta + 1.0).sqrt());
            let cos = 1.0 / (tan * tan + 1.0).sqrt();
            let sin = tan * cos;
            let rotated = |x: f64, y: f64| (cos * x - sin * y, sin * x + cos * y);
            for row in &mut m {
                (row[p], row[q]) = rotated(row[p], row[q]);
            }
            for c in 0..3 {
                (m[p][c], m[q][c]) = rotated(m[p][c], m[q][c]);
                (vectors[p][c], vectors[q][c]) = rotated(vectors[p][c], vectors[q][c]);
            }
        }
    }
    (vector(|k| m[k][k]), vectors)
}

/// The same as it is handed over.
pub fn decomposition_of(m: Matrix<3>) -> [f64; DECOMPOSITION] {
    let (values, vectors) = jacobi(m);
    let mut decomposition = [0.0; DECOMPOSITION];
    decomposition[..3].copy_from_slice(&values);
    decomposition[3..].copy_from_slice(vectors.as_flattened());
    decomposition
}

/// A decomposition of a scatter as a host makes it, or one that is made up, or the first with other eigenvalues, about the
/// least gap apart, which is given for the third.
pub fn decomposition_about(
    scatter: impl FnOnce() -> Matrix<3>,
    least_gap: fn(f64) -> f64,
    generator: &mut Generator,
) -> [f64; DECOMPOSITION] {
    let mut decomposition = match generator.below(8) {
        0 => numbers(generator),
        _ => decomposition_of(scatter()),
    };
    if generator.below(3) == 0 {
        decomposition[..3].copy_from_slice(&made_up_eigenvalues(least_gap, generator));
    }
    decomposition
}

/// Such a decomposition of the fit's scatter.
pub fn fit_decomposition(scene: &Scene, generator: &mut Generator) -> [f64; DECOMPOSITION] {
    let scatter = || fit(&Sets::read(&scene.frames, &scene.fixed, &scene.actions)).1;
    decomposition_about(scatter, |third| 1e-14 * third.abs().max(1.0), generator)
}

/// A decomposition of a set's scatter, or one that is made up.
pub fn set_decomposition(record: &[f64], generator: &mut Generator) -> [f64; DECOMPOSITION] {
    let mut decomposition = match generator.below(4) {
        0 => numbers(generator),
        _ => decomposition_of(stored_matrix(&record[4..])),
    };
    if generator.below(4) == 0 {
        let eigenvalues = [-0.0, -1.0, f64::NAN, -f64::NAN, f64::INFINITY, 5e-324, 4.0];
        let place = generator.below(3) as usize;
        decomposition[place] = generator.pick(&eigenvalues);
    }
    decomposition
}

/// Eigenvalues in any order: about the least gap apart beside any third one, equal, or special.
fn made_up_eigenvalues(least_gap: fn(f64) -> f64, generator: &mut Generator) -> [f64; 3] {
    let special = patterns::special();
    let any = |generator: &mut Generator| f64::from_bits(generator.pick(&special));
    let third = match generator.below(4) {
        0 => any(generator),
        1 => within(-2.0, 2.0, generator),
        2 => generator.pick(&[1.0, -1.0, 0.0, 200.0, 1e9, f64::INFINITY, f64::NAN]),
        _ => f64::from_bits(patterns::random(generator)),
    };
    let least = match generator.below(3) {
        0 => generator.pick(&[0.0, -0.0]),
        1 => any(generator),
        _ => third - within(0.0, 4.0, generator),
    };
    let second = match generator.below(4) {
        0 => least,
        1 => any(generator),
        _ => f64::from_bits(
            (least + least_gap(third))
                .to_bits()
                .wrapping_add_signed(generator.between(-2, 2)),
        ),
    };
    let mut eigenvalues = [least, second, third];
    eigenvalues.rotate_left(generator.below(3) as usize);
    if generator.below(2) == 0 {
        eigenvalues.swap(0, 1);
    }
    eigenvalues
}

/// The patterns about the least gap of the fit: 1e-14, which is not above it, the number after it, and 200 times 1e-14.
pub const GAPS_OF_THE_FIT: [u64; 3] = [
    0x3D06_849B_86A1_2B9B,
    0x3D06_849B_86A1_2B9C,
    0x3D81_9799_812D_EA11,
];

/// The patterns about the least gap of a bundle: just below 1e-12, 1e-12, which is not below it, and the number after it.
pub const GAPS_OF_A_BUNDLE: [u64; 3] = [
    0x3D71_9799_812D_EA10,
    0x3D71_9799_812D_EA11,
    0x3D71_9799_812D_EA12,
];

/// Every three of the patterns at which an order turns, or a gap by a rule whose patterns are given.
pub fn turning_eigenvalues(gaps: [u64; 3]) -> impl Iterator<Item = [f64; 3]> {
    let patterns = [
        0x0000_0000_0000_0000,
        0x8000_0000_0000_0000,
        gaps[0],
        gaps[1],
        gaps[2],
        0xBD06_849B_86A1_2B9B,
        0x3FF0_0000_0000_0000,
        0x4069_0000_0000_0000, // 200
        0x7FF0_0000_0000_0000,
        0xFFF0_0000_0000_0000,
        0x7FF8_0000_0000_0000,
        0x7FF0_0000_0000_0001,
        0xFFF8_0000_0000_0000,
        0xFFFF_FFFF_FFFF_FFFF,
    ];
    let three = |k: usize| [k % 14, k / 14 % 14, k / 196];
    (0..14 * 14 * 14).map(move |k| three(k).map(|place| f64::from_bits(patterns[place])))
}

#[cfg(test)]
mod tests {
    use super::*;
    use crate::model::dot;

    #[test]
    fn a_wall_that_is_seen_from_poses_is_flat() {
        let mut generator = Generator::new(1);
        for _ in 0..50 {
            let scene = wall_seen(6, 5, &mut generator);
            let sets = Sets::read(&scene.frames, &scene.fixed, &scene.actions);
            let points: f64 = sets.frames.iter().map(|(frame, _)| frame.count).sum();
            let (_, scatter) = fit(&sets);
            let (values, _) = jacobi(scatter);
            let least = values.iter().copied().fold(f64::INFINITY, f64::min);
            assert!(least / points < 0.03, "{values:?}");
        }
    }

    #[test]
    fn rotations_diagonalize() {
        let mut generator = Generator::new(1);
        for _ in 0..100 {
            let m: Matrix<3> = draws::covariance(3.0, &mut generator);
            let (values, vectors) = jacobi(m);
            for k in 0..3 {
                for r in 0..3 {
                    let off = dot(m[r], vectors[k]) - values[k] * vectors[k][r];
                    assert!(off.abs() < 1e-12);
                }
            }
        }
    }

    #[test]
    fn cases_are_of_every_length() {
        let mut generator = Generator::new(1);
        let drawn: Vec<usize> = (0..2000).map(|_| some_frames(&mut generator)).collect();
        assert!(drawn.contains(&1) && drawn.iter().all(|f| (1..=MAX_FRAMES).contains(f)));
        assert!(drawn.iter().any(|&frames| frames > 200));
    }

    #[test]
    fn records_are_whole() {
        let mut generator = Generator::new(1);
        for frames in [1, 2, 7] {
            let scene = Scene::of(frames, &mut generator);
            assert_eq!(scene.len(), frames);
            assert_eq!(scene.actions.len(), ACTION * frames);
            assert!(scene.fixed.is_empty() || scene.fixed.len() == CENTRED);
        }
    }
}
