//! Ten thousand planes against the clock.

use crate::equations::{Equations, RawPlane, Trouble, Way};
use crate::height::Height;
use crate::lapack;
use crate::pose::{Pose, Vector, DOF};
use crate::random::Random;
use maghnelt::{Action, BlockMap, FrameFactor, Moments, NormalEquations, Refusal};
use std::time::{Duration, Instant};

/// How many planes.
pub const PLANES: usize = 10_000;
/// How many poses there are, how many of them see each plane, and how many points each sees.
const POSES: usize = 30;
const FRAMES: usize = 6;
const POINTS: usize = 10;
const SIGMA: f64 = 0.002;

/// What was timed.
#[derive(Clone, Copy, Debug)]
pub struct Times {
    /// Moments of all points and the factors built of them; point by point there is nothing to build.
    pub build: Duration,
    /// One pass over all planes: fit, decomposition, and what they add.
    pub pass: Duration,
    /// How many frames the planes have, and how many points.
    pub frames: usize,
    /// How many points.
    pub points: usize,
}

/// Times the calls of one step of Gauss-Newton.
///
/// # Errors
///
/// What the library refuses.
pub fn measure(seed: u64, way: Way, height: Height) -> Result<Times, Trouble> {
    let mut random = Random::new(seed);
    let pose = |random: &mut Random| Pose::new(random.normals(3.0), random.normals(0.5));
    let poses: Vec<Pose> = (0..POSES).map(|_| pose(&mut random)).collect();
    let seen: Vec<Vec<Vec<Vector>>> = (0..PLANES)
        .map(|plane| patch(plane, &poses, &mut random))
        .collect();

    let (build, pass) = match way {
        Way::Moments => by_moments(&seen, &poses, height)?,
        Way::Points => (Duration::ZERO, by_points(seen, &poses, height)?),
    };
    Ok(Times {
        build,
        pass,
        frames: PLANES * FRAMES,
        points: PLANES * FRAMES * POINTS,
    })
}

/// How long the factors and a pass over them take.
fn by_moments(
    seen: &[Vec<Vec<Vector>>],
    poses: &[Pose],
    height: Height,
) -> Result<(Duration, Duration), Trouble> {
    let start = Instant::now();
    let mut built: Vec<FrameFactor> = Vec::with_capacity(PLANES);
    for frames in seen {
        let own: Result<Vec<Moments>, Refusal> = frames
            .iter()
            .map(|points| Moments::from_points(points))
            .collect();
        built.push(FrameFactor::new(DOF as u32, &own?, None, SIGMA)?);
    }
    let build = start.elapsed();

    let start = Instant::now();
    let mut normal = NormalEquations::zeros(POSES * height.unknowns());
    let map = whole_map(height)?;
    let actions: Vec<Action> = poses.iter().map(Pose::action).collect();
    for (plane, factor) in built.iter().enumerate() {
        let of_plane: Vec<Action> = (0..FRAMES).map(|f| actions[seer(plane, f)]).collect();
        let sums = factor.fit(&of_plane)?;
        let found = lapack::decomposition(&sums.scatter).expect("points of a patch are finite");
        let map = map.remapped(&list(plane)?);
        let transforms = height.transforms((0..FRAMES).map(|f| &poses[seer(plane, f)]))?;
        factor.accumulate_transformed(&of_plane, &found, &map, &transforms, &mut normal)?;
    }
    let pass = start.elapsed();
    are_finite(&normal);
    Ok((build, pass))
}

/// How long a pass over the planes takes, point by point.
fn by_points(
    seen: Vec<Vec<Vec<Vector>>>,
    poses: &[Pose],
    height: Height,
) -> Result<Duration, Trouble> {
    let raw = |frames| RawPlane::new(frames, Vec::new(), SIGMA).map(Equations::Points);
    let planes: Vec<Equations> = seen.into_iter().map(raw).collect::<Result<_, _>>()?;
    let start = Instant::now();
    let mut normal = NormalEquations::zeros(POSES * height.unknowns());
    let map = whole_map(height)?;
    for (plane, equations) in planes.iter().enumerate() {
        let of_plane: Vec<Pose> = (0..FRAMES).map(|f| poses[seer(plane, f)]).collect();
        let map = map.remapped(&list(plane)?);
        equations.add(&of_plane, height, &map, &mut normal)?;
    }
    let pass = start.elapsed();
    are_finite(&normal);
    Ok(pass)
}

/// Where the rows of each pose begin.
fn whole_map(height: Height) -> Result<BlockMap, Refusal> {
    BlockMap::new((0..POSES).map(|pose| Some((pose * height.unknowns()) as u32)))
}

/// The poses that see a plane.
fn list(plane: usize) -> Result<BlockMap, Refusal> {
    BlockMap::new((0..FRAMES).map(|f| Some(seer(plane, f) as u32)))
}

fn are_finite(normal: &NormalEquations) {
    assert!(
        normal.gradient().iter().all(|g| g.is_finite()),
        "finite points give finite blocks"
    );
}

/// The pose that is frame `f` of a plane.
fn seer(plane: usize, f: usize) -> usize {
    (plane + 5 * f) % POSES
}

/// A patch half a metre wide somewhere in the room, as its poses see it.
fn patch(plane: usize, poses: &[Pose], random: &mut Random) -> Vec<Vec<Vector>> {
    let patch = Pose::new(random.normals(4.0), random.normals(1.0));
    let mut point = || {
        [
            random.between(-0.25, 0.25),
            random.between(-0.25, 0.25),
            random.normal(SIGMA),
        ]
    };
    (0..FRAMES)
        .map(|f| {
            let see = |p: Vector| poses[seer(plane, f)].to_frame(&patch.to_site(&p));
            (0..POINTS).map(|_| see(point())).collect()
        })
        .collect()
}
