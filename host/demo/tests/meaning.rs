//! What the numbers mean, beyond their bits: H = JᵀJ and g = Jᵀr, g is the slope of the cost, points and their moments mean the
//! same, locked heights take Tᵀ·H·T and Tᵀ·g and stay, and Gauss-Newton brings the walls down to the noise.

use maghnelt::{
    Action, BlockMap, Bundle, Centred, Decomposition, FrameFactor, Linearized, MatchList, Moments,
    NormalEquations, Plane, PlaneMatch,
};
use maghnelt_demo::adjust::{Adjustment, Progress};
use maghnelt_demo::equations::Way;
use maghnelt_demo::height::Height;
use maghnelt_demo::job::{Job, Station};
use maghnelt_demo::lapack;
use maghnelt_demo::pose::{cross, dot, product, times, turn, Matrix, Pose, Vector, DOF, LEVEL_DOF};
use maghnelt_demo::random::Random;
use maghnelt_demo::room;

const SIGMA: f64 = 0.002;
const UNITS: [Vector; 3] = [[1.0, 0.0, 0.0], [0.0, 1.0, 0.0], [0.0, 0.0, 1.0]];

/// The groups that move points.
#[derive(Clone, Copy, Debug, PartialEq)]
enum Group {
    /// A turn.
    So3,
    /// A shift and a turn.
    Se3,
    /// A shift, a turn and a change of scale.
    Sim3,
    /// A shift, a turn and a velocity, which no point notices.
    Se23,
}

const GROUPS: [Group; 4] = [Group::So3, Group::Se3, Group::Sim3, Group::Se23];

/// A state of any of the groups: `p ↦ A·p + b`, A being a rotation times a scale.
#[derive(Clone, Copy, Debug)]
struct State {
    a: Matrix,
    b: Vector,
}

impl Group {
    fn dof(self) -> usize {
        match self {
            Group::So3 => 3,
            Group::Se3 => 6,
            Group::Sim3 => 7,
            Group::Se23 => 9,
        }
    }

    fn state(self, random: &mut Random) -> State {
        let rotation = turn(random.normals(0.6));
        let scale = if self == Group::Sim3 {
            random.between(0.7, 1.4)
        } else {
            1.0
        };
        State {
            a: rotation.map(|column| column.map(|x| scale * x)),
            b: if self == Group::So3 {
                [0.0; 3]
            } else {
                random.normals(2.0)
            },
        }
    }

    /// The state after a step in its own axes.
    fn moved(self, state: &State, step: &[f64]) -> State {
        let three = |from: usize| -> Vector { std::array::from_fn(|r| step[from + r]) };
        let (shift, about, grown) = match self {
            Group::So3 => ([0.0; 3], three(0), 1.0),
            Group::Se3 | Group::Se23 => (three(0), three(3), 1.0),
            Group::Sim3 => (three(0), three(3), step[6].exp()),
        };
        let along = times(&state.a, &shift);
        State {
            a: product(&state.a, &turn(about)).map(|column| column.map(|x| grown * x)),
            b: std::array::from_fn(|r| state.b[r] + along[r]),
        }
    }

    /// The derivative of `A·p + b` by the step, at no step, a column for each parameter.
    fn derivative(self, state: &State, p: &Vector) -> Vec<Vector> {
        let shifts = state.a.to_vec();
        let turns = UNITS.map(|e| times(&state.a, &cross(&e, p))).to_vec();
        match self {
            Group::So3 => turns,
            Group::Se3 => [shifts, turns].concat(),
            Group::Sim3 => [shifts, turns, vec![times(&state.a, p)]].concat(),
            Group::Se23 => [shifts, turns, vec![[0.0; 3]; 3]].concat(),
        }
    }

    /// The derivative is affine in the point: four of its values say all.
    fn action(self, state: &State) -> Action {
        let origin = self.derivative(state, &[0.0; 3]);
        let axes = UNITS.map(|e| {
            let columns = self.derivative(state, &e).into_iter().zip(&origin);
            let less =
                |(c, o): (Vector, &Vector)| -> Vector { std::array::from_fn(|r| c[r] - o[r]) };
            columns.map(less).collect::<Vec<Vector>>()
        });
        Action::new(&state.a, &state.b, &origin, [&axes[0], &axes[1], &axes[2]])
    }
}

/// A wall that three frames saw, from states that are a little off, and a fixed set.
struct Wall {
    group: Group,
    states: Vec<State>,
    factor: FrameFactor,
    /// The points as each frame saw them, and those of the fixed set.
    seen: Vec<Vec<Vector>>,
    known: Vec<Vector>,
}

impl Wall {
    fn new(group: Group, with_fixed: bool, seed: u64) -> Wall {
        let mut random = Random::new(seed);
        let place = Pose::new(random.normals(3.0), random.normals(1.0));
        let truths: Vec<State> = (0..3).map(|_| group.state(&mut random)).collect();
        let mut points = |count: usize| -> Vec<Vector> {
            let mut on_wall = || {
                [
                    random.between(-2.0, 2.0),
                    random.between(-1.0, 1.0),
                    random.normal(0.004),
                ]
            };
            (0..count).map(|_| place.to_site(&on_wall())).collect()
        };
        let of_frame = |(k, state): (usize, &State)| -> Vec<Vector> {
            let on_wall = points(30 + 7 * k);
            on_wall.iter().map(|p| seen_from(state, p)).collect()
        };
        let seen: Vec<Vec<Vector>> = truths.iter().enumerate().map(of_frame).collect();
        let mut known = points(25);
        if !with_fixed {
            known.clear();
        }
        let moments = |points: &Vec<Vector>| Moments::from_points(points).unwrap();
        let own: Vec<Moments> = seen.iter().map(moments).collect();
        let fixed = with_fixed.then(|| moments(&known));
        let mut off = |state: &State| {
            let step: Vec<f64> = (0..group.dof()).map(|_| random.normal(0.003)).collect();
            group.moved(state, &step)
        };
        Wall {
            group,
            states: truths.iter().map(&mut off).collect(),
            factor: FrameFactor::new(group.dof() as u32, &own, fixed.as_ref(), SIGMA).unwrap(),
            seen,
            known,
        }
    }

    fn actions(&self, states: &[State]) -> Vec<Action> {
        states
            .iter()
            .map(|state| self.group.action(state))
            .collect()
    }

    fn fitted(&self, actions: &[Action]) -> Decomposition {
        let sums = self.factor.fit(actions).unwrap();
        lapack::decomposition(&sums.scatter).unwrap()
    }

    /// The frames and the fixed set.
    fn sets(&self) -> impl Iterator<Item = &Centred> {
        self.factor.frames().iter().chain(self.factor.fixed())
    }

    /// Normal equations and cost, the plane being fitted anew.
    fn accumulated(&self, states: &[State]) -> (NormalEquations, f64) {
        let dof = self.group.dof();
        let actions = self.actions(states);
        let mut normal = NormalEquations::zeros(states.len() * dof);
        let map = BlockMap::new((0..states.len()).map(|f| Some((f * dof) as u32))).unwrap();
        let fitted = self.fitted(&actions);
        let cost = self.factor.accumulate(&actions, &fitted, &map, &mut normal);
        (normal, cost.unwrap())
    }

    /// A row for each point.
    fn point_by_point(&self) -> Linearized {
        match self.group {
            Group::So3 => self.bundled::<3>(),
            Group::Se3 => self.bundled::<6>(),
            Group::Sim3 => self.bundled::<7>(),
            Group::Se23 => self.bundled::<9>(),
        }
    }

    fn bundled<const N: usize>(&self) -> Linearized {
        let mut bundle = Bundle::<N>::new();
        for (state, seen) in self.states.iter().zip(&self.seen) {
            let columns = |p: &Vector| self.group.derivative(state, p).try_into().unwrap();
            bundle.add_frame(seen.iter().map(|p| (carried_by(state, p), columns(p))));
        }
        bundle.add_fixed(self.known.iter().copied());
        let fit = bundle.fit().unwrap();
        let fitted = lapack::decomposition(&fit.scatter).unwrap();
        bundle.linearize(SIGMA, &fitted).unwrap()
    }

    fn linearized(&self) -> Linearized {
        let actions = self.actions(&self.states);
        let of_set = |set: &Centred| lapack::decomposition(&set.scatter()).unwrap();
        let of_frames: Vec<Decomposition> = self.factor.frames().iter().map(of_set).collect();
        let of_fixed = self.factor.fixed().map(of_set);
        let of_fit = self.fitted(&actions);
        let rows = self
            .factor
            .linearize(&actions, &of_fit, &of_frames, of_fixed.as_ref());
        rows.unwrap()
    }
}

/// Where the state carries the point `p`.
fn carried_by(state: &State, p: &Vector) -> Vector {
    let turned = times(&state.a, p);
    std::array::from_fn(|r| turned[r] + state.b[r])
}

/// The point that the state carries to `p`.
fn seen_from(state: &State, p: &Vector) -> Vector {
    let off: Vector = std::array::from_fn(|r| p[r] - state.b[r]);
    // A is a rotation times a scale, so its inverse is its transpose by the square of the scale.
    state
        .a
        .map(|column| dot(&column, &off) / dot(&column, &column))
}

/// Every group, with a fixed set and without, some seeds each.
fn walls() -> impl Iterator<Item = Wall> {
    let of_group = |group| (0..12).map(move |seed| Wall::new(group, seed % 2 == 0, 1000 + seed));
    GROUPS.into_iter().flat_map(of_group)
}

/// H = JᵀJ, g = Jᵀr and cost = rᵀr, each as near as rounding leaves it: `size` is the root of the largest sum of squares that
/// the rows come from.
fn agree(normal: &NormalEquations, cost: f64, rows: &Linearized, size: f64) {
    const ROUNDING: f64 = 1e-13;
    let (n, residual) = (normal.order(), rows.residual());
    let column = |c: usize| &rows.columns()[c * residual.len()..(c + 1) * residual.len()];
    let sum = |a: &[f64], b: &[f64]| -> f64 { a.iter().zip(b).map(|(x, y)| x * y).sum() };
    let stiff = |i: usize| normal.hessian(i, i).sqrt() + size;
    assert!((cost - sum(residual, residual)).abs() <= ROUNDING * size * size);
    for i in 0..n {
        let slope = sum(column(i), residual);
        let off = (normal.gradient()[i] - slope).abs();
        assert!(off <= ROUNDING * stiff(i) * size, "g({i})");
        for j in 0..n {
            let entry = sum(column(i), column(j));
            let off = (normal.hessian(i, j) - entry).abs();
            assert!(off <= ROUNDING * stiff(i) * stiff(j), "H({i},{j})");
        }
    }
}

/// Twice g is the slope of the cost, by central differences: the cost is the sum of squares, and g is Jᵀr. `cost_at` has the cost
/// with one parameter moved.
fn is_slope(normal: &NormalEquations, cost: f64, cost_at: impl Fn(usize, f64) -> f64) {
    const H: f64 = 1e-6;
    for (i, g) in normal.gradient().iter().enumerate() {
        let slope = (cost_at(i, H) - cost_at(i, -H)) / (2.0 * H);
        // By Cauchy and Schwarz no slope is steeper than this.
        let steepest = 2.0 * (normal.hessian(i, i) * cost).sqrt();
        // What rounding does to the two costs.
        let rounded = 1e-11 * cost / H;
        let off = (slope - 2.0 * g).abs();
        assert!(off <= 1e-6 * steepest + rounded, "{i}: {slope} {}", 2.0 * g);
    }
}

#[test]
fn blocks_are_what_the_rows_sum_to() {
    for wall in walls() {
        let (normal, cost) = wall.accumulated(&wall.states);
        // A root of a scatter is off by as much as rounding takes the whole scatter off.
        let trace = |set: &Centred| (0..3).map(|r| set.scatter()[r][r]).sum::<f64>();
        let scatter: f64 = wall.sets().map(trace).sum();
        let size = (cost + scatter / (SIGMA * SIGMA)).sqrt();
        agree(&normal, cost, &wall.linearized(), size);
    }
}

#[test]
fn rows_of_points_sum_to_the_blocks_of_their_moments() {
    for wall in walls() {
        let (normal, cost) = wall.accumulated(&wall.states);
        // Moments are sums of squared coordinates, as the frames see the points, and the site has the fixed ones.
        let points = wall.seen.iter().flatten().chain(&wall.known);
        let squares: f64 = points.map(|p| dot(p, p)).sum();
        let size = (cost + squares / (SIGMA * SIGMA)).sqrt();
        agree(&normal, cost, &wall.point_by_point(), size);
    }
}

#[test]
fn the_gradient_is_the_slope_of_the_cost() {
    for wall in walls() {
        let dof = wall.group.dof();
        let (normal, cost) = wall.accumulated(&wall.states);
        is_slope(&normal, cost, |i, h| {
            let mut step = vec![0.0; dof];
            step[i % dof] = h;
            let mut states = wall.states.clone();
            states[i / dof] = wall.group.moved(&states[i / dof], &step);
            wall.accumulated(&states).1
        });
    }
}

/// The pose with unknown `i` of five moved: its place in plan, or its turn.
fn moved_in_plan(pose: &Pose, i: usize, h: f64) -> Pose {
    let mut moved = *pose;
    match i {
        0 | 1 => moved.shift[i] += h,
        _ => moved.rotation = product(&pose.rotation, &turn(UNITS[i - 2].map(|x| h * x))),
    }
    moved
}

#[test]
fn the_gradient_of_a_job_is_the_slope_of_its_cost() {
    let job = room::job(3, 30);
    let poses = odometry(&job);
    for height in [Height::Free, Height::Locked] {
        let adjustment = Adjustment::new(&job, Way::Moments, height).unwrap();
        let (normal, cost) = adjustment.normal_equations(&job, &poses).unwrap();
        let unknowns = height.unknowns();
        assert_eq!(normal.order(), 30 * unknowns);
        is_slope(&normal, cost, |i, h| {
            let mut poses = poses.clone();
            let pose = &mut poses[i / unknowns];
            *pose = match height {
                Height::Free => {
                    let mut step = [0.0; DOF];
                    step[i % DOF] = h;
                    pose.moved(&step)
                }
                Height::Locked => moved_in_plan(pose, i % LEVEL_DOF, h),
            };
            adjustment.normal_equations(&job, &poses).unwrap().1
        });
    }
}

/// The poses as a job has them.
fn odometry(job: &Job) -> Vec<Pose> {
    job.stations.iter().map(|s| s.pose).collect()
}

/// The columns of a pose's T: the steps in its own axes that shift it along the site's x, along its y, and turn it.
fn level_steps(pose: &Pose) -> [[f64; DOF]; LEVEL_DOF] {
    let turned = Pose {
        shift: [0.0; 3],
        ..*pose
    };
    let shift = |axis: &Vector| {
        let [x, y, z] = turned.to_frame(axis);
        [x, y, z, 0.0, 0.0, 0.0]
    };
    let about = UNITS.map(|[x, y, z]| [0.0, 0.0, 0.0, x, y, z]);
    [
        shift(&UNITS[0]),
        shift(&UNITS[1]),
        about[0],
        about[1],
        about[2],
    ]
}

/// The block of pose `k` in normal equations of so many unknowns a pose.
fn block(normal: &NormalEquations, unknowns: usize, k: usize) -> Vec<f64> {
    let from = unknowns * k;
    let column = |c: usize| (0..unknowns).map(move |r| normal.hessian(from + r, from + c));
    (0..unknowns).flat_map(column).collect()
}

#[test]
fn locked_heights_take_the_whole_equations_through_t() {
    for job in [room::job(3, 30), room::trolley_job(60, 12)] {
        let [whole, locked] = [Height::Free, Height::Locked]
            .map(|height| Adjustment::new(&job, Way::Moments, height).unwrap());
        for poses in [
            odometry(&job),
            settled(&job, Way::Moments, Height::Locked).0,
        ] {
            let (full, cost) = whole.normal_equations(&job, &poses).unwrap();
            let (normal, same) = locked.normal_equations(&job, &poses).unwrap();
            assert_eq!(same.to_bits(), cost.to_bits());
            assert_eq!(normal.order(), poses.len() * LEVEL_DOF);
            // A term goes through six rounded products and sums for each factor T, here and in the library, and through one sum
            // for each plane on either side.
            let most = (24 + 2 * whole.planes.len()) as f64 * f64::EPSILON;
            for (k, pose) in poses.iter().enumerate() {
                through_t(&full, &normal, k, &level_steps(pose), (cost, most));
            }
        }
    }
}

/// Block and vector of pose `k` are Tᵀ·M·T and Tᵀ·v, as near as `most` of the sizes of what they sum up. By Cauchy and Schwarz
/// what the planes add to a cell of M, and to one of v, is no more in all than the roots of the diagonal's cells, and of the cost,
/// give.
fn through_t(
    full: &NormalEquations,
    normal: &NormalEquations,
    k: usize,
    t: &[[f64; DOF]; LEVEL_DOF],
    (cost, most): (f64, f64),
) {
    let (m, found) = (block(full, DOF, k), block(normal, LEVEL_DOF, k));
    let v = &full.gradient()[DOF * k..][..DOF];
    let sum = |f: &dyn Fn(usize) -> f64| -> f64 { (0..DOF).map(f).sum() };
    let size = |i: usize| sum(&|r| t[i][r].abs() * m[DOF * r + r].sqrt());
    for i in 0..LEVEL_DOF {
        let g = sum(&|r| t[i][r] * v[r]);
        let off = (normal.gradient()[LEVEL_DOF * k + i] - g).abs();
        assert!(off <= most * size(i) * cost.sqrt(), "g({i}) of {k}: {off}");
        for j in 0..LEVEL_DOF {
            let h = sum(&|c| sum(&|r| t[i][r] * m[DOF * c + r]) * t[j][c]);
            let off = (found[LEVEL_DOF * j + i] - h).abs();
            assert!(off <= most * size(i) * size(j), "H({i},{j}) of {k}: {off}");
        }
    }
}

/// Matches of points with planes through them, under a state that is a little off.
struct Scan {
    group: Group,
    state: State,
    matches: MatchList,
}

impl Scan {
    /// More than one group of 512.
    fn new(group: Group, seed: u64) -> Scan {
        let mut random = Random::new(seed);
        let truth = group.state(&mut random);
        let mut one = || {
            let place = random.normals(3.0);
            let plane = Plane::new(random.normals(1.0), 0.0).unwrap();
            let off = random.normal(0.004) - dot(&plane.normal, &place);
            PlaneMatch {
                point: seen_from(&truth, &place),
                plane: Plane {
                    normal: plane.normal,
                    offset: off,
                },
                sigma: random.between(0.001, 0.003),
            }
        };
        let matches: Vec<PlaneMatch> = (0..700).map(|_| one()).collect();
        let step: Vec<f64> = (0..group.dof()).map(|_| random.normal(0.003)).collect();
        Scan {
            group,
            state: group.moved(&truth, &step),
            matches: MatchList::new(group.dof() as u32, matches),
        }
    }

    fn accumulated(&self, state: &State) -> (NormalEquations, f64) {
        let mut normal = NormalEquations::zeros(self.group.dof());
        let map = BlockMap::new([Some(0)]).unwrap();
        let action = self.group.action(state);
        let cost = self.matches.accumulate(&action, &map, &mut normal).unwrap();
        (normal, cost)
    }
}

#[test]
fn matches_mean_the_same() {
    for group in GROUPS {
        for seed in 0..6 {
            let scan = Scan::new(group, seed);
            let (normal, cost) = scan.accumulated(&scan.state);
            let rows = scan.matches.linearize(&group.action(&scan.state)).unwrap();
            agree(&normal, cost, &rows, cost.sqrt());
            is_slope(&normal, cost, |i, h| {
                let mut step = vec![0.0; group.dof()];
                step[i] = h;
                scan.accumulated(&group.moved(&scan.state, &step)).1
            });
        }
    }
}

/// The poses of a job after its adjustment, and its steps.
fn settled(job: &Job, way: Way, height: Height) -> (Vec<Pose>, Vec<Progress>) {
    let mut steps = Vec::new();
    let adjustment = Adjustment::new(job, way, height).unwrap();
    let poses = adjustment.settle(job, |_, now| steps.push(*now)).unwrap();
    (poses, steps)
}

#[test]
fn walls_come_down_to_the_noise() {
    for (seed, poses) in [(60, 30), (1, 30), (2, 10), (3, 3), (4, 60)] {
        for (job, height) in [
            (room::job(seed, poses), Height::Free),
            (room::trolley_job(seed, poses), Height::Locked),
        ] {
            let (_, steps) = settled(&job, Way::Moments, height);
            let (first, last) = (steps[0], steps[steps.len() - 1]);
            assert!(
                first.thickness > 2.0 * room::NOISE,
                "seed {seed}: {first:?}"
            );
            assert!(is_noise(last.thickness), "seed {seed}: {last:?}");
            let (metres, radians) = last.worst.unwrap();
            assert!(metres < 0.002 && radians < 0.001, "seed {seed}: {last:?}");
            assert!(steps.len() < 60, "seed {seed} did not settle");
            for pair in steps.windows(2) {
                assert!(pair[1].cost <= pair[0].cost, "seed {seed}: the cost rose");
            }
        }
    }
}

/// Whether walls are as thick as the room's noise makes them.
fn is_noise(thickness: f64) -> bool {
    (thickness / room::NOISE - 1.0).abs() < 0.02
}

/// That no height moved by a bit, and that poses moved all the same.
fn kept_their_heights(job: &Job, poses: &[Pose]) {
    for (pose, before) in poses.iter().zip(odometry(job)) {
        assert_eq!(pose.shift[2].to_bits(), before.shift[2].to_bits());
        assert_ne!(pose.rotation, before.rotation);
    }
    let last = poses.len() - 1;
    let off = poses[last].distance(&job.stations[last].pose).0;
    assert!(off > 0.001, "{off}");
}

#[test]
fn locked_heights_stay_and_the_walls_get_as_thin_as_without() {
    for (seed, poses) in [(60, 30), (1, 30), (2, 10), (3, 3), (4, 60)] {
        let job = room::trolley_job(seed, poses);
        let [(_, free), (locked, steps)] =
            [Height::Free, Height::Locked].map(|height| settled(&job, Way::Moments, height));
        let (free, last) = (free[free.len() - 1], steps[steps.len() - 1]);
        kept_their_heights(&job, &locked);
        assert!(steps.iter().all(|now| now.lifted == 0.0));
        // Far more than rounding, and far less than a wall is thick.
        assert!((1e-6..0.001).contains(&free.lifted), "{free:?}");
        // A height that is free takes up the noise of one number of variance 1. So many squares, one for each pose, have a sum of
        // their number, and a variance of twice that; both adjustments stop a little above the least cost.
        let number = poses as f64;
        let (rise, stop) = (last.cost - free.cost, 1e-5 * free.cost);
        let likely = -stop..number + 6.0 * (2.0 * number).sqrt() + stop;
        assert!(likely.contains(&rise), "seed {seed}: {rise}");
    }
}

#[test]
fn without_known_points_the_first_pose_stays() {
    let job = unanchored(room::job(5, 12));
    let (poses, steps) = settled(&job, Way::Moments, Height::Free);
    let last = steps[steps.len() - 1];
    let (metres, radians) = poses[0].distance(&job.stations[0].pose);
    assert!(metres < 1e-12 && radians < 1e-12);
    assert_ne!(poses[1], job.stations[1].pose);
    assert!(is_noise(last.thickness), "{last:?}");
}

#[test]
fn without_known_points_locked_heights_stay_and_so_does_the_first_place() {
    let mut job = unanchored(room::trolley_job(5, 12));
    for station in &mut job.stations {
        // At the scanner's own height a site may begin too, and a zero shows the least rounding.
        station.pose.shift[2] = 0.0;
    }
    let (poses, steps) = settled(&job, Way::Moments, Height::Locked);
    let last = steps[steps.len() - 1];
    kept_their_heights(&job, &poses);
    let [now, before] = [poses[0], job.stations[0].pose];
    assert!((0..2).all(|r| (now.shift[r] - before.shift[r]).abs() < 1e-12));
    // The heading stays, and the tilt is adjusted: the turn that is left is about an axis that is level.
    let [x, y, _] = now.after(&before.inverse()).rotation;
    assert!((x[1] - y[0]).abs() < 1e-12);
    assert_ne!(poses[1], job.stations[1].pose);
    assert!(is_noise(last.thickness), "{last:?}");
}

/// The job without what is known in the site.
fn unanchored(mut job: Job) -> Job {
    for surface in &mut job.surfaces {
        surface.fixed.clear();
    }
    job
}

/// How far off the sums over a plane's points may be, as a part of the sizes of what they sum up: a sum of N rounded terms is off by
/// N·ε of these at the worst, and N is at most the points of the largest plane.
fn rounding(adjustment: &Adjustment) -> f64 {
    let points = adjustment.planes.iter().map(|p| p.equations.points());
    points.fold(0.0, f64::max) * f64::EPSILON
}

/// The squared distances of points from where they are measured from, in units of sigma.
fn squares(job: &Job, points: impl Iterator<Item = Vector>) -> f64 {
    points.map(|p| dot(&p, &p)).sum::<f64>() / (job.sigma * job.sigma)
}

/// How far a pose goes if a step is off by all that it is made of, the most of all poses. A step is H⁻¹·g; what g sums up for a pose
/// are products of two coordinates of a point, as the frame sees it or in the site, over sigma squared, and the pose gives way most
/// in its softest direction.
fn whole_step(job: &Job, normal: &NormalEquations, poses: &[Pose]) -> f64 {
    let unknowns = normal.order() / poses.len();
    let of_pose = |(k, pose): (usize, &Pose)| {
        let seen = || job.stations[k].points.iter().map(|(_, p)| *p);
        let in_site = seen().map(|p| pose.to_site(&p));
        let (stiffness, _) = lapack::symmetric_eigen(unknowns, block(normal, unknowns, k)).unwrap();
        squares(job, seen().chain(in_site)) / stiffness[0]
    };
    poses.iter().enumerate().map(of_pose).fold(0.0, f64::max)
}

#[test]
fn point_by_point_the_poses_end_where_moments_take_them() {
    for (job, height) in [
        (room::job(60, 30), Height::Free),
        (room::job(3, 3), Height::Free),
        (unanchored(room::job(5, 12)), Height::Free),
        (room::trolley_job(60, 30), Height::Locked),
        (unanchored(room::trolley_job(5, 12)), Height::Locked),
    ] {
        let (by_moments, steps) = settled(&job, Way::Moments, height);
        let (by_points, again) = settled(&job, Way::Points, height);
        assert_eq!(again.len(), steps.len());

        let adjustment = Adjustment::new(&job, Way::Points, height).unwrap();
        let (normal, _) = adjustment.normal_equations(&job, &by_points).unwrap();
        // Steps close in, so that none makes larger what those before it were off.
        let off = rounding(&adjustment) * whole_step(&job, &normal, &by_points);
        let most = steps.len() as f64 * off;
        // Metres and radians, far below what the scanner's noise leaves.
        assert!(most < 1e-3 * room::NOISE, "{most}");
        for (a, b) in by_moments.iter().zip(&by_points) {
            let (metres, radians) = a.distance(b);
            assert!(metres <= most && radians <= most, "{metres} {radians}");
        }
    }
}

/// The job with one of so many points.
fn thinned(mut job: Job, one_of: usize) -> Job {
    for surface in &mut job.surfaces {
        surface.fixed = surface.fixed.iter().copied().step_by(one_of).collect();
    }
    for station in &mut job.stations {
        station.points = station.points.iter().copied().step_by(one_of).collect();
    }
    job
}

#[test]
fn the_points_of_a_job_add_what_their_moments_add() {
    for (job, height) in [
        (thinned(room::job(60, 30), 7), Height::Free),
        (thinned(room::job(2, 10), 5), Height::Free),
        (thinned(room::job(60, 30), 7), Height::Locked),
    ] {
        let [by_moments, by_points] =
            [Way::Moments, Way::Points].map(|way| Adjustment::new(&job, way, height).unwrap());
        for poses in [odometry(&job), settled(&job, Way::Points, height).0] {
            // Cost, g and H sum up products of two coordinates of a point, as a frame sees it or in the site, over sigma squared.
            let own = |(s, pose): (&Station, &Pose)| -> Vec<Vector> {
                let both = |(_, p): &(usize, Vector)| [*p, pose.to_site(p)];
                s.points.iter().flat_map(both).collect()
            };
            let seen = job.stations.iter().zip(&poses).flat_map(own);
            let known = job.surfaces.iter().flat_map(|s| &s.fixed).copied();
            let most = rounding(&by_points) * squares(&job, seen.chain(known));
            // A point costs 1 where it is sigma off: one more or less would be seen.
            assert!(most < 0.5, "{most}");

            let (normal, cost) = by_moments.normal_equations(&job, &poses).unwrap();
            let (again, sum) = by_points.normal_equations(&job, &poses).unwrap();
            let near = |a: &f64, b: &f64| (a - b).abs() <= most;
            assert!(near(&cost, &sum), "{cost} {sum}");
            let numbers = normal.gradient().iter().chain(normal.columns());
            let others = again.gradient().iter().chain(again.columns());
            for (place, (a, b)) in numbers.zip(others).enumerate() {
                assert!(near(a, b), "{place}: {a} {b}");
            }
        }
    }
}
