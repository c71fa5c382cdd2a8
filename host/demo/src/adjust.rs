//! Gauss-Newton over the planes: the poses are moved until the walls are as thin as they get.

use crate::equations::{Equations, RawPlane, Trouble, Way};
use crate::height::Height;
use crate::job::{moments, Job};
use crate::lapack;
use crate::pose::{Pose, Vector, DOF};
use maghnelt::{BlockMap, FrameFactor, Moments, NormalEquations};
use std::fmt;

/// The most steps that are taken.
const MOST_STEPS: usize = 60;
/// The cost has settled when a step changes it by less than this part.
const SETTLED: f64 = 1e-6;
/// A pose is held by what it sees if the stiffness of its softest direction is above this part of the stiffest's.
const LEAST_STIFFNESS: f64 = 1e-5;

/// One surface as the adjustment has it.
#[derive(Clone, Debug)]
pub struct PlaneFactor {
    /// The surface's number in the job.
    pub surface: usize,
    /// The poses that saw it.
    pub poses: Vec<usize>,
    /// What each of them saw, as it saw it.
    pub own: Vec<Moments>,
    /// What it adds to the normal equations.
    pub equations: Equations,
    /// Where the rows of each pose begin in the Hessian.
    pub map: BlockMap,
}

/// A job as the adjustment has it.
#[derive(Clone, Debug)]
pub struct Adjustment {
    /// The planes.
    pub planes: Vec<PlaneFactor>,
    /// The points in them.
    pub points: f64,
    /// The surfaces that say nothing about the poses: each was seen from one place only.
    pub unused: Vec<usize>,
    /// Where the rows of each pose of the job begin.
    map: BlockMap,
    rows: usize,
    /// Whether points that are known say where the site is.
    anchored: bool,
    sigma: f64,
    way: Way,
    height: Height,
}

/// How things stand after some steps.
#[derive(Clone, Copy, Debug, PartialEq)]
pub struct Progress {
    /// The squared distances of all points from their planes, in units of sigma.
    pub cost: f64,
    /// The root of the mean squared distance, in metres.
    pub thickness: f64,
    /// How far off the worst pose is, in metres and in radians, where the truth is known.
    pub worst: Option<(f64, f64)>,
    /// How far the height of a pose is from the one that the job gives it, the most of all poses, in metres.
    pub lifted: f64,
}

/// Why there is no adjustment.
#[derive(Clone, Debug, PartialEq)]
pub enum Failure {
    /// A surface has no equations.
    Surface {
        /// The surface's name.
        surface: String,
        /// Why.
        trouble: Trouble,
    },
    /// No two poses saw the same surface.
    NothingShared,
    /// A pose could slide or turn without a surface to notice.
    Loose {
        /// The number of the pose, from 1.
        pose: usize,
        /// Whether its height is one of the things to be held.
        height: Height,
    },
}

impl fmt::Display for Failure {
    fn fmt(&self, f: &mut fmt::Formatter<'_>) -> fmt::Result {
        match self {
            Failure::Surface { surface, trouble } => write!(f, "surface {surface:?}: {trouble}"),
            Failure::NothingShared => {
                f.write_str("no surface was seen twice, so nothing ties the poses together")
            }
            Failure::Loose { pose, height } => {
                let floor = match height {
                    Height::Free => "a floor and ",
                    Height::Locked => "",
                };
                write!(
                    f,
                    "pose {pose} is not held by the surfaces it saw: {floor}two walls that meet are needed"
                )
            }
        }
    }
}

impl std::error::Error for Failure {}

impl Adjustment {
    /// Takes what each pose saw of each surface, and has the planes' equations made that way, with heights free or locked.
    ///
    /// # Errors
    ///
    /// If no surface was seen twice, the library refuses one, or one has too many points for that way.
    pub fn new(job: &Job, way: Way, height: Height) -> Result<Adjustment, Failure> {
        let poses = job.stations.len();
        let offsets = (0..poses).map(|pose| Some((pose * height.unknowns()) as u32));
        let mut adjustment = Adjustment {
            planes: Vec::new(),
            points: 0.0,
            unused: Vec::new(),
            map: BlockMap::new(offsets).expect("a job has few poses"),
            rows: poses * height.unknowns(),
            anchored: job.points().1 > 0,
            sigma: job.sigma,
            way,
            height,
        };
        for (surface, frames) in job.seen().into_iter().enumerate() {
            let added = adjustment.add(job, surface, frames);
            added.map_err(|trouble| of_surface(job, surface, trouble))?;
        }
        if adjustment.planes.is_empty() {
            return Err(Failure::NothingShared);
        }
        Ok(adjustment)
    }

    fn add(
        &mut self,
        job: &Job,
        surface: usize,
        frames: Vec<(usize, Vec<Vector>)>,
    ) -> Result<(), Trouble> {
        let (poses, points): (Vec<usize>, Vec<Vec<Vector>>) = frames.into_iter().unzip();
        let own = points.iter().map(|p| moments(p));
        let own: Vec<Moments> = own.collect::<Result<_, _>>()?;
        let known = &job.surfaces[surface].fixed;
        if poses.is_empty() || poses.len() + usize::from(!known.is_empty()) < 2 {
            self.unused.push(surface);
            return Ok(());
        }
        let equations = match self.way {
            Way::Moments => {
                let fixed = moments(known)?;
                let fixed = (!known.is_empty()).then_some(&fixed);
                Equations::Moments(FrameFactor::build_strict(
                    DOF as u32, &own, fixed, self.sigma,
                )?)
            }
            Way::Points => Equations::Points(RawPlane::new(points, known.clone(), self.sigma)?),
        };
        let list = BlockMap::new(poses.iter().map(|&pose| Some(pose as u32)))?;
        self.points += equations.points();
        self.planes.push(PlaneFactor {
            surface,
            map: self.map.remapped(&list),
            poses,
            own,
            equations,
        });
        Ok(())
    }

    /// Moves the poses until the cost has settled, and says before the first step and after each how things stand.
    ///
    /// # Errors
    ///
    /// If a pose is not held by what it saw, or a plane has no equations.
    pub fn settle(
        &self,
        job: &Job,
        mut say: impl FnMut(usize, &Progress),
    ) -> Result<Vec<Pose>, Failure> {
        let mut poses: Vec<Pose> = job.stations.iter().map(|s| s.pose).collect();
        let mut before = f64::INFINITY;
        for step in 0..=MOST_STEPS {
            let (normal, cost) = self.normal_equations(job, &poses)?;
            say(step, &self.progress(job, &poses, cost));
            if before - cost <= SETTLED * cost {
                break;
            }
            before = cost;
            if let Some(loose) = self.loose(&normal) {
                return Err(loose);
            }
            let right = normal.gradient().iter().map(|g| -g).collect();
            let moves =
                lapack::solve(normal.columns().to_vec(), right).expect("each block is stiff");
            self.step(job, &mut poses, &moves);
        }
        Ok(poses)
    }

    /// Moves each pose by its part of a step.
    fn step(&self, job: &Job, poses: &mut [Pose], moves: &[f64]) {
        let first = poses[0];
        let own = moves.chunks_exact(self.height.unknowns());
        for (pose, own) in poses.iter_mut().zip(own) {
            *pose = self.height.moved(pose, own);
        }
        // Without known points nothing says where the site is: all poses together go back to where the first one stood. To hold
        // the first one during the step would be right too, but the others would close up to it only little by little.
        if !self.anchored {
            let back = match self.height {
                Height::Free => first.after(&poses[0].inverse()),
                // To take its tilt back would move the others' heights. From the job's own pose, as tilts one after the other
                // would leave a turn.
                Height::Locked => poses[0].level_way_to(&job.stations[0].pose),
            };
            for pose in &mut *poses {
                *pose = back.after(pose);
            }
        }
        // What rounding does to heights that are locked would add up from step to step.
        if self.height == Height::Locked {
            for (pose, station) in poses.iter_mut().zip(&job.stations) {
                pose.shift[2] = station.pose.shift[2];
            }
        }
    }

    /// The normal equations and the cost at these poses: what each plane adds.
    ///
    /// # Errors
    ///
    /// If a plane has no equations.
    pub fn normal_equations(
        &self,
        job: &Job,
        poses: &[Pose],
    ) -> Result<(NormalEquations, f64), Failure> {
        let mut normal = NormalEquations::zeros(self.rows);
        let mut cost = 0.0;
        for plane in &self.planes {
            let at: Vec<Pose> = plane.poses.iter().map(|&p| poses[p]).collect();
            let added = plane
                .equations
                .add(&at, self.height, &plane.map, &mut normal);
            cost += added.map_err(|trouble| of_surface(job, plane.surface, trouble))?;
        }
        Ok((normal, cost))
    }

    fn progress(&self, job: &Job, poses: &[Pose], cost: f64) -> Progress {
        let mut worst: Option<(f64, f64)> = None;
        let mut lifted: f64 = 0.0;
        for (station, pose) in job.stations.iter().zip(poses) {
            lifted = lifted.max((pose.shift[2] - station.pose.shift[2]).abs());
            if let Some(truth) = &station.truth {
                let (metres, radians) = truth.distance(pose);
                let (most, widest) = worst.unwrap_or_default();
                worst = Some((most.max(metres), widest.max(radians)));
            }
        }
        Progress {
            cost,
            thickness: self.sigma * (cost / self.points).sqrt(),
            worst,
            lifted,
        }
    }

    /// The first pose that is not held. A plane adds to the block of each pose alone, so that the blocks tell.
    fn loose(&self, normal: &NormalEquations) -> Option<Failure> {
        let unknowns = self.height.unknowns();
        let is_loose = |offset: usize| {
            let column = |c| (0..unknowns).map(move |r| normal.hessian(offset + r, offset + c));
            let block: Vec<f64> = (0..unknowns).flat_map(column).collect();
            let held = |(values, _): (Vec<f64>, Vec<f64>)| {
                values[0] > LEAST_STIFFNESS * values[unknowns - 1]
            };
            !lapack::symmetric_eigen(unknowns, block).is_some_and(held)
        };
        let loose = (0..self.rows).step_by(unknowns).position(is_loose);
        loose.map(|pose| Failure::Loose {
            pose: pose + 1,
            height: self.height,
        })
    }
}

fn of_surface(job: &Job, surface: usize, trouble: Trouble) -> Failure {
    Failure::Surface {
        surface: job.surfaces[surface].name.clone(),
        trouble,
    }
}
