//! A job: where the scanner thinks it stood, and what it saw from there.
//!
//! As a file it is text, a line for each thing, its parts between commas; README.md describes it.

use crate::pose::{Pose, Vector};
use maghnelt::{Moments, Refusal, MAX_POINTS};
use std::collections::HashMap;
use std::fmt;
use std::fmt::Write as _;

/// The most poses of a job: six unknowns each in a Hessian of at most 1,024 rows. More would go in with their heights locked,
/// but then a job could not be adjusted without the lock.
pub const MAX_POSES: usize = 170;

/// The scanner's noise where a job does not name it, in metres.
const SIGMA: f64 = 0.002;

/// A job.
#[derive(Clone, Debug, Default, PartialEq)]
pub struct Job {
    /// The walls, floors and the like that points lie on.
    pub surfaces: Vec<Surface>,
    /// The poses in the order of the walk.
    pub stations: Vec<Station>,
    /// The scanner's noise: the standard deviation of a point's distance from its surface, in metres.
    pub sigma: f64,
    /// The surfaces' numbers by their names.
    numbers: HashMap<String, usize>,
}

/// A surface.
#[derive(Clone, Debug, Default, PartialEq)]
pub struct Surface {
    /// What the job calls it.
    pub name: String,
    /// Points of it that are known in the site.
    pub fixed: Vec<Vector>,
}

/// A pose and what was seen from it.
#[derive(Clone, Debug, PartialEq)]
pub struct Station {
    /// The pose as odometry has it.
    pub pose: Pose,
    /// The pose as it was, where somebody knows it.
    pub truth: Option<Pose>,
    /// The points as the scanner saw them, each with its surface.
    pub points: Vec<(usize, Vector)>,
}

/// Why a file is not a job.
#[derive(Clone, Debug, PartialEq, Eq)]
pub struct JobError {
    line: Option<usize>,
    what: String,
}

impl JobError {
    fn whole(what: impl Into<String>) -> JobError {
        JobError {
            line: None,
            what: what.into(),
        }
    }
}

impl fmt::Display for JobError {
    fn fmt(&self, f: &mut fmt::Formatter<'_>) -> fmt::Result {
        match self.line {
            Some(line) => write!(f, "line {line}: {}", self.what),
            None => f.write_str(&self.what),
        }
    }
}

impl std::error::Error for JobError {}

impl Job {
    /// A job with nothing in it yet, of a scanner with that noise.
    #[must_use]
    pub fn new(sigma: f64) -> Job {
        Job {
            sigma,
            ..Job::default()
        }
    }

    /// The job that a text describes.
    ///
    /// # Errors
    ///
    /// The first line that can't be read, or what the job is short of.
    pub fn read(text: &str) -> Result<Job, JobError> {
        let mut job = Job::new(SIGMA);
        for (number, line) in (1..).zip(text.lines()) {
            job.read_line(line).map_err(|what| JobError {
                line: Some(number),
                what,
            })?;
        }
        job.checked()
    }

    fn read_line(&mut self, line: &str) -> Result<(), String> {
        let line = line.split('#').next().unwrap_or_default();
        let parts: Vec<&str> = line.split(',').map(str::trim).collect();
        let (kind, rest) = (parts[0], &parts[1..]);
        match kind {
            "" if rest.is_empty() => {}
            "sigma" => {
                let [sigma] = numbers(rest, "sigma needs one number: sigma,METRES")?;
                if sigma <= 0.0 {
                    return Err(format!("sigma has to be above 0, and is {sigma}"));
                }
                self.sigma = sigma;
            }
            "pose" => self.stations.push(Station {
                pose: pose(rest, "a pose needs six numbers: pose,X,Y,Z,YAW,PITCH,ROLL")?,
                truth: None,
                points: Vec::new(),
            }),
            "truth" => {
                let truth = pose(
                    rest,
                    "a truth needs six numbers: truth,X,Y,Z,YAW,PITCH,ROLL",
                )?;
                let last = self.stations.last_mut();
                last.ok_or("a truth comes after its pose")?.truth = Some(truth);
            }
            "point" => {
                let (surface, point) = self.on_surface(rest, "point,SURFACE,X,Y,Z")?;
                let last = self.stations.last_mut();
                let last = last.ok_or("a point comes after the pose that saw it")?;
                last.points.push((surface, point));
            }
            "fixed" => {
                let (surface, point) = self.on_surface(rest, "fixed,SURFACE,X,Y,Z")?;
                self.surfaces[surface].fixed.push(point);
            }
            _ => {
                return Err(format!(
                    "a line begins with pose, truth, point, fixed or sigma, not with {kind:?}"
                ))
            }
        }
        Ok(())
    }

    fn on_surface(&mut self, parts: &[&str], form: &str) -> Result<(usize, Vector), String> {
        let needed = format!("a surface and three numbers are needed: {form}");
        let (name, rest) = parts.split_first().ok_or(&needed)?;
        if name.is_empty() {
            return Err(needed);
        }
        Ok((self.surface(name), numbers(rest, &needed)?))
    }

    /// The number of the surface of that name, a new one if there is none yet.
    pub fn surface(&mut self, name: &str) -> usize {
        if let Some(&number) = self.numbers.get(name) {
            return number;
        }
        let number = self.surfaces.len();
        self.numbers.insert(name.to_owned(), number);
        self.surfaces.push(Surface {
            name: name.to_owned(),
            fixed: Vec::new(),
        });
        number
    }

    fn checked(self) -> Result<Job, JobError> {
        let poses = self.stations.len();
        if poses == 0 {
            return Err(JobError::whole("the job has no pose"));
        }
        if poses > MAX_POSES {
            return Err(JobError::whole(format!(
                "the job has {poses} poses, and {MAX_POSES} are the most that one Hessian holds"
            )));
        }
        if let Some(empty) = self.stations.iter().position(|s| s.points.is_empty()) {
            return Err(JobError::whole(format!("pose {} saw no point", empty + 1)));
        }
        Ok(self)
    }

    /// The text of the job, so that reading it gives the job again, to the micrometre.
    #[must_use]
    pub fn write(&self) -> String {
        let mut text = format!("sigma,{}\n", self.sigma);
        let mut line = |kind: &str, name: Option<&str>, numbers: &[f64]| {
            text.push_str(kind);
            if let Some(name) = name {
                text.push(',');
                text.push_str(name);
            }
            for number in numbers {
                write!(text, ",{number:.6}").expect("a string takes whatever is written");
            }
            text.push('\n');
        };
        for surface in &self.surfaces {
            for point in &surface.fixed {
                line("fixed", Some(&surface.name), point);
            }
        }
        for station in &self.stations {
            line("pose", None, &six(&station.pose));
            if let Some(truth) = &station.truth {
                line("truth", None, &six(truth));
            }
            for (surface, point) in &station.points {
                line("point", Some(&self.surfaces[*surface].name), point);
            }
        }
        text
    }

    /// What each surface's poses saw of it: the number of the pose and its points, as it saw them.
    #[must_use]
    pub fn seen(&self) -> Vec<Vec<(usize, Vec<Vector>)>> {
        let mut seen: Vec<Vec<(usize, Vec<Vector>)>> = vec![Vec::new(); self.surfaces.len()];
        for (pose, station) in self.stations.iter().enumerate() {
            for (surface, point) in &station.points {
                let frames = &mut seen[*surface];
                match frames.last_mut() {
                    Some((last, points)) if *last == pose => points.push(*point),
                    _ => frames.push((pose, vec![*point])),
                }
            }
        }
        seen
    }

    /// How many points the walk saw, and how many are known in the site.
    #[must_use]
    pub fn points(&self) -> (usize, usize) {
        (
            self.stations.iter().map(|s| s.points.len()).sum(),
            self.surfaces.iter().map(|s| s.fixed.len()).sum(),
        )
    }
}

/// The moments of any number of points: a call takes so many, and sets are merged.
///
/// # Errors
///
/// What the library refuses.
pub fn moments(points: &[Vector]) -> Result<Moments, Refusal> {
    let mut all = Moments::EMPTY;
    for part in points.chunks(MAX_POINTS) {
        all.merge(&Moments::from_points(part)?)?;
    }
    Ok(all)
}

fn numbers<const N: usize>(parts: &[&str], needed: &str) -> Result<[f64; N], String> {
    if parts.len() != N {
        return Err(needed.to_owned());
    }
    let mut numbers = [0.0f64; N];
    for (number, part) in numbers.iter_mut().zip(parts) {
        *number = part
            .parse()
            .map_err(|_| format!("{part:?} is no number; {needed}"))?;
        if !number.is_finite() {
            return Err(format!("{part} is not finite"));
        }
    }
    Ok(numbers)
}

fn pose(parts: &[&str], needed: &str) -> Result<Pose, String> {
    let [x, y, z, yaw, pitch, roll] = numbers(parts, needed)?;
    Ok(Pose::new(
        [x, y, z],
        [yaw, pitch, roll].map(f64::to_radians),
    ))
}

/// The six numbers of a pose's line.
fn six(pose: &Pose) -> [f64; 6] {
    let [a, b, c] = pose.rotation;
    let pitch = (-a[2]).atan2(a[0].hypot(a[1]));
    let (yaw, roll) = (a[1].atan2(a[0]), b[2].atan2(c[2]));
    let [x, y, z] = pose.shift;
    let [yaw, pitch, roll] = [yaw, pitch, roll].map(f64::to_degrees);
    [x, y, z, yaw, pitch, roll]
}
