//! A job made of a seed: a room with a cut corner and an alcove, a way through it on a back or on a trolley, and two scans from
//! known marks.

use crate::job::{Job, Station};
use crate::pose::{Pose, Vector};
use crate::random::Random;

/// The walls in plan, in metres. The north wall goes on beyond the alcove.
pub const WALLS: [(&str, [f64; 2], [f64; 2]); 9] = [
    ("south wall", [0.0, 0.0], [9.0, 0.0]),
    ("east wall", [9.0, 0.0], [9.0, 6.0]),
    ("north wall", [9.0, 6.0], [7.6, 6.0]),
    ("alcove right", [7.6, 6.0], [7.6, 7.5]),
    ("alcove wall", [7.6, 7.5], [5.2, 7.5]),
    ("alcove left", [5.2, 7.5], [5.2, 6.0]),
    ("north wall", [5.2, 6.0], [1.4, 6.0]),
    ("cut corner", [1.4, 6.0], [0.0, 4.6]),
    ("west wall", [0.0, 4.6], [0.0, 0.0]),
];
/// The wall whose story is told.
pub const STORY_WALL: &str = "alcove wall";
const FLOOR: &str = "floor";
const HEIGHT: f64 = 2.6;

/// The scanner's noise, in metres.
pub const NOISE: f64 = 0.002;

/// Where the walk leads.
const WAYPOINTS: [[f64; 2]; 11] = [
    [1.3, 1.1],
    [4.2, 1.3],
    [7.4, 1.2],
    [7.7, 3.2],
    [6.7, 4.8],
    [6.4, 6.5],
    [5.9, 5.0],
    [4.2, 4.3],
    [2.2, 4.5],
    [1.3, 3.4],
    [2.6, 2.6],
];
/// Marks of the survey, with a scan from a tripod on each: what is known in the site before the walk.
pub const MARKS: [Vector; 2] = [[2.9, 3.4, 1.5], [6.4, 5.7, 1.5]];

/// Rings and spokes of the scanner that is carried, and of the tripod's.
const CARRIED: (usize, usize) = (20, 72);
const TRIPOD: (usize, usize) = (90, 240);

/// How high the scanner is carried above the floor, in metres.
pub const CARRIED_AT: f64 = 1.55;

/// What carries the scanner.
#[derive(Clone, Copy)]
struct Carrier {
    /// How much it tilts, in radians.
    tilt: f64,
    /// How much its height changes, in metres.
    rise: f64,
}

const BACKPACK: Carrier = Carrier {
    tilt: 0.03,
    rise: 0.02,
};
/// A mast on wheels: it tilts where the floor is uneven, by so little that its top keeps its height.
const TROLLEY: Carrier = Carrier {
    tilt: 0.003,
    rise: 0.0,
};

/// The job of a seed, with that many poses of a walk with a backpack.
#[must_use]
pub fn job(seed: u64, poses: usize) -> Job {
    carried_by(BACKPACK, seed, poses)
}

/// The same with a trolley in place of the backpack. Its height is known, since a mast can be measured, and that is the height
/// of each pose: odometry, which wanders off in height too, is not asked for it.
#[must_use]
pub fn trolley_job(seed: u64, poses: usize) -> Job {
    let mut job = carried_by(TROLLEY, seed, poses);
    for station in &mut job.stations {
        station.pose.shift[2] = CARRIED_AT;
    }
    job
}

fn carried_by(carrier: Carrier, seed: u64, poses: usize) -> Job {
    let mut random = Random::new(seed);
    let mut job = Job::new(NOISE);
    // Named first, so that surfaces have the same order whatever is seen first.
    for (name, ..) in WALLS {
        job.surface(name);
    }
    job.surface(FLOOR);
    for mark in MARKS {
        let tripod = Pose::new(mark, [random.between(0.0, 1.0), 0.0, 0.0]);
        for (surface, point) in scan(&tripod, TRIPOD, &mut job, &mut random) {
            job.surfaces[surface].fixed.push(tripod.to_site(&point));
        }
    }
    let truths = walk(carrier, poses, &mut random);
    let guesses = odometry(&truths, &mut random);
    for (truth, pose) in truths.into_iter().zip(guesses) {
        let points = scan(&truth, CARRIED, &mut job, &mut random);
        job.stations.push(Station {
            pose,
            truth: Some(truth),
            points,
        });
    }
    job
}

/// Poses at even steps along a smooth curve through the waypoints, swaying a little as what carries the scanner does.
fn walk(carrier: Carrier, poses: usize, random: &mut Random) -> Vec<Pose> {
    const FINE: usize = 40;
    let mut curve = Vec::new();
    for leg in 0..WAYPOINTS.len() - 1 {
        curve.extend((0..FINE).map(|k| on_curve(leg, k as f64 / FINE as f64)));
    }
    curve.push(WAYPOINTS[WAYPOINTS.len() - 1]);
    let mut along = vec![0.0];
    for pair in curve.windows(2) {
        let length = (pair[1][0] - pair[0][0]).hypot(pair[1][1] - pair[0][1]);
        along.push(along[along.len() - 1] + length);
    }
    let total = along[along.len() - 1];
    (0..poses)
        .map(|k| {
            let wanted = total * k as f64 / (poses - 1).max(1) as f64;
            let next = along
                .partition_point(|&a| a < wanted)
                .clamp(1, curve.len() - 1);
            let part = (wanted - along[next - 1]) / (along[next] - along[next - 1]);
            let [from, to] = [curve[next - 1], curve[next]];
            let [x, y] = [0, 1].map(|i| from[i] + part * (to[i] - from[i]));
            let heading = (to[1] - from[1]).atan2(to[0] - from[0]);
            let sway = [random.normal(carrier.tilt), random.normal(carrier.tilt)];
            let height = CARRIED_AT + random.normal(carrier.rise);
            Pose::new([x, y, height], [heading, sway[0], sway[1]])
        })
        .collect()
}

/// Catmull and Rom's curve: it passes through the waypoints without a kink.
fn on_curve(leg: usize, u: f64) -> [f64; 2] {
    let last = WAYPOINTS.len() - 1;
    let [a, b, c, d] =
        [leg.saturating_sub(1), leg, leg + 1, (leg + 2).min(last)].map(|k| WAYPOINTS[k]);
    [0, 1].map(|i| {
        let linear = (c[i] - a[i]) * u;
        let square = (2.0 * a[i] - 5.0 * b[i] + 4.0 * c[i] - d[i]) * u * u;
        let cube = (3.0 * b[i] - a[i] - 3.0 * c[i] + d[i]) * u * u * u;
        0.5 * (2.0 * b[i] + linear + square + cube)
    })
}

/// The walk as odometry has it: each step is a little off, and what is off is carried on.
fn odometry(truths: &[Pose], random: &mut Random) -> Vec<Pose> {
    let mut guess = truths[0].moved(&error(0.3, random));
    let mut guesses = vec![guess];
    for pair in truths.windows(2) {
        let step = pair[0].inverse().after(&pair[1]);
        let length = pair[0].distance(&pair[1]).0;
        guess = guess.after(&step).moved(&error(length, random));
        guesses.push(guess);
    }
    guesses
}

/// What odometry is off after so many metres, in the frame's own axes.
fn error(metres: f64, random: &mut Random) -> [f64; 6] {
    let root = metres.sqrt();
    // A stride that is taken for longer than it is, and a slow turn to one side, beside what is random.
    let [x, y] = [
        random.normal(0.01 * root) + 0.002 * metres,
        random.normal(0.01 * root),
    ];
    let z = random.normal(0.004 * root);
    // Gravity tells up from down, so roll and pitch wander far less than the heading does.
    let [roll, pitch] = [random.normal(0.0008 * root), random.normal(0.0008 * root)];
    let yaw = random.normal(0.0025 * root) + 0.0003 * metres;
    [x, y, z, roll, pitch, yaw]
}

/// What a scanner at that pose sees: rings of rays, each to the first surface it meets.
fn scan(
    pose: &Pose,
    (rings, spokes): (usize, usize),
    job: &mut Job,
    random: &mut Random,
) -> Vec<(usize, Vector)> {
    let mut points = Vec::new();
    for ring in 0..rings {
        let up = -0.9 + 1.3 * (ring as f64 + random.unit()) / rings as f64;
        for spoke in 0..spokes {
            let around = std::f64::consts::TAU * (spoke as f64 + random.unit()) / spokes as f64;
            let ray = [up.cos() * around.cos(), up.cos() * around.sin(), up.sin()];
            let in_site = Pose {
                shift: [0.0; 3],
                ..*pose
            }
            .to_site(&ray);
            if let Some((name, reach)) = hit(&pose.shift, &in_site) {
                let noise = random.normals(NOISE);
                let point = std::array::from_fn(|r| ray[r] * reach + noise[r]);
                points.push((job.surface(name), point));
            }
        }
    }
    points
}

/// The surface that a ray meets first, and how far off. A ray over the walls meets none.
fn hit(from: &Vector, ray: &Vector) -> Option<(&'static str, f64)> {
    let wall = WALLS
        .iter()
        .filter_map(|(name, start, end)| {
            let side = [end[0] - start[0], end[1] - start[1]];
            let off = [start[0] - from[0], start[1] - from[1]];
            let turned = ray[0] * side[1] - ray[1] * side[0];
            let reach = (off[0] * side[1] - off[1] * side[0]) / turned;
            let part = (off[0] * ray[1] - off[1] * ray[0]) / turned;
            // A ray along the wall gives no number here, and so no hit.
            (reach > 0.0 && (0.0..=1.0).contains(&part)).then_some((*name, reach))
        })
        .min_by(|a, b| a.1.total_cmp(&b.1));
    let down = -from[2] / ray[2];
    match wall {
        _ if down > 0.0 && wall.is_none_or(|(_, reach)| down < reach) => Some((FLOOR, down)),
        Some((_, reach)) if from[2] + reach * ray[2] > HEIGHT => None,
        found => found,
    }
}

#[cfg(test)]
mod tests {
    use super::*;

    #[test]
    fn a_seed_gives_one_job() {
        assert_eq!(job(7, 3), job(7, 3));
        assert_ne!(job(7, 3), job(8, 3));
    }

    #[test]
    fn what_is_seen_lies_on_its_surface() {
        let job = job(1, 5);
        for station in &job.stations {
            let truth = station.truth.unwrap();
            for (surface, point) in &station.points {
                let [x, y, z] = truth.to_site(point);
                let off = match job.surfaces[*surface].name.as_str() {
                    "south wall" => y,
                    "north wall" => y - 6.0,
                    "alcove wall" => y - 7.5,
                    "west wall" => x,
                    "east wall" => x - 9.0,
                    "alcove left" => x - 5.2,
                    "alcove right" => x - 7.6,
                    "cut corner" => (y - x - 4.6) / 2f64.sqrt(),
                    _ => z,
                };
                assert!(off.abs() < 6.0 * NOISE, "{off}");
            }
        }
    }
}
