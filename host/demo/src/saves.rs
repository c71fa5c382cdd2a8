//! The story of the wall: what becomes of it when its sums are saved already moved, and moved again on loading.

use crate::adjust::PlaneFactor;
use crate::lapack;
use crate::pose::{dot, Pose, Vector};
use maghnelt::{FittedPlane, Moments, Refusal};

/// How often the job is saved and loaded.
pub const SAVES: usize = 3;

/// Where a wall stands after some saves.
#[derive(Clone, Copy, Debug, PartialEq)]
pub struct Stand {
    /// How far from the site's origin it stands along its normal, in metres.
    pub offset: f64,
    /// How far it has walked off since it was scanned, in metres: away from the scanner if positive.
    pub drift: f64,
    /// How thick it is: the root of the mean squared distance of its points from it, in metres.
    pub thickness: f64,
}

/// The wall after 0, 1, 2 … saves, by what is in the file.
#[derive(Clone, Debug, PartialEq)]
pub struct Story {
    /// Each frame's own moments are in the file.
    pub own: Vec<Stand>,
    /// The sums are in the file as they stand in the site.
    pub moved: Vec<Stand>,
}

/// Tells the story of a wall, given the poses as odometry had them and as they were adjusted. None if its points lie in no
/// plane.
///
/// # Errors
///
/// What the library refuses.
pub fn story(
    wall: &PlaneFactor,
    odometry: &[Pose],
    adjusted: &[Pose],
) -> Result<Option<Story>, Refusal> {
    let poses: Vec<&Pose> = wall.poses.iter().map(|&p| &adjusted[p]).collect();
    // What loading does to every frame: it takes what was in the backpack's own track to the site.
    let corrections: Vec<Pose> = wall
        .poses
        .iter()
        .map(|&p| adjusted[p].after(&odometry[p].inverse()))
        .collect();
    let scanned = moved(&wall.own, poses.iter().copied());
    let Some((plane, mean)) = fitted(&scanned)? else {
        return Ok(None);
    };
    let start = (outwards(&plane.plane.normal, &mean, &poses), mean);
    let (mut own, mut wrong) = (Vec::new(), Vec::new());
    let mut stored = scanned.clone();
    for _ in 0..=SAVES {
        // The frames' own moments are in the file as they always were, and are moved once.
        let loaded = moved(&wall.own, poses.iter().copied());
        let stands = [stand(&loaded, &start)?, stand(&stored, &start)?];
        let [Some(right), Some(shown)] = stands else {
            return Ok(None);
        };
        own.push(right);
        wrong.push(shown);
        // What stands in the site goes into the file, and loading moves it though it was moved before.
        stored = moved(&stored, &corrections);
    }
    Ok(Some(Story { own, moved: wrong }))
}

fn moved<'a>(records: &[Moments], poses: impl IntoIterator<Item = &'a Pose>) -> Vec<Moments> {
    let each = records.iter().zip(poses);
    each.map(|(record, pose)| record.transformed(&pose.rotation, &pose.shift))
        .collect()
}

/// The plane of all sets together and the mean of their points.
fn fitted(records: &[Moments]) -> Result<Option<(FittedPlane, Vector)>, Refusal> {
    let mut all = Moments::EMPTY;
    for record in records {
        all.merge(record)?;
    }
    let seen = all.mean_and_scatter();
    Ok(seen.and_then(|seen| {
        let plane = all.plane(&lapack::decomposition(&seen.scatter)?)?;
        Some((plane, seen.mean))
    }))
}

/// The normal, turned so that it points away from where the wall was seen from.
#[must_use]
pub fn outwards(normal: &Vector, mean: &Vector, poses: &[&Pose]) -> Vector {
    let ahead = |pose: &&Pose| dot(normal, &std::array::from_fn(|r| mean[r] - pose.shift[r]));
    let sign = if poses.iter().map(ahead).sum::<f64>() < 0.0 {
        -1.0
    } else {
        1.0
    };
    normal.map(|x| sign * x)
}

fn stand(records: &[Moments], (normal, mean): &(Vector, Vector)) -> Result<Option<Stand>, Refusal> {
    Ok(fitted(records)?.map(|(now, at)| {
        let off: Vector = std::array::from_fn(|r| at[r] - mean[r]);
        let drift = dot(normal, &off);
        Stand {
            offset: dot(normal, mean) + drift,
            drift,
            // Rounding may leave the least eigenvalue of a perfect wall below 0.
            thickness: now.eigenvalues[0].max(0.0).sqrt(),
        }
    }))
}
