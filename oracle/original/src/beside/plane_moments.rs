//! Beside the original's text of plane_moments.rs: what its private parts hold.

use super::*;

/// The thirteen numbers of a centred set: count, mean, scatter.
pub type CentredNumbers = [f64; 13];

fn numbers(centred: &Centred) -> CentredNumbers {
    std::array::from_fn(|place| match place {
        0 => centred.count,
        1..4 => centred.mean[place - 1],
        _ => centred.scatter[place - 4],
    })
}

fn centred(numbers: &CentredNumbers) -> Centred {
    Centred {
        count: numbers[0],
        mean: Vector3::from_fn(|row, _| numbers[1 + row]),
        scatter: Matrix3::from_fn(|row, column| numbers[4 + 3 * column + row]),
    }
}

/// The centred frames of a factor.
pub fn frames<G: ActsOnPoints3>(factor: &LidarPlaneMomentFactor<G>) -> Vec<CentredNumbers> {
    factor.frames.iter().map(numbers).collect()
}

/// The centred fixed set of a factor, where it has one.
pub fn fixed<G: ActsOnPoints3>(factor: &LidarPlaneMomentFactor<G>) -> Option<CentredNumbers> {
    factor.fixed.as_ref().map(numbers)
}

/// The factor of centred sets that no build has made.
pub fn of_centred<G: ActsOnPoints3>(
    frames: &[CentredNumbers],
    fixed: Option<&CentredNumbers>,
    sigma: f64,
) -> LidarPlaneMomentFactor<G> {
    LidarPlaneMomentFactor {
        frames: frames.iter().map(centred).collect(),
        fixed: fixed.map(centred),
        sigma,
        group: PhantomData,
    }
}

/// The fit: the numbers of each action, and the plane's normal and offset, where it has one.
pub fn fit<G: ActsOnPoints3 + Send + Sync + 'static>(
    factor: &LidarPlaneMomentFactor<G>,
    params: &[&[f64]],
) -> (Vec<Vec<f64>>, Option<[f64; 4]>) {
    let (actions, plane) = factor.fit(params);
    let actions = actions
        .iter()
        .map(|action| super::super::action::beside::numbers(action))
        .collect();
    let plane = plane.map(|(normal, offset)| [normal[0], normal[1], normal[2], offset]);
    (actions, plane)
}
