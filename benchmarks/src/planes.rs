//! Planes as they are met: a wall that several poses see, with a fixed set of its points.

use maghnelt::{ACTION, CENTRED, DECOMPOSITION};
use oracle::draws::{record_of, Pose, Wall};
use oracle::generator::Generator;
use oracle::model::frames::{centred, fit, Sets};
use oracle::model::moments::Moments;
use oracle::model::stored_matrix;
use oracle::scenes::{action_of, decomposition_of, seen_from};

/// What a plane is fitted to, and the decompositions that a host makes: of the fit's scatter, of the frames' and of the fixed
/// set's.
pub struct Plane {
    /// The centred frames.
    pub frames: Vec<[f64; CENTRED]>,
    /// Their actions.
    pub actions: Vec<[f64; ACTION]>,
    /// The centred fixed set.
    pub fixed: [f64; CENTRED],
    /// The decompositions.
    pub decompositions: Vec<[f64; DECOMPOSITION]>,
}

impl Plane {
    /// A wall that so many poses see.
    pub fn random(frames: usize, generator: &mut Generator) -> Plane {
        let wall = Wall::random(generator);
        let poses: Vec<Pose> = (0..frames).map(|_| Pose::random(generator)).collect();
        let frames: Vec<_> = poses
            .iter()
            .map(|pose| record(seen_from(pose, &wall, generator)))
            .collect();
        let actions: Vec<[f64; ACTION]> = poses
            .iter()
            .map(|pose| {
                // With the dof of nine no column is left to chance.
                let action = action_of(pose, 9, generator);
                action.try_into().expect("an action has 120 numbers")
            })
            .collect();
        let fixed = record(Moments::read(&record_of(&wall, generator)));
        let sets = Sets::read(frames.as_flattened(), &fixed, actions.as_flattened());
        let mut decompositions = vec![decomposition_of(fit(&sets).1)];
        for set in frames.iter().chain([&fixed]) {
            decompositions.push(decomposition_of(stored_matrix(&set[4..])));
        }
        Plane {
            frames,
            actions,
            fixed,
            decompositions,
        }
    }
}

fn record(moments: Moments) -> [f64; CENTRED] {
    let mut record = [0.0; CENTRED];
    let set = centred(moments).expect("a wall has points");
    set.write(&mut record);
    record
}
