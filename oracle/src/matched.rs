//! What the calls on lists of matches are tried on.

use crate::called::Fault;
use crate::draws::{fill, fill_with, within, Pose, Size, Wall};
use crate::generator::Generator;
use crate::model::{ACTIONS, DOF, EMPTY_LIST, LENGTH, MAX_DOF, NOT_FINITE, SIGMA};
use crate::scenes::{action_of, bad_sigma, not_finite, some_sigma};
use maghnelt::{ACTION, MATCH, MAX_MATCHES};

/// A list of matches and a pose.
#[derive(Clone)]
pub struct Matched {
    /// The number of parameters.
    pub dof: u32,
    /// The matches.
    pub matches: Vec<f64>,
    /// The action.
    pub action: Vec<f64>,
}

impl Matched {
    /// So many matches that are accepted, of walls or of any numbers, with any dof.
    pub fn of(matches: usize, generator: &mut Generator) -> Matched {
        let dof = generator.below(1 + u64::from(MAX_DOF)) as u32;
        Matched::with(dof, matches, generator)
    }

    /// The same with that dof.
    pub fn with(dof: u32, matches: usize, generator: &mut Generator) -> Matched {
        let pose = Pose::random(generator);
        let mut matched = Matched {
            dof,
            matches: vec![0.0; MATCH * matches],
            action: action_of(&pose, dof, generator),
        };
        // Half of the lists are such as are met throughout: in long ones a single special number hides all others.
        let tame = generator.below(2) == 0;
        let walls = tame || generator.below(2) == 0;
        let size = Size::random(generator);
        for record in matched.matches.chunks_mut(MATCH) {
            if walls {
                let wall = Wall::random(generator);
                record[..3].copy_from_slice(&wall.point(generator));
                record[3..6].copy_from_slice(&wall.axes[2]);
                record[6] = within(-50.0, 50.0, generator);
            } else {
                fill_with(size, record, generator);
            }
            for coordinate in &mut record[..3] {
                if !coordinate.is_finite() {
                    *coordinate = -0.0;
                }
            }
            record[7] = if tame {
                within(0.001, 2.0, generator)
            } else {
                some_sigma(generator)
            };
        }
        if generator.below(4) == 0 {
            fill(&mut matched.action, generator);
        }
        matched
    }

    /// The number of matches.
    pub fn len(&self) -> usize {
        self.matches.len() / MATCH
    }

    /// Whether there are none.
    pub fn is_empty(&self) -> bool {
        self.matches.is_empty()
    }

    /// Puts a number somewhere in one of the matches, at one of these places of its record.
    fn put(&mut self, number: f64, places: &[usize], generator: &mut Generator) {
        let matches = self.len() as u64;
        if matches > 0 {
            let record = MATCH * generator.below(matches) as usize;
            self.matches[record + generator.pick(places)] = number;
        }
    }

    /// What a call can be refused for in it.
    pub fn faults() -> Vec<Fault<Matched>> {
        vec![
            Fault::new(DOF, |matched: &mut Matched, generator| {
                matched.dof = generator.pick(&[MAX_DOF + 1, u32::MAX, 1 << 31]);
            }),
            Fault::new(EMPTY_LIST, |matched: &mut Matched, _| {
                matched.matches.clear()
            }),
            Fault::new(LENGTH, |matched: &mut Matched, generator| {
                let wrong = matched.matches.len() + generator.pick(&[1, 4, MATCH - 1]);
                matched.matches.resize(wrong, 1.0);
            }),
            Fault::new(LENGTH, |matched: &mut Matched, _| {
                matched.matches.resize(MATCH * (MAX_MATCHES + 1), 1.0);
            }),
            Fault::new(NOT_FINITE, |matched: &mut Matched, generator| {
                let bad = not_finite(generator);
                matched.put(bad, &[0, 1, 2], generator);
            }),
            Fault::new(SIGMA, |matched: &mut Matched, generator| {
                let bad = bad_sigma(generator);
                matched.put(bad, &[7], generator);
            }),
            Fault::new(ACTIONS, |matched: &mut Matched, generator| {
                let wrong = [0, 1, ACTION - 1, ACTION + 1, 2 * ACTION];
                matched.action.resize(generator.pick(&wrong), 1.0);
            }),
        ]
    }
}

/// Four matches, each of every two of which may have a bad sigma and a bad point.
pub fn two_bad_matches(generator: &mut Generator) -> Vec<Matched> {
    let mut all = Vec::new();
    for with_sigma in 0..4 {
        for with_point in 0..4 {
            let mut matched = Matched::of(4, generator);
            matched.matches[MATCH * with_sigma + 7] = bad_sigma(generator);
            matched.matches[MATCH * with_point + 1] = not_finite(generator);
            all.push(matched);
        }
    }
    all
}

/// How many matches a case has: mostly few, and now and then some groups of them.
pub fn some_matches(generator: &mut Generator) -> usize {
    let (from, to) = match generator.below(32) {
        0..=27 => (1, 10),
        28..=29 => (11, 100),
        30 => (500, 530),
        _ => (1000, 1600),
    };
    generator.between(from, to) as usize
}

/// Numbers of matches at which groups or the limit turn.
pub const TURNING: [usize; 9] = [1, 2, 511, 512, 513, 515, 1024, 1025, MAX_MATCHES];
