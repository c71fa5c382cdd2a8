//! The groups that both are tried on.

use super::draw::{self, Temper};
use apex_manifolds::capability::ActsOnPoints3;
use apex_manifolds::se3::SE3;
use apex_manifolds::{Affine, Sim3, SE23, SO3};
use oracle::draws::within;
use oracle::generator::Generator;
use std::cell::Cell;

/// A group with states to draw.
pub trait Tried: ActsOnPoints3 + Send + Sync + 'static {
    /// The parameters of a state.
    fn params(temper: Temper, generator: &mut Generator) -> Vec<f64>;
}

thread_local! {
    static STATES: Cell<u64> = const { Cell::new(u64::MAX) };
}

/// From now on a group has only so many states of a temper, so that a sample has each action once.
pub fn few_states(number: u64) {
    STATES.set(number);
}

/// The parameters of a state that is drawn.
pub fn drawn_state<G: Tried>(temper: Temper, generator: &mut Generator) -> Vec<f64> {
    let seed = generator.below(STATES.get());
    G::params(temper, &mut Generator::new(seed))
}

/// A shift within a kilometre; none for every eighth state.
fn shift(generator: &mut Generator) -> Vec<f64> {
    let size = generator.pick(&[0.0, 1.0, 30.0, 30.0, 30.0, 1000.0, 1000.0, 1000.0]);
    (0..3).map(|_| within(-size, size, generator)).collect()
}

/// A quaternion of about unit length; a quarter turn or none for every fourth state.
fn turn(generator: &mut Generator) -> Vec<f64> {
    match generator.below(8) {
        0 => vec![1.0, 0.0, 0.0, 0.0],
        1 => vec![1.0, 0.0, 0.0, generator.pick(&[1.0, -1.0])],
        _ => (0..4).map(|_| within(-1.0, 1.0, generator)).collect(),
    }
}

/// The parameters as they are met, or of any numbers.
fn tempered(met: Vec<f64>, temper: Temper, generator: &mut Generator) -> Vec<f64> {
    match temper {
        Temper::Met => met,
        _ => draw::spoilt(met, temper, generator),
    }
}

impl Tried for SO3 {
    fn params(temper: Temper, generator: &mut Generator) -> Vec<f64> {
        let met = turn(generator);
        tempered(met, temper, generator)
    }
}

impl Tried for SE3 {
    fn params(temper: Temper, generator: &mut Generator) -> Vec<f64> {
        let met = [shift(generator), turn(generator)].concat();
        tempered(met, temper, generator)
    }
}

impl Tried for SE23 {
    fn params(temper: Temper, generator: &mut Generator) -> Vec<f64> {
        let met = [shift(generator), turn(generator), shift(generator)].concat();
        tempered(met, temper, generator)
    }
}

impl Tried for Sim3 {
    fn params(temper: Temper, generator: &mut Generator) -> Vec<f64> {
        let scale = within(0.5, 2.0, generator);
        let met = [shift(generator), turn(generator), vec![scale]].concat();
        tempered(met, temper, generator)
    }
}

impl<const D: usize> Tried for Affine<D> {
    fn params(temper: Temper, generator: &mut Generator) -> Vec<f64> {
        match temper {
            Temper::Met => (0..Self::PARAMS)
                .map(|_| within(-2.0, 2.0, generator))
                .collect(),
            // The shift that the others are added to has signs of its own.
            _ => {
                let [a, b, columns] = [9, 3, 12 * D].map(|length| temper.any(length, generator));
                [a, b, columns].concat()
            }
        }
    }
}

/// Calls a function generic over the group for a group that is drawn: in three of four cases one of poses.
macro_rules! for_a_group {
    ($generator:ident, $function:ident ( $($argument:expr),* )) => {
        match $generator.below(32) {
            0..7 => $function::<apex_manifolds::se3::SE3>($($argument),*),
            7..13 => $function::<apex_manifolds::SE23>($($argument),*),
            13..19 => $function::<apex_manifolds::Sim3>($($argument),*),
            19..23 => $function::<apex_manifolds::SO3>($($argument),*),
            23 => $function::<apex_manifolds::Affine<0>>($($argument),*),
            24 => $function::<apex_manifolds::Affine<1>>($($argument),*),
            25 => $function::<apex_manifolds::Affine<2>>($($argument),*),
            26 => $function::<apex_manifolds::Affine<4>>($($argument),*),
            27 => $function::<apex_manifolds::Affine<5>>($($argument),*),
            28 => $function::<apex_manifolds::Affine<8>>($($argument),*),
            _ => $function::<apex_manifolds::Affine<9>>($($argument),*),
        }
    };
}

pub(super) use for_a_group;
