//! One match below its chain: the original carries the point to the world; what it comes to is handed to the library.

use super::draw::{self, Temper};
use super::matches::{drawn, number, of_numbers};
use super::refused;
use super::tried::{drawn_state, for_a_group, Tried};
use crate::calls::{self, Value};
use crate::case::{After, Case};
use crate::factors::lidar::action;
use crate::factors::lidar::map_plane::{lidar_point_chain, LidarMapPlaneFactor};
use crate::factors::Factor;
use apex_manifolds::se3::SE3;
use apex_manifolds::LieGroup;
use faer::mat::MatMut;
use oracle::generator::Generator;

pub fn run(generator: &mut Generator, cases: &mut Vec<Case>) {
    for_a_group!(generator, of_group(generator, cases));
}

fn of_group<G: Tried>(generator: &mut Generator, cases: &mut Vec<Case>) {
    let temper = Temper::random(generator);
    let state = drawn_state::<G>(temper, generator);
    let extrinsic = drawn_state::<SE3>(temper, generator);
    let mut numbers = drawn(temper, &action::beside::of_state::<G>(&state), generator);
    if generator.below(8) == 0 {
        match generator.below(3) {
            0 => numbers[generator.below(3) as usize] = draw::not_finite(generator),
            1 => numbers[7] = draw::bad_sigma(generator),
            _ => {
                numbers[0] = draw::not_finite(generator);
                numbers[7] = draw::bad_sigma(generator);
            }
        }
    }
    let one = of_numbers(&numbers);
    let chain = lidar_point_chain(
        &G::from_param_slice(&state),
        &SE3::from_param_slice(&extrinsic),
        &one.point,
    );
    let factor = LidarMapPlaneFactor::<G>::new(one.point, one.plane, one.sigma);
    for wanted in [true, false] {
        let columns = G::DOF + 6;
        let mut residual = draw::old(1, generator);
        let mut row = draw::old(if wanted { columns } else { 0 }, generator);
        let before = vec![
            Value::Words(vec![G::DOF as u32]),
            Value::Numbers(numbers.clone()),
            Value::Numbers(chain.world.as_slice().to_vec()),
            Value::Numbers(chain.d_state.concat()),
            Value::Numbers(chain.d_extrinsic.as_slice().to_vec()),
            Value::Numbers(residual.clone()),
            Value::Numbers(row.clone()),
        ];
        let label = if wanted { "wanted" } else { "unwanted" };
        let kind = format!("{} {temper:?} {label}", G::NAME);
        cases.push(match &factor {
            Err(error) => Case::refused(&calls::MATCH_LINEARIZE, kind, before, number(error)),
            Ok(factor) => {
                let view = wanted.then(|| MatMut::of(1, columns, &mut row));
                factor.linearize(&[&state, &extrinsic], &mut residual, view);
                let after = [
                    ("residual", After::numbers(&residual)),
                    ("row", After::numbers(&row)),
                ];
                Case::accepted(&calls::MATCH_LINEARIZE, kind, before, after)
            }
        });
    }
    refused::add(cases, generator);
}
