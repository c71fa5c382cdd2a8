//! Planes of a normal and an offset, and the deviation of a point from a plane.

use super::draw::{self, Temper};
use super::moments::{matrix, vector};
use super::refused;
use crate::calls::{self, Value};
use crate::case::{After, Case};
use crate::factors::lidar::map_plane::point_to_plane_sigma;
use crate::factors::lidar::plane::Plane;
use crate::factors::FactorError;
use oracle::draws::{self, within};
use oracle::generator::Generator;

pub fn run(generator: &mut Generator, cases: &mut Vec<Case>) {
    let temper = Temper::random(generator);
    cases.push(new(temper, generator));
    cases.push(sigma(temper, generator));
    refused::add(cases, generator);
}

fn new(temper: Temper, generator: &mut Generator) -> Case {
    let normal = match (temper, generator.below(3)) {
        (Temper::Met, 0) => draw::piece(generator).axes[2].to_vec(),
        (Temper::Met, _) => (0..3).map(|_| within(-5.0, 5.0, generator)).collect(),
        // About the least norm that is taken.
        (Temper::Hostile, 0) => (0..3).map(|_| within(-1e-12, 1e-12, generator)).collect(),
        _ => temper.any(3, generator),
    };
    let offset = temper.any(1, generator)[0];
    let answer = Plane::new(vector(&normal), offset);
    let before = vec![
        Value::Numbers(normal),
        Value::Numbers(vec![offset]),
        Value::Numbers(draw::old(4, generator)),
    ];
    match answer {
        Ok(plane) => Case::accepted(
            &calls::PLANE_NEW,
            format!("{temper:?}"),
            before,
            [(
                "plane",
                After::numbers(&[plane.normal.as_slice(), &[plane.offset]].concat()),
            )],
        ),
        Err(FactorError::Degenerate { .. }) => {
            Case::refused(&calls::PLANE_NEW, format!("{temper:?}"), before, 11)
        }
        Err(error) => panic!("{error:?}"),
    }
}

fn sigma(temper: Temper, generator: &mut Generator) -> Case {
    let [plane, centroid, plane_covariance, point_covariance, world, by_point] = match temper {
        Temper::Met => {
            let piece = draw::piece(generator);
            [
                [&piece.axes[2][..], &[within(-40.0, 40.0, generator)]].concat(),
                piece.middle.to_vec(),
                draws::stored(draws::covariance::<6>(0.02, generator)),
                draws::stored(draws::covariance::<3>(0.02, generator)),
                piece.point(generator).to_vec(),
                draws::stored(draws::rotation(generator)),
            ]
        }
        _ => [4, 3, 36, 9, 3, 9].map(|length| temper.any(length, generator)),
    };
    let answer = point_to_plane_sigma(
        &Plane {
            normal: vector(&plane),
            offset: plane[3],
        },
        &vector(&centroid),
        &matrix(&plane_covariance),
        &matrix(&point_covariance),
        &vector(&world),
        &matrix(&by_point),
    );
    let mut before: Vec<Value> = [
        plane,
        centroid,
        plane_covariance,
        point_covariance,
        world,
        by_point,
    ]
    .map(Value::Numbers)
    .to_vec();
    before.push(Value::Numbers(draw::old(1, generator)));
    match answer {
        Some(sigma) => Case::accepted(
            &calls::SIGMA,
            format!("{temper:?}"),
            before,
            [("sigma", After::numbers(&[sigma]))],
        ),
        None => Case::refused(&calls::SIGMA, format!("{temper:?}"), before, 12),
    }
}
