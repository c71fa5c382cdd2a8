//! Moments: from points, pushed, merged, moved, their mean and scatter, their plane.

use super::draw::{self, Temper};
use super::refused;
use crate::calls::{self, Value};
use crate::case::{After, Case};
use crate::factors::lidar::plane_moments::PointMoments;
use nalgebra::{eigen, Matrix3, Vector3};
use oracle::draws;
use oracle::generator::Generator;
use oracle::model::counts::{refuses_merge, refuses_push};
use oracle::model::SATURATED;

/// The thirteen numbers of moments.
pub fn numbers(moments: &PointMoments) -> Vec<f64> {
    [
        &[moments.count],
        moments.sum.as_slice(),
        moments.outer.as_slice(),
    ]
    .concat()
}

/// The moments of thirteen numbers.
pub fn of_numbers(numbers: &[f64]) -> PointMoments {
    PointMoments {
        count: numbers[0],
        sum: Vector3::from_fn(|row, _| numbers[1 + row]),
        outer: Matrix3::from_fn(|row, column| numbers[4 + 3 * column + row]),
    }
}

/// The vector of three numbers.
pub fn vector(numbers: &[f64]) -> Vector3<f64> {
    Vector3::from_fn(|row, _| numbers[row])
}

/// The matrix of numbers, column after column.
pub fn matrix<const R: usize, const C: usize>(numbers: &[f64]) -> nalgebra::SMatrix<f64, R, C> {
    nalgebra::SMatrix::from_fn(|row, column| numbers[R * column + row])
}

fn points(temper: Temper, generator: &mut Generator) -> Vec<f64> {
    let length = match generator.below(50) {
        0 => 200 + generator.below(400),
        1..5 => 0,
        _ => 1 + generator.below(12),
    } as usize;
    match temper {
        Temper::Met => {
            let piece = draw::piece(generator);
            (0..length).flat_map(|_| piece.point(generator)).collect()
        }
        _ => (0..length).flat_map(|_| temper.any(3, generator)).collect(),
    }
}

pub fn run(generator: &mut Generator, cases: &mut Vec<Case>) {
    let temper = Temper::random(generator);
    let kind = |label: &str| format!("{temper:?} {label}");
    let list = points(temper, generator);
    let vectors: Vec<Vector3<f64>> = list.chunks(3).map(vector).collect();
    let of_points = PointMoments::from_points(&vectors);
    let old = draw::old(13, generator);
    let size = if list.is_empty() { "empty" } else { "some" };
    cases.push(Case::accepted(
        &calls::FROM_POINTS,
        kind(size),
        vec![Value::Numbers(list), Value::Numbers(old)],
        [("moments", After::numbers(&numbers(&of_points)))],
    ));

    let moments = match temper {
        Temper::Met => of_points,
        Temper::Hostile => of_numbers(&draws::record(generator)),
        Temper::Zeros => of_numbers(&temper.any(13, generator)),
    };
    let record = numbers(&moments);
    let point = match temper {
        Temper::Met => draw::piece(generator).point(generator).to_vec(),
        _ => temper.any(3, generator),
    };
    cases.push(push(record.clone(), point, kind("")));

    let other = match temper {
        Temper::Met => draws::record_of(&draw::piece(generator), generator).to_vec(),
        Temper::Hostile => draws::record(generator).to_vec(),
        Temper::Zeros => temper.any(13, generator),
    };
    cases.push(merge(record.clone(), other, kind("")));

    let (a, b) = match temper {
        Temper::Met => {
            let pose = draws::Pose::random(generator);
            (draws::stored(pose.rotation), pose.shift.to_vec())
        }
        _ => (temper.any(9, generator), temper.any(3, generator)),
    };
    let moved = moments.transformed(&matrix(&a), &vector(&b));
    cases.push(Case::accepted(
        &calls::TRANSFORMED,
        kind(""),
        vec![
            Value::Numbers(record.clone()),
            Value::Numbers(a),
            Value::Numbers(b),
            Value::Numbers(draw::old(13, generator)),
        ],
        [("out", After::numbers(&numbers(&moved)))],
    ));

    let before = vec![
        Value::Numbers(record.clone()),
        Value::Numbers(draw::old(12, generator)),
        Value::Words(vec![7]),
    ];
    let found = moments.mean_and_scatter();
    cases.push(match found {
        Some((mean, scatter)) => Case::accepted(
            &calls::MEAN_AND_SCATTER,
            kind("found"),
            before,
            [
                (
                    "out",
                    After::numbers(&[mean.as_slice(), scatter.as_slice()].concat()),
                ),
                ("found", After::Words(vec![1])),
            ],
        ),
        None => Case::accepted(
            &calls::MEAN_AND_SCATTER,
            kind("none"),
            before,
            [("found", After::Words(vec![0]))],
        ),
    });
    cases.push(plane(&moments, temper, generator));
    refused::add(cases, generator);
}

/// A push. The original has no 15: document 02 says where a push is refused by it, and elsewhere the original what it leaves.
pub fn push(record: Vec<f64>, point: Vec<f64>, kind: String) -> Case {
    let mut moments = of_numbers(&record);
    moments.push(&vector(&point));
    let is_refused = refuses_push(record[0]);
    let before = vec![Value::Numbers(record), Value::Numbers(point)];
    if is_refused {
        return Case::refused(&calls::PUSH, kind, before, SATURATED);
    }
    let after = After::numbers(&numbers(&moments));
    Case::accepted(&calls::PUSH, kind, before, [("moments", after)])
}

/// A merge, likewise.
pub fn merge(record: Vec<f64>, other: Vec<f64>, kind: String) -> Case {
    let mut moments = of_numbers(&record);
    moments.merge(&of_numbers(&other));
    let is_refused = refuses_merge(record[0], other[0]);
    let before = vec![Value::Numbers(record), Value::Numbers(other)];
    if is_refused {
        return Case::refused(&calls::MERGE, kind, before, SATURATED);
    }
    let after = After::numbers(&numbers(&moments));
    Case::accepted(&calls::MERGE, kind, before, [("moments", after)])
}

/// The plane of moments, by LAPACK's decomposition of their scatter or by one at which the answer changes.
fn plane(moments: &PointMoments, temper: Temper, generator: &mut Generator) -> Case {
    eigen::taken();
    eigen::hand_out_by(draw::order(generator));
    let by_hand = generator.below(2) == 0;
    if by_hand {
        eigen::hand_in([draw::decomposition(generator)]);
    }
    let found = moments.plane();
    eigen::hand_in([]);
    let asked = eigen::taken();
    let decomposition = match asked.first() {
        Some(asked) => asked.decomposition,
        None => draw::decomposition(generator),
    };
    let before = vec![
        Value::Numbers(numbers(moments)),
        Value::Numbers(decomposition.to_vec()),
        Value::Numbers(draw::old(7, generator)),
        Value::Words(vec![7]),
    ];
    let kind = |label: &str| {
        let hand = if by_hand { "by hand" } else { "by LAPACK" };
        let looked = if asked.is_empty() { "unasked" } else { hand };
        format!("{temper:?} {looked} {label}")
    };
    match found {
        Some((normal, offset, values)) => Case::accepted(
            &calls::MOMENTS_PLANE,
            kind("found"),
            before,
            [
                (
                    "out",
                    After::numbers(&[normal.as_slice(), &[offset], &values].concat()),
                ),
                ("found", After::Words(vec![1])),
            ],
        ),
        None => Case::accepted(
            &calls::MOMENTS_PLANE,
            kind("none"),
            before,
            [("found", After::Words(vec![0]))],
        ),
    }
}
