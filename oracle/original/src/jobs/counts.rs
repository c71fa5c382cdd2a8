//! Pushes and merges of counts about 2^53, of which document 02 has some refused.

use super::{draw, moments, refused};
use crate::case::Case;
use oracle::generator::Generator;
use oracle::model::counts::MOST;
use oracle::{counts, draws};

pub fn run(generator: &mut Generator, cases: &mut Vec<Case>) {
    let count = counts::count(generator);
    let point = draws::numbers::<3>(generator).to_vec();
    let set = set_of(count, generator);
    cases.push(told(moments::push(set, point, kind(count))));
    let [first, second] = counts::pair(generator);
    let [set, other] = [first, second].map(|count| set_of(count, generator));
    cases.push(told(moments::merge(set, other, kind(first + second))));
    refused::add(cases, generator);
}

/// The moments of a piece of a wall, any numbers, or many NaNs, with that count.
fn set_of(count: f64, generator: &mut Generator) -> Vec<f64> {
    let mut set = match generator.below(3) {
        0 => draws::record_of(&draw::piece(generator), generator).to_vec(),
        1 => draws::record(generator).to_vec(),
        _ => draw::old(13, generator),
    };
    set[0] = count;
    set
}

/// The kind of a call by its count, or by the rounded sum of both.
fn kind(count: f64) -> String {
    let is_near = (count - MOST).abs() <= 8.0;
    let place = if is_near { "near" } else { "far from" };
    format!("{place} 2^53")
}

/// A case that tells by its kind whether it is refused.
fn told(mut case: Case) -> Case {
    let label = if case.answer == 0 { "taken" } else { "refused" };
    case.kind += &format!(" {label}");
    case
}
