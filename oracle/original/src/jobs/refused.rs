//! Calls that are refused by rules that the Rust does not have, or has elsewhere: a call with one or two things spoilt. Here
//! documents 01 and 02 say the number and not the original; of two reasons the lower-placed one is answered.

use super::draw;
use super::tried::Tried;
use crate::calls::Value;
use crate::case::{place, Case};
use crate::core::variable::ManifoldVariable;
use crate::factors::{Factor, FactorError};
use oracle::generator::Generator;
use oracle::model::SATURATED;
use std::marker::PhantomData;

/// A parameter spoilt, and the reason.
struct Spoilt {
    place: usize,
    value: Value,
    reason: u32,
}

/// Where a reason stands among the tests, for which its number does not always do.
fn rank(reason: u32) -> u32 {
    match reason {
        // Directly after 9.
        14 => 19,
        _ => 2 * reason,
    }
}

/// For every third job, adds a call of the list with something spoilt, and for every other job with transforms an accepted one
/// with a bad shape or a segment past the end.
pub fn add(cases: &mut Vec<Case>, generator: &mut Generator) {
    let any = any_spoilt(cases, generator);
    let shape = shape_spoilt(cases, generator);
    cases.extend(any.into_iter().chain(shape));
}

fn any_spoilt(cases: &[Case], generator: &mut Generator) -> Option<Case> {
    // What is refused by 15 may be spoilt as what is accepted: 15 is tested last.
    let is_sound = |case: &&Case| matches!(case.answer, 0 | SATURATED);
    let sound: Vec<&Case> = cases.iter().filter(is_sound).collect();
    if sound.is_empty() || generator.below(3) != 0 {
        return None;
    }
    let case = generator.pick(&sound);
    let mut spoils = all(case, generator);
    let first = drawn(&mut spoils, generator)?;
    Some(spoilt(case, first, spoils, generator))
}

fn shape_spoilt(cases: &[Case], generator: &mut Generator) -> Option<Case> {
    let mut calls = cases.iter().rev();
    let case = calls.find(|case| case.answer == 0 && has(case, "shapes"))?;
    if generator.below(2) != 0 {
        return None;
    }
    let mut spoils = all(case, generator);
    let mut places: Vec<usize> = (0..spoils.len()).collect();
    places.retain(|&place| matches!(spoils[place].reason, 10 | 14));
    if places.is_empty() {
        return None;
    }
    let first = spoils.swap_remove(generator.pick(&places));
    Some(spoilt(case, first, spoils, generator))
}

/// One of a list, taken out of it.
fn drawn(spoils: &mut Vec<Spoilt>, generator: &mut Generator) -> Option<Spoilt> {
    let count = spoils.len() as u64;
    (count > 0).then(|| spoils.swap_remove(generator.below(count) as usize))
}

/// A call with something spoilt, and in every third case something of the others too.
fn spoilt(case: &Case, first: Spoilt, mut others: Vec<Spoilt>, generator: &mut Generator) -> Case {
    // Two lengths that are both one more may fit together again.
    others.retain(|other| other.place != first.place && other.reason != first.reason);
    let mut before = case.before.clone();
    let mut reason = first.reason;
    let mut kind = format!("refused by {}", case.call.parameters[first.place]);
    if generator.below(3) == 0 {
        if let Some(second) = drawn(&mut others, generator) {
            reason = std::cmp::min_by_key(reason, second.reason, |reason| rank(*reason));
            kind += &format!(" and {}", case.call.parameters[second.place]);
            before[second.place] = second.value;
        }
    }
    before[first.place] = first.value;
    Case::refused(case.call, kind, before, reason)
}

/// One more entry.
fn longer(value: &Value) -> Value {
    match value.clone() {
        Value::Numbers(mut numbers) => {
            numbers.push(1.0);
            Value::Numbers(numbers)
        }
        Value::Words(mut words) => {
            words.push(0);
            Value::Words(words)
        }
    }
}

/// One entry fewer.
fn shorter(value: &Value) -> Value {
    match value.clone() {
        Value::Numbers(mut numbers) => {
            numbers.pop();
            Value::Numbers(numbers)
        }
        Value::Words(mut words) => {
            words.pop();
            Value::Words(words)
        }
    }
}

/// Everything that can be spoilt of a call.
fn all(case: &Case, generator: &mut Generator) -> Vec<Spoilt> {
    let mut spoils = Vec::new();
    let call = case.call;
    for (place, value) in case.before.iter().enumerate() {
        let mut spoil = |value: Value, reason: u32| {
            spoils.push(Spoilt {
                place,
                value,
                reason,
            });
        };
        match (call.parameters[place], call.manners[place]) {
            ("dof", _) => spoil(Value::Words(vec![10 + generator.below(4) as u32]), 1),
            ("sigma", "number") => spoil(Value::Numbers(vec![draw::bad_sigma(generator)]), 7),
            (_, "word" | "number" | "out_number" | "out_word") => {}
            ("actions" | "action", _) => {
                spoil(longer(value), 8);
                spoil(shorter(value), 8);
            }
            // Empty means not wanted, or no map.
            ("jacobian" | "row", _) if value.is_empty() => {}
            ("map" | "counts" | "shapes", _) => {}
            (name, _) => {
                spoil(longer(value), 3);
                if matches!(name, "frames" | "matches" | "a_match") {
                    spoil(Value::Numbers(Vec::new()), 2);
                }
            }
        }
    }
    spoils.extend(words(case, generator));
    spoils.extend(counts(case, generator));
    spoils.extend(transforms(case, generator));
    spoils
}

/// What can be spoilt of maps and lists of words.
fn words(case: &Case, generator: &mut Generator) -> Vec<Spoilt> {
    let mut spoils = Vec::new();
    for (place, value) in case.before.iter().enumerate() {
        let Value::Words(words) = value else { continue };
        if !matches!(case.call.parameters[place], "map" | "list") || words.is_empty() {
            continue;
        }
        let at = generator.below(words.len() as u64) as usize;
        let mut bad = words.clone();
        bad[at] = generator.pick(&[
            0x8000_0000,
            0xC000_0000,
            0x4000_0001,
            0x7FFF_FFFF,
            0xFFFF_FFFF,
        ]);
        spoils.push(Spoilt {
            place,
            value: Value::Words(bad),
            reason: 9,
        });
        if has(case, "gradient") {
            let n = case.before[place_of(case, "gradient")].len() as u32;
            let width = match *words_of(case, "shapes") {
                [rows, columns, ..] if [rows, columns] != NO_TRANSFORM => columns,
                _ => words_of(case, "dof")[0],
            };
            let mut past = words.clone();
            past[0] = (n + 1).saturating_sub(width) + generator.below(3) as u32;
            spoils.push(Spoilt {
                place,
                value: Value::Words(past),
                reason: 10,
            });
        }
    }
    spoils
}

/// What can be spoilt of a bundle's counts.
fn counts(case: &Case, generator: &mut Generator) -> Vec<Spoilt> {
    let mut parameters = case.call.parameters.iter().zip(&case.before).enumerate();
    let found = parameters.find(|(_, (name, _))| **name == "counts");
    let Some((place, (_, Value::Words(counts)))) = found else {
        return Vec::new();
    };
    let at = generator.below(counts.len() as u64) as usize;
    let next = (at + 1) % counts.len();
    let mut more = counts.clone();
    more[at] += 1;
    let mut spoils = vec![(Vec::new(), 2), (more, 3)];
    if next != at {
        // The sum is the same in 32 bits, but not in 64.
        let mut around = counts.clone();
        around[at] += 1 << 31;
        around[next] += 1 << 31;
        // All points of a frame are another's.
        let mut without = counts.clone();
        without[next] += without[at];
        without[at] = 0;
        spoils.extend([(around, 3), (without, 4)]);
    }
    let spoilt = |(counts, reason)| Spoilt {
        place,
        value: Value::Words(counts),
        reason,
    };
    spoils.into_iter().map(spoilt).collect()
}

/// Rows and columns where there is no transform.
const NO_TRANSFORM: [u32; 2] = [u32::MAX; 2];

/// What can be spoilt of a map with transforms beside it.
fn transforms(case: &Case, generator: &mut Generator) -> Vec<Spoilt> {
    if !has(case, "shapes") {
        return Vec::new();
    }
    let multiplies = has(case, "further");
    let [map, shapes] = ["map", "shapes"].map(|name| words_of(case, name));
    let mut spoils = Vec::new();
    let mut spoil = |name: &str, value: Value, reason: u32| {
        spoils.push(Spoilt {
            place: place_of(case, name),
            value,
            reason,
        });
    };
    spoil("shapes", longer(&Value::Words(shapes.to_vec())), 3);
    if multiplies || !shapes.is_empty() {
        spoil("map", longer(&Value::Words(map.to_vec())), 3);
    }
    if !shapes.is_empty() {
        spoil("shapes", Value::Words(Vec::new()), 3);
        spoil("transforms", Value::Numbers(Vec::new()), 3);
        let at = 2 * generator.below(map.len() as u64) as usize;
        let mut bad = shapes.to_vec();
        bad[at..at + 2].copy_from_slice(&bad_shape(case, multiplies, generator));
        spoil("shapes", Value::Words(bad), 14);
    }
    if multiplies {
        let bad = bad_further(case, generator);
        spoil("further_shape", Value::Words(bad.to_vec()), 14);
    }
    spoils
}

/// Rows and columns that a transform of a map's word must not have: multiplying looks at its columns alone.
fn bad_shape(case: &Case, multiplies: bool, generator: &mut Generator) -> [u32; 2] {
    let dof = words_of(case, "dof")[0];
    let columns = generator.below(10) as u32;
    let wide = [[dof, 10], [dof, 1 << 31], [dof, u32::MAX]];
    let other_rows = [
        [dof + 1, columns],
        [dof + 9, columns],
        [u32::MAX, columns],
        [dof.wrapping_sub(1), columns],
    ];
    match generator.below(2) {
        0 if !multiplies => generator.pick(&other_rows),
        _ => generator.pick(&wide),
    }
}

/// Rows and columns that a further transform must not have.
fn bad_further(case: &Case, generator: &mut Generator) -> [u32; 2] {
    let [dof, place] = ["dof", "place"].map(|name| words_of(case, name)[0]);
    let columns = words_of(case, "further_shape")[1];
    let bad = [
        NO_TRANSFORM,
        [dof + 1, columns],
        [dof.wrapping_sub(1), columns],
        [dof, 10],
        [dof, u32::MAX],
    ];
    let old = words_of(case, "shapes").chunks(2).nth(place as usize);
    match generator.below(2) {
        // Not as many columns as the one that it multiplies has rows.
        0 if old.is_some_and(|old| old != NO_TRANSFORM) => [dof, (columns + 1) % 10],
        _ => generator.pick(&bad),
    }
}

/// Whether a call has a parameter.
fn has(case: &Case, name: &str) -> bool {
    case.call.parameters.contains(&name)
}

/// The words of a parameter; none where the call has no such one.
fn words_of<'a>(case: &'a Case, name: &str) -> &'a [u32] {
    let mut parameters = case.call.parameters.iter().zip(&case.before);
    match parameters.find(|(other, _)| **other == name) {
        Some((_, Value::Words(words))) => words,
        _ => &[],
    }
}

/// A variable that a factor is registered with.
struct Variable<G>(PhantomData<G>);

impl<G: Tried> ManifoldVariable for Variable<G> {
    fn as_param_slice(&self) -> &[f64] {
        &[]
    }

    fn dof(&self) -> usize {
        G::DOF
    }

    fn manifold_type_name(&self) -> &'static str {
        G::NAME
    }
}

/// The number of the refusal of a factor that is registered with so many variables.
pub fn number_of_variables<G: Tried>(factor: &dyn Factor, count: usize) -> u32 {
    let variable = Variable::<G>(PhantomData);
    let variables = vec![&variable as &dyn ManifoldVariable; count];
    match factor.validate_variables(&variables) {
        Ok(()) => 0,
        Err(FactorError::VariableCount { .. }) => 8,
        Err(error) => panic!("no number for {error:?}"),
    }
}

/// An accepted call with another number of actions, and the number of its refusal.
pub fn with_actions(case: &Case, count: usize, number: u32) -> Case {
    let mut before = case.before.clone();
    let is_actions = |name: &&str| name.starts_with("action");
    let place = case.call.parameters.iter().position(is_actions);
    before[place.expect("a call with actions")] = Value::Numbers(vec![1.0; 120 * count]);
    Case::refused(
        case.call,
        "another number of actions".to_string(),
        before,
        number,
    )
}

fn place_of(case: &Case, name: &str) -> usize {
    place(case.call, name)
}
