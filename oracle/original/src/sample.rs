//! The sample that the crate `replay` is run on: some calls of every kind, with the original's answers.
//!
//! It is stored in units of 32 bits, the least byte first: the number of cases, the cases, and the lists that they name. A list
//! is named by the place of its first unit (19 bits) and its length in entries (13 bits). Of up to 32 numbers one unit says which
//! are not +0, the first by the least bit, and these follow, two units each; a word takes one unit.
//! A case is a head (the call's place in [`CALLS`], 8 bits; the number answered, 8; how many lists of numbers, of patterns and of
//! words, 4 each), the lists that the call is handed, numbers before patterns before words, and the lists of numbers and of words as
//! they are afterwards.

use crate::calls::{Value, CALLS, FROM_POINTS};
use crate::case::{After, Case, Cell};
use crate::jobs::{few_states, JOBS};
use oracle::generator::Generator;
use oracle::model::SATURATED;
use std::collections::{HashMap, HashSet};

/// The most numbers of a list; the fewest and the most of a list of matches that is longer: just more than a group of 512.
const LONG: usize = 240;
const LONGER: std::ops::Range<usize> = 8 * 513..8 * 516;
/// The most patterns of a list.
const PATTERNS: usize = 60;

/// Jobs drawn of each kind, and the states of a group and temper that they draw.
const JOBS_DRAWN: u64 = 30_000;
const STATES: u64 = 2;

/// How many calls of a kind are taken: at least the first number, whatever they take to store, and up to the second where one takes
/// few units, at most the third, since its lists are mostly those of other calls.
fn taken_of(case: &Case) -> [usize; 3] {
    match (case.call.name, case.call.parameters[0]) {
        _ if is_long(case) => [1, 1, 0],
        _ if has_transforms(case) => taken_transformed(case),
        _ if is_wide(case) => [10, 10, 0],
        _ if case.kind.starts_with("near 2^53") => [3, 3, 0],
        _ if case.kind.starts_with("far from 2^53") => [1, 1, 0],
        // So many pairs can be spoilt that one of each would take a third of its room.
        ("bundle_linearize", _) if is_refused_twice(case) => [0, 4, 24],
        _ if case.kind.starts_with("refused by") => [1, 4, 24],
        ("remap" | "bundle_fit", _) => [2, 2, 0],
        ("match_linearize" | "frames_build" | "point_to_plane_sigma", _) => [4, 4, 0],
        (_, "dof") => [1, 3, 20],
        _ => [8, 8, 0],
    }
}

/// The same of a call that takes transforms: a wide Hessian is there for a wide transform.
fn taken_transformed(case: &Case) -> [usize; 3] {
    let is_transformed = case.kind.contains(" transform") && !case.kind.contains("no plane");
    match case.call.name {
        _ if is_wide(case) && case.answer == 0 && is_transformed => [1, 1, 0],
        _ if is_wide(case) => [0; 3],
        _ if case.answer == 14 => [4, 8, 24],
        "transform" if case.answer == 0 => [5, 8, 60],
        _ => [1, 2, 60],
    }
}

/// A case's kind in the sample: of whatever group.
fn key(case: &Case) -> String {
    if is_long(case) {
        return format!("{} more than a group", case.call.name);
    }
    if has_transforms(case) {
        return transformed_key(case);
    }
    if is_wide(case) {
        return format!("{} wide", case.call.name);
    }
    let kind = match case.kind.split_once(' ') {
        Some((group, rest)) if GROUPS.contains(&group) => rest,
        _ => &case.kind,
    };
    // What is refused by 15 is of the kinds of what the original takes.
    let answer = match case.answer {
        SATURATED => 0,
        answer => answer,
    };
    format!("{} {kind} {answer}", case.call.name)
}

/// The kind of a call with transforms: its other inputs count for less.
fn transformed_key(case: &Case) -> String {
    let words = case.kind.split(' ');
    let kind = match case.answer {
        0 if is_wide(case) => format!("wide {:?}", case.before[0]),
        0 if case.kind.contains("no plane") => "no plane".to_string(),
        0 => {
            let counts = |word: &&str| !GROUPS.contains(word) && !BESIDE.contains(word);
            words.filter(counts).collect::<Vec<_>>().join(" ")
        }
        _ if is_refused_twice(case) => "refused twice".to_string(),
        _ if case.kind.starts_with("refused by") => case.kind.clone(),
        _ => "refused".to_string(),
    };
    format!("{} {kind} {}", case.call.name, case.answer)
}

/// Words of a kind that say nothing of transforms.
const BESIDE: [&str; 7] = ["any", "sets", "by", "hand", "fixed", "free", "few"];

const GROUPS: [&str; 5] = ["SE3", "SE23", "Sim3", "SO3", "Affine"];

/// The lists of a sample, each stored once.
#[derive(Default)]
struct Lists {
    units: Vec<u32>,
    places: HashMap<Vec<u32>, usize>,
}

impl Lists {
    /// The place of a list.
    fn place(&mut self, units: Vec<u32>) -> usize {
        if let Some(place) = self.places.get(&units) {
            return *place;
        }
        let place = self.units.len();
        self.units.extend(&units);
        self.places.insert(units, place);
        place
    }
}

/// A list by the place of its first unit and its length.
#[derive(Clone, Copy)]
struct List {
    place: usize,
    length: usize,
}

struct Stored {
    head: u32,
    lists: Vec<List>,
}

fn units_of(numbers: &[f64]) -> Vec<u32> {
    let mut units = Vec::new();
    for group in numbers.chunks(32) {
        let others: Vec<u64> = group.iter().map(|number| number.to_bits()).collect();
        let mask = (0..group.len())
            .filter(|&k| others[k] != 0)
            .fold(0, |mask, k| mask | 1 << k);
        units.push(mask);
        for bits in others.into_iter().filter(|&bits| bits != 0) {
            units.extend([bits as u32, (bits >> 32) as u32]);
        }
    }
    units
}

/// What an output holds before the call in the sample, whose bits matter only in that they stay.
fn old(length: usize) -> Vec<f64> {
    (1..=length).map(|k| k as f64).collect()
}

/// Whether a parameter is written without being read.
fn is_output(case: &Case, place: usize) -> bool {
    let name = case.call.parameters[place];
    let is_read = matches!(name, "hessian" | "gradient")
        || name == "moments" && !std::ptr::eq(case.call, &FROM_POINTS);
    case.call.manners[place].starts_with("out_number") && !is_read
}

fn is_pattern(case: &Case, place: usize) -> bool {
    case.call.parameters[place].starts_with("decomposition")
}

/// The numbers of a parameter, before and after.
fn numbers(case: &Case, place: usize) -> Option<[Vec<f64>; 2]> {
    let Value::Numbers(given) = &case.before[place] else {
        return None;
    };
    let before = if is_output(case, place) {
        old(given.len())
    } else {
        given.clone()
    };
    let after = match &case.after[place] {
        After::Numbers(cells) => cells
            .iter()
            .zip(&before)
            .map(|(cell, before)| match cell {
                Cell::Is(number) => *number,
                _ => *before,
            })
            .collect(),
        _ => before.clone(),
    };
    Some([before, after])
}

fn words(case: &Case, place: usize) -> Option<[Vec<u32>; 2]> {
    let Value::Words(before) = &case.before[place] else {
        return None;
    };
    let after = match &case.after[place] {
        After::Words(words) => words.clone(),
        _ => before.clone(),
    };
    Some([before.clone(), after])
}

/// Whether a case may be stored: all that it leaves is seen, and its lists have room.
fn is_fit(case: &Case) -> bool {
    let is_seen = |after: &After| match after {
        After::Numbers(cells) => !cells.iter().any(|cell| matches!(cell, Cell::Unseen)),
        _ => true,
    };
    let has_room = |place: usize| {
        let length = case.before[place].len();
        match case.call.parameters[place] {
            _ if is_pattern(case, place) => length <= PATTERNS,
            "hessian" | "jacobian" | "d_state" => length <= 100,
            "matches" if sums_groups(case) && LONGER.contains(&length) => true,
            _ => length <= LONG,
        }
    };
    // Of two frames the actions are such as poses have, which are mostly zeros.
    let is_sparse = |value: &Value| match value {
        Value::Numbers(numbers) => numbers.iter().filter(|x| x.to_bits() != 0).count() <= 110,
        Value::Words(_) => true,
    };
    let mut actions = case.before.iter().zip(case.call.parameters);
    case.after.iter().all(is_seen)
        && actions.all(|(value, name)| *name != "actions" || is_sparse(value))
        && (0..case.before.len()).all(has_room)
}

/// Whether matches as they are met are summed into a block, through a transform where the call takes them.
fn sums_groups(case: &Case) -> bool {
    let label = if has_transforms(case) {
        " mapped one transform"
    } else {
        " mapped"
    };
    let is_summed = case.answer == 0 && case.call.name.starts_with("matches_accumulate");
    is_summed && case.kind.contains("Met") && case.kind.ends_with(label)
}

fn is_long(case: &Case) -> bool {
    case.before.iter().any(|value| value.len() > LONG)
}

/// Whether a Hessian or a Jacobian has more than 25 entries.
fn is_wide(case: &Case) -> bool {
    let names = case.call.parameters.iter().zip(&case.before);
    let mut matrices = names.filter(|(name, _)| matches!(**name, "hessian" | "jacobian"));
    matrices.any(|(_, value)| value.len() > 25)
}

/// Whether a call takes transforms.
fn has_transforms(case: &Case) -> bool {
    case.call.parameters.contains(&"transforms")
}

/// Whether two things are spoilt.
fn is_refused_twice(case: &Case) -> bool {
    case.kind.starts_with("refused by") && case.kind.contains(" and ")
}

/// Draws jobs, takes some calls of every kind, and hands back the sample's bytes with the number of its cases.
pub fn sample(seed: u64) -> (Vec<u8>, usize) {
    let mut lists = Lists::default();
    let mut stored = Vec::new();
    let mut taken: HashMap<String, usize> = HashMap::new();
    few_states(STATES);
    // Shorter outputs lie at the start of this one.
    let outputs = lists.place(units_of(&old(LONG)));
    for job in JOBS {
        let mut seeds = Generator::named(seed, job.name);
        for _ in 0..JOBS_DRAWN {
            let mut cases = Vec::new();
            (job.run)(&mut Generator::new(seeds.bits()), &mut cases);
            for case in fit(&cases) {
                let number = taken.entry(key(case)).or_default();
                let [least, most, few] = taken_of(case);
                if *number < least || *number < most && needed(case, &lists) <= few {
                    *number += 1;
                    stored.push(store(case, outputs, &mut lists));
                }
            }
        }
    }
    (bytes(&stored, &lists), stored.len())
}

/// The cases of a job that may be stored; those with a long list only where two calls share it, so that it is stored once.
fn fit(cases: &[Case]) -> Vec<&Case> {
    let mut fit: Vec<&Case> = cases.iter().filter(|case| is_fit(case)).collect();
    let long = fit.iter().filter(|case| is_long(case));
    let calls: HashSet<&str> = long.map(|case| case.call.name).collect();
    fit.retain(|case| !is_long(case) || calls.len() > 1);
    fit
}

/// How many units a case's lists take that are not stored yet.
fn needed(case: &Case, lists: &Lists) -> usize {
    let places = 0..case.before.len();
    let of_numbers = places
        .clone()
        .filter_map(|place| numbers(case, place))
        .flatten();
    let mut units: Vec<Vec<u32>> = of_numbers
        .filter(|numbers| *numbers != old(numbers.len()))
        .map(|numbers| units_of(&numbers))
        .collect();
    units.extend(places.filter_map(|place| words(case, place)).flatten());
    units.sort();
    units.dedup();
    let new = units
        .iter()
        .filter(|units| !lists.places.contains_key(*units));
    new.map(Vec::len).sum()
}

fn store(case: &Case, outputs: usize, lists: &mut Lists) -> Stored {
    let call = CALLS.iter().position(|call| std::ptr::eq(*call, case.call));
    let mut groups: [Vec<List>; 5] = Default::default();
    for place in 0..case.before.len() {
        if let Some([before, after]) = numbers(case, place) {
            let mut listed = |numbers: &[f64]| List {
                place: match numbers {
                    _ if numbers == old(numbers.len()) && numbers.len() <= LONG => outputs,
                    _ => lists.place(units_of(numbers)),
                },
                length: numbers.len(),
            };
            if is_pattern(case, place) {
                groups[1].push(listed(&before));
            } else {
                groups[0].push(listed(&before));
                groups[3].push(listed(&after));
            }
        }
        if let Some([before, after]) = words(case, place) {
            let mut listed = |words: Vec<u32>| List {
                length: words.len(),
                place: lists.place(words),
            };
            groups[2].push(listed(before));
            groups[4].push(listed(after));
        }
    }
    let [n, p, w] = [0, 1, 2].map(|k: usize| groups[k].len() as u32);
    let call = call.expect("a call of the list") as u32;
    Stored {
        head: call | case.answer << 8 | n << 16 | p << 20 | w << 24,
        lists: groups.concat(),
    }
}

fn bytes(stored: &[Stored], lists: &Lists) -> Vec<u8> {
    let from = 1 + stored
        .iter()
        .map(|case| 1 + case.lists.len())
        .sum::<usize>();
    let mut units = vec![stored.len() as u32];
    for case in stored {
        units.push(case.head);
        for list in &case.lists {
            let place = from + list.place;
            assert!(
                place < 1 << 19 && list.length < 1 << 13,
                "a list that can't be named"
            );
            units.push(place as u32 | (list.length as u32) << 19);
        }
    }
    units.extend(&lists.units);
    units.iter().flat_map(|unit| unit.to_le_bytes()).collect()
}
