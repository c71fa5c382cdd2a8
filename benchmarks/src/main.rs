//! Times the proved library against plain Rust, and points against moments, and prints Markdown tables.

mod block_map;
mod builds;
mod bundles;
mod cards;
mod crossover;
mod finite;
mod fit;
mod frames;
mod harness;
mod matches;
mod moments;
mod plane;
mod planes;
mod square_root;
mod total_order;
mod transforms;

/// A subject's name and what prints its rows or its table.
type Subject = (&'static str, fn());

/// What has rows in the table of library and Rust.
const SUBJECTS: &[Subject] = &[
    ("square_root", square_root::measure_all),
    ("total_order", total_order::measure_all),
    ("moments", moments::measure_all),
    ("plane", plane::measure_all),
    ("block_map", block_map::measure_all),
    ("builds", builds::measure_all),
    ("fit", fit::measure_all),
    ("frames", frames::measure_all),
    ("matches", matches::measure_all),
    ("bundles", bundles::measure_all),
    ("transforms", transforms::measure_all),
    ("cards", cards::measure_all),
];

/// What has a table of its own.
const TABLES: &[Subject] = &[("crossover", crossover::print_table)];

/// Measures the subjects that are named, or all.
fn main() {
    let named: Vec<String> = std::env::args().skip(1).collect();
    let names: Vec<&str> = SUBJECTS.iter().chain(TABLES).map(|one| one.0).collect();
    if let Some(name) = named.iter().find(|name| !names.contains(&name.as_str())) {
        eprintln!(
            "There is no subject `{name}`; there are {}.",
            names.join(", ")
        );
        std::process::exit(2);
    }
    let is_wanted = |(name, _): &&Subject| named.is_empty() || named.iter().any(|one| one == name);
    let rows: Vec<&Subject> = SUBJECTS.iter().filter(is_wanted).collect();
    if !rows.is_empty() {
        harness::print_head();
    }
    for (_, measure_all) in &rows {
        measure_all();
    }
    for (_, print_table) in TABLES.iter().filter(is_wanted) {
        if !rows.is_empty() {
            println!();
        }
        print_table();
    }
}
