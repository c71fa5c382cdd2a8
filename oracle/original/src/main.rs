//! Compares the proved library with the original Rust, call by call, and exits non-zero where they differ.

use oracle::generator::Generator;
use original::calls::CALLS;
use original::case::Case;
use original::jobs::{Job, JOBS};
use original::sample::sample;
use std::collections::BTreeMap;
use std::process::ExitCode;

const DEFAULT_COUNT: u64 = 40_000;
const DEFAULT_SEED: u64 = 754;

/// Differences that are printed; the others are counted.
const PRINTED: u64 = 10;

struct Arguments {
    jobs: Vec<&'static Job>,
    count: u64,
    seed: u64,
    /// One job alone, by the seed that was printed with a difference.
    alone: Option<u64>,
}

fn main() -> ExitCode {
    let words: Vec<String> = std::env::args().skip(1).collect();
    if let [first, path] = words.as_slice() {
        if first == "sample" {
            return write_sample(path);
        }
    }
    match parse(&words) {
        Ok(arguments) => compare(&arguments),
        Err(message) => {
            eprintln!("original: {message}\n\n{}", usage());
            ExitCode::from(2)
        }
    }
}

/// Writes the sample of the crate `replay`.
fn write_sample(path: &str) -> ExitCode {
    let (bytes, cases) = sample(DEFAULT_SEED);
    match std::fs::write(path, &bytes) {
        Ok(()) => {
            println!("{path}: {cases} cases, {} bytes", bytes.len());
            ExitCode::SUCCESS
        }
        Err(error) => {
            eprintln!("{path}: {error}");
            ExitCode::FAILURE
        }
    }
}

/// Calls and differences, by the name of the call.
#[derive(Default)]
struct Tally {
    cases: BTreeMap<&'static str, u64>,
    differences: u64,
}

impl Tally {
    fn take(&mut self, job: &Job, seed: u64, case: &Case) {
        *self.cases.entry(case.call.name).or_default() += 1;
        let Some(difference) = case.difference() else {
            return;
        };
        self.differences += 1;
        if self.differences <= PRINTED {
            println!(
                "{} --job {seed}: {difference}\n  {}",
                job.name,
                case.description()
            );
        }
    }
}

fn compare(arguments: &Arguments) -> ExitCode {
    println!("seed {}", arguments.seed);
    let mut tally = Tally::default();
    let mut cases = Vec::new();
    for (kinds, job) in arguments.jobs.iter().enumerate() {
        let share = arguments.count * (kinds as u64 + 1) / arguments.jobs.len() as u64;
        let mut seeds = Generator::named(arguments.seed, job.name);
        loop {
            let seed = arguments.alone.unwrap_or_else(|| seeds.bits());
            (job.run)(&mut Generator::new(seed), &mut cases);
            for case in cases.drain(..) {
                tally.take(job, seed, &case);
            }
            if arguments.alone.is_some() || tally.cases.values().sum::<u64>() >= share {
                break;
            }
        }
    }
    for call in CALLS {
        let cases = tally.cases.get(call.name).unwrap_or(&0);
        println!("{:30} {cases:>9} calls", call.name);
    }
    println!(
        "{} calls, {} differences",
        tally.cases.values().sum::<u64>(),
        tally.differences
    );
    if tally.differences == 0 {
        ExitCode::SUCCESS
    } else {
        ExitCode::FAILURE
    }
}

fn parse(words: &[String]) -> Result<Arguments, String> {
    let mut arguments = Arguments {
        jobs: Vec::new(),
        count: DEFAULT_COUNT,
        seed: DEFAULT_SEED,
        alone: None,
    };
    let mut words = words.iter();
    while let Some(word) = words.next() {
        match word.as_str() {
            "--count" => arguments.count = number_after(word, words.next())?,
            "--seed" => arguments.seed = number_after(word, words.next())?,
            "--job" => arguments.alone = Some(number_after(word, words.next())?),
            name => match JOBS.iter().find(|job| job.name == name) {
                Some(job) => arguments.jobs.push(job),
                None => return Err(format!("there is no kind of job or option `{name}`")),
            },
        }
    }
    if arguments.jobs.is_empty() {
        arguments.jobs = JOBS.iter().collect();
    }
    Ok(arguments)
}

fn number_after(option: &str, word: Option<&String>) -> Result<u64, String> {
    word.and_then(|word| word.parse().ok())
        .ok_or_else(|| format!("{option} takes a whole number from 0 on"))
}

fn usage() -> String {
    let names: Vec<&str> = JOBS.iter().map(|job| job.name).collect();
    format!(
        "usage: original [KIND ...] [--count N] [--seed N] [--job SEED]\n       original sample FILE\n\n\
         Compares the proved library with the original Rust, on jobs of the kinds that are named, or of all.\n\n\
         --count N   about so many calls (default {DEFAULT_COUNT})\n\
         --seed N    the seed of the jobs' seeds (default {DEFAULT_SEED})\n\
         --job SEED  one job of each kind, of the seed printed with a difference\n\
         sample FILE writes the sample that the crate replay is run on\n\n\
         Exit status: 0 no difference, 1 a difference, 2 bad usage.\n\nkinds: {}",
        names.join(" ")
    )
}
