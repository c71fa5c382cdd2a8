//! Times two ways to do the same.
//!
//! The two take turns in short batches, so that whatever else slows the machine slows both alike, and the ratio is the
//! median of the rounds' own ratios.

use std::cell::RefCell;
use std::hint::black_box;
use std::time::{Duration, Instant};

/// Rounds that are timed, each with a batch of either side; fewer where a batch takes long, but never below the second.
const ROUNDS: usize = 501;
const FEWEST_ROUNDS: usize = 41;
/// A side takes about this long at most, but for the fewest rounds.
const WHOLE: Duration = Duration::from_millis(400);
/// Rounds before these, until caches, branch predictor and clock rate have settled.
const WARM_UP_ROUNDS: usize = 50;
/// A batch of the quicker side takes at least this long, so that reading the clock does not show.
const BATCH: Duration = Duration::from_micros(50);

/// Prints the head of the table.
pub fn print_head() {
    println!("| function | case | library ns | Rust ns | ratio |");
    println!("|---|---|---:|---:|---:|");
}

/// What two ways to do the same take.
pub struct Times {
    /// The medians of the times of one call.
    pub nanoseconds: [f64; 2],
    /// The median of the rounds' ratios, first to second.
    pub ratio: f64,
}

/// Times two ways, each of which makes `calls` calls.
pub fn compare(calls: usize, mut first: impl FnMut(), mut second: impl FnMut()) -> Times {
    let turns = turns_of_a_batch(&mut first).max(turns_of_a_batch(&mut second));
    let batch = time(turns, &mut first).max(time(turns, &mut second));
    // An odd number, so that there is a middle one.
    let number = ((WHOLE.as_secs_f64() / batch) as usize).clamp(FEWEST_ROUNDS, ROUNDS) | 1;
    let warm_up = WARM_UP_ROUNDS.min(number / 4);
    let mut rounds = Vec::with_capacity(number);
    for round in 0..warm_up + number {
        // Whoever goes second may find a warmer machine, so that they take turns at that too.
        let (of_first, of_second);
        if round % 2 == 0 {
            of_first = time(turns, &mut first);
            of_second = time(turns, &mut second);
        } else {
            of_second = time(turns, &mut second);
            of_first = time(turns, &mut first);
        }
        if round >= warm_up {
            rounds.push((of_first, of_second));
        }
    }
    let nanoseconds = |batch: f64| batch * 1e9 / (turns * calls) as f64;
    Times {
        nanoseconds: [
            nanoseconds(median(rounds.iter().map(|round| round.0))),
            nanoseconds(median(rounds.iter().map(|round| round.1))),
        ],
        ratio: median(rounds.iter().map(|round| round.0 / round.1)),
    }
}

/// The same of two that write to memory lent to them: both are lent the same, so that where its pages lie does not show.
pub fn compare_on<Memory>(
    calls: usize,
    memory: &mut Memory,
    mut first: impl FnMut(&mut Memory),
    mut second: impl FnMut(&mut Memory),
) -> Times {
    let memory = RefCell::new(memory);
    compare(
        calls,
        || first(&mut memory.borrow_mut()),
        || second(&mut memory.borrow_mut()),
    )
}

/// Times `library` against `rust` and prints the row.
pub fn measure(
    function: &str,
    case: &str,
    calls: usize,
    library: impl FnMut(),
    rust: impl FnMut(),
) {
    print_row(function, case, compare(calls, library, rust));
}

/// The same of two that write to memory lent to them.
pub fn measure_on<Memory>(
    function: &str,
    case: &str,
    calls: usize,
    memory: &mut Memory,
    library: impl FnMut(&mut Memory),
    rust: impl FnMut(&mut Memory),
) {
    print_row(function, case, compare_on(calls, memory, library, rust));
}

fn print_row(function: &str, case: &str, times: Times) {
    let [library, rust] = times.nanoseconds;
    println!(
        "| {function} | {case} | {library:.2} | {rust:.2} | {:.2} |",
        times.ratio
    );
}

/// Times two functions that write `N` numbers for an input, on each of the inputs, having seen that they write the same.
pub fn measure_written<Input, const N: usize>(
    function: &str,
    case: &str,
    inputs: &[Input],
    library: impl Fn(&Input, &mut [f64; N]),
    rust: impl Fn(&Input, &mut [f64; N]),
) {
    for input in inputs {
        let (mut by_library, mut by_rust) = ([0.0; N], [0.0; N]);
        library(input, &mut by_library);
        rust(input, &mut by_rust);
        assert_eq!(by_library, by_rust);
    }
    measure(
        function,
        case,
        inputs.len(),
        || write_all(inputs, &library),
        || write_all(inputs, &rust),
    );
}

#[inline(always)]
fn write_all<Input, const N: usize>(inputs: &[Input], write: impl Fn(&Input, &mut [f64; N])) {
    let mut written = [0.0; N];
    for input in black_box(inputs) {
        write(input, &mut written);
        black_box(&mut written);
    }
}

/// Times two functions that update a record by an input, on each pair of the two, having seen that they do the same.
/// Each turn goes on from what the last one left.
pub fn measure_updated<Input: Clone, const N: usize>(
    function: &str,
    case: &str,
    pairs: &[([f64; N], Input)],
    library: impl Fn(&mut [f64; N], &Input),
    rust: impl Fn(&mut [f64; N], &Input),
) {
    let (mut by_library, mut by_rust) = (pairs.to_vec(), pairs.to_vec());
    update_all(&mut by_library, &library);
    update_all(&mut by_rust, &rust);
    for (library, rust) in by_library.iter().zip(&by_rust) {
        assert_eq!(library.0, rust.0);
    }
    measure(
        function,
        case,
        pairs.len(),
        || update_all(&mut by_library, &library),
        || update_all(&mut by_rust, &rust),
    );
}

#[inline(always)]
fn update_all<Input, const N: usize>(
    pairs: &mut [([f64; N], Input)],
    update: impl Fn(&mut [f64; N], &Input),
) {
    for (record, input) in black_box(pairs) {
        update(record, input);
    }
}

/// How often `work` is repeated until it takes as long as a batch.
fn turns_of_a_batch(work: &mut impl FnMut()) -> usize {
    let mut turns = 1;
    while time(turns, work) < BATCH.as_secs_f64() {
        turns *= 2;
    }
    turns
}

/// The seconds that `turns` repetitions of `work` take.
fn time(turns: usize, work: &mut impl FnMut()) -> f64 {
    let start = Instant::now();
    for _ in 0..turns {
        work();
    }
    start.elapsed().as_secs_f64()
}

/// The middle one of an odd number of values.
fn median(values: impl Iterator<Item = f64>) -> f64 {
    let mut sorted: Vec<f64> = values.collect();
    sorted.sort_by(f64::total_cmp);
    sorted[sorted.len() / 2]
}
