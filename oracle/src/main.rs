//! Compares the proved library with plain Rust, group by group, and exits non-zero where they differ.

use oracle::generator::Generator;
use oracle::groups::{
    bundle_fit, bundle_linearize, cards, frames_accumulate, frames_accumulate_transformed,
    frames_build, frames_build_strict, frames_fit, frames_linearize, lists, match_linearize,
    matches_accumulate, matches_accumulate_transformed, matches_linearize, moments, moments_plane,
    number, order, plane_new, push_merge, remap, root_steps, scatter, sigma, sqrt, transform,
};
use oracle::report::Report;
use std::collections::BTreeMap;
use std::process::ExitCode;
use std::sync::atomic::{AtomicUsize, Ordering};
use std::sync::mpsc;
use std::thread;

struct Group {
    name: &'static str,
    about: &'static str,
    run: fn(&mut Generator, u64, &mut Report),
}

const GROUPS: &[Group] = &[
    Group {
        name: "sqrt",
        about: "the square root against f64::sqrt",
        run: sqrt::run,
    },
    Group {
        name: "order",
        about: "keys and the order of three against f64::total_cmp and a stable sort",
        run: order::run,
    },
    Group {
        name: "number",
        about: "the value of a bit pattern against f64::from_bits",
        run: number::run,
    },
    Group {
        name: "root_steps",
        about: "correction steps of the square root: at most one each way",
        run: root_steps::run,
    },
    Group {
        name: "moments",
        about: "moments from points and moved against a model",
        run: moments::run,
    },
    Group {
        name: "push_merge",
        about: "points pushed, sets merged, and counts that refuse both, against a model",
        run: push_merge::run,
    },
    Group {
        name: "scatter",
        about: "mean and scatter of moments against a model",
        run: scatter::run,
    },
    Group {
        name: "moments_plane",
        about: "the plane of moments against a model",
        run: moments_plane::run,
    },
    Group {
        name: "plane_new",
        about: "planes of a normal and an offset against a model",
        run: plane_new::run,
    },
    Group {
        name: "sigma",
        about: "the deviation of a point from a plane against a model",
        run: sigma::run,
    },
    Group {
        name: "remap",
        about: "maps read through index lists against a model",
        run: remap::run,
    },
    Group {
        name: "transform",
        about: "a map's transforms multiplied by a further one against a model",
        run: transform::run,
    },
    Group {
        name: "cards",
        about: "cards written and read, and one after the other, against a model",
        run: cards::run,
    },
    Group {
        name: "frames_build",
        about: "building a frame factor against a model",
        run: frames_build::run,
    },
    Group {
        name: "frames_build_strict",
        about: "building a frame factor by the survey rule against a model and frames_build",
        run: frames_build_strict::run,
    },
    Group {
        name: "frames_fit",
        about: "mean and scatter over the frames of a plane against a model",
        run: frames_fit::run,
    },
    Group {
        name: "frames_accumulate",
        about: "normal equations of frames against a model",
        run: frames_accumulate::run,
    },
    Group {
        name: "frames_accumulate_transformed",
        about: "normal equations of frames with transforms against a model and frames_accumulate",
        run: frames_accumulate_transformed::run,
    },
    Group {
        name: "frames_linearize",
        about: "residuals and derivatives of frames against a model",
        run: frames_linearize::run,
    },
    Group {
        name: "bundle_fit",
        about: "centroid and scatter of the points of a bundle against a model",
        run: bundle_fit::run,
    },
    Group {
        name: "bundle_linearize",
        about: "residuals and derivatives of the points of a bundle against a model",
        run: bundle_linearize::run,
    },
    Group {
        name: "matches_accumulate",
        about: "normal equations of matches against a model",
        run: matches_accumulate::run,
    },
    Group {
        name: "matches_accumulate_transformed",
        about: "normal equations of matches with transforms against a model and matches_accumulate",
        run: matches_accumulate_transformed::run,
    },
    Group {
        name: "matches_linearize",
        about: "residuals and derivatives of matches against a model",
        run: matches_linearize::run,
    },
    Group {
        name: "match_linearize",
        about: "one match below its chain against a model",
        run: match_linearize::run,
    },
    Group {
        name: "lists",
        about: "lists of accumulating calls on one Hessian against a book",
        run: lists::run,
    },
];

const DEFAULT_COUNT: u64 = 1_000_000;
const DEFAULT_SEED: u64 = 754;

struct Arguments {
    groups: Vec<&'static Group>,
    count: u64,
    seed: u64,
}

fn main() -> ExitCode {
    let words: Vec<String> = std::env::args().skip(1).collect();
    if words.iter().any(|word| word == "--help" || word == "-h") {
        println!("{}", usage());
        return ExitCode::SUCCESS;
    }
    let arguments = match parse(&words) {
        Ok(arguments) => arguments,
        Err(message) => {
            eprintln!("oracle: {message}\n\n{}", usage());
            return ExitCode::from(2);
        }
    };
    println!("seed {}", arguments.seed);
    let mut mismatches = 0;
    run(&arguments, |report| {
        report.print();
        mismatches += report.mismatches();
    });
    if mismatches == 0 {
        ExitCode::SUCCESS
    } else {
        ExitCode::FAILURE
    }
}

/// Runs the groups on all processors, since each draws from a generator of its own, and hands over their reports in the groups' order.
fn run(arguments: &Arguments, mut take: impl FnMut(Report)) {
    let workers = thread::available_parallelism().map_or(1, |number| number.get());
    let next = AtomicUsize::new(0);
    let (send, receive) = mpsc::channel();
    thread::scope(|scope| {
        for _ in 0..workers {
            let (send, next) = (send.clone(), &next);
            scope.spawn(move || loop {
                let index = next.fetch_add(1, Ordering::Relaxed);
                let Some(group) = arguments.groups.get(index) else {
                    return;
                };
                let mut generator = Generator::named(arguments.seed, group.name);
                let mut report = Report::new(group.name);
                (group.run)(&mut generator, arguments.count, &mut report);
                send.send((index, report))
                    .expect("somebody takes the reports");
            });
        }
        drop(send);
        let mut waiting = BTreeMap::new();
        let mut taken = 0;
        for (index, report) in receive {
            waiting.insert(index, report);
            while let Some(report) = waiting.remove(&taken) {
                take(report);
                taken += 1;
            }
        }
    });
}

fn parse(words: &[String]) -> Result<Arguments, String> {
    let mut arguments = Arguments {
        groups: Vec::new(),
        count: DEFAULT_COUNT,
        seed: DEFAULT_SEED,
    };
    let mut words = words.iter();
    while let Some(word) = words.next() {
        match word.as_str() {
            "--count" => arguments.count = number_after(word, words.next())?,
            "--seed" => arguments.seed = number_after(word, words.next())?,
            name => match GROUPS.iter().find(|group| group.name == name) {
                Some(group) => arguments.groups.push(group),
                None => return Err(format!("there is no group or option `{name}`")),
            },
        }
    }
    if arguments.groups.is_empty() {
        arguments.groups = GROUPS.iter().collect();
    }
    Ok(arguments)
}

fn number_after(option: &str, word: Option<&String>) -> Result<u64, String> {
    word.and_then(|word| word.parse().ok())
        .ok_or_else(|| format!("{option} takes a whole number from 0 on"))
}

fn usage() -> String {
    let mut text = format!(
        "usage: oracle [GROUP ...] [--count N] [--seed N]\n\n\
         Compares the proved library with plain Rust: the groups that are named, or all.\n\n\
         --count N   about so many cases a group, a frame, match, point of a bundle or record of a card counting as one (default {DEFAULT_COUNT}); the fixed ones always run\n\
         --seed N    the seed of the random cases (default {DEFAULT_SEED})\n\n\
         Exit status: 0 no mismatch, 1 a mismatch, 2 bad usage.\n\ngroups:"
    );
    for group in GROUPS {
        text.push_str(&format!("\n  {:30} {}", group.name, group.about));
    }
    text
}

#[cfg(test)]
mod tests {
    use super::*;

    fn parsed(words: &[&str]) -> Result<Arguments, String> {
        parse(
            &words
                .iter()
                .map(|word| word.to_string())
                .collect::<Vec<_>>(),
        )
    }

    #[test]
    fn all_groups_run_if_none_is_named() {
        let arguments = parsed(&["--count", "5"]).ok().unwrap();
        assert_eq!(arguments.groups.len(), GROUPS.len());
        assert_eq!((arguments.count, arguments.seed), (5, DEFAULT_SEED));
    }

    #[test]
    fn named_groups_alone_run() {
        let arguments = parsed(&["order", "--seed", "9", "sqrt"]).ok().unwrap();
        let names: Vec<_> = arguments.groups.iter().map(|group| group.name).collect();
        assert_eq!(names, ["order", "sqrt"]);
        assert_eq!(arguments.seed, 9);
    }

    #[test]
    fn reports_come_in_the_order_of_the_groups() {
        let arguments = parsed(&["remap", "number", "order", "--count", "9"])
            .ok()
            .unwrap();
        let mut names = Vec::new();
        run(&arguments, |report| names.push(report.group()));
        assert_eq!(names, ["remap", "number", "order"]);
    }

    #[test]
    fn what_is_not_known_is_refused() {
        for words in [
            &["cbrt"][..],
            &["--count"],
            &["--count", "many"],
            &["--fast"],
        ] {
            assert!(parsed(words).is_err(), "{words:?}");
        }
    }
}
