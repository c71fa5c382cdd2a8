//! Brings the original's text into the build: each file unchanged, followed by one line that declares the module of
//! accessors beside it, and `Factor` and `NormalBlocks` cut out of `factors/mod.rs` by their first and last lines.

use std::path::{Path, PathBuf};
use std::{env, fs, process};

/// The variable that names the folder with the originals.
const FOLDER_VARIABLE: &str = "MAGHNELT_ORIGINAL";

/// The files, below `src/factors`; one with a name after it has a module of accessors, in our folder of that name.
const FILES: [(&str, Option<&str>); 8] = [
    ("lidar/action.rs", Some("action")),
    ("lidar/map_plane.rs", None),
    ("lidar/map_planes.rs", None),
    ("lidar/plane.rs", None),
    ("lidar/plane_bundle.rs", None),
    ("lidar/plane_moments.rs", Some("plane_moments")),
    ("common/group_point.rs", None),
    ("common/validate.rs", None),
];

/// What is cut out of `mod.rs`: a first line, and one after which the next line that closes a brace at the margin is last.
const CUTS: [(&str, &str); 2] = [
    (
        "pub trait Factor: Send + Sync {",
        "pub trait Factor: Send + Sync {",
    ),
    (
        "pub struct NormalBlocks<'a> {",
        "    pub fn add_gradient<R, S>(",
    ),
];

fn main() {
    let package = PathBuf::from(env::var_os("CARGO_MANIFEST_DIR").expect("cargo sets it"));
    let out = PathBuf::from(env::var_os("OUT_DIR").expect("cargo sets it"));
    let factors = folder(&package).join("src/factors");
    println!("cargo:rerun-if-env-changed={FOLDER_VARIABLE}");
    for (file, accessors) in FILES {
        let mut text = read(&factors.join(file));
        if let Some(name) = accessors {
            let beside = package.join("src/beside").join(name).with_extension("rs");
            text += &format!("\n#[path = {beside:?}]\npub mod beside;\n");
        }
        write(&out.join(name_of(file)), &text);
    }
    for folder in ["common", "lidar"] {
        write(
            &out.join(folder).with_extension("list.rs"),
            &modules(&out, folder),
        );
    }
    let whole = read(&factors.join("mod.rs"));
    let cuts: Vec<String> = CUTS.iter().map(|cut| cut_out(&whole, *cut)).collect();
    write(&out.join("cuts.rs"), &cuts.join("\n\n"));
}

/// The folder that the variable names or, without it, the one beside the repository.
fn folder(package: &Path) -> PathBuf {
    match env::var_os(FOLDER_VARIABLE) {
        Some(folder) if !folder.is_empty() => PathBuf::from(folder),
        _ => package.join("../../../shared/docs/src"),
    }
}

/// A file's name without its folder.
fn name_of(file: &str) -> &str {
    file.split_once('/').expect("a folder and a name").1
}

/// Declares the modules of a folder.
fn modules(out: &Path, folder: &str) -> String {
    let files = FILES.iter().filter(|(file, _)| file.starts_with(folder));
    files
        .map(|(file, _)| {
            let path = out.join(name_of(file));
            let module = name_of(file).trim_end_matches(".rs");
            format!("#[path = {path:?}]\npub mod {module};\n")
        })
        .collect()
}

fn cut_out(text: &str, (first, within): (&str, &str)) -> String {
    let lines: Vec<&str> = text.lines().collect();
    let place = |line: &str, from: usize| {
        let found = lines[from..].iter().position(|other| *other == line);
        found.unwrap_or_else(|| stop(&format!("mod.rs has no line `{line}`"))) + from
    };
    let start = place(first, 0);
    let end = place("}", place(within, start));
    lines[start..=end].join("\n")
}

fn read(path: &Path) -> String {
    println!("cargo:rerun-if-changed={}", path.display());
    fs::read_to_string(path).unwrap_or_else(|error| {
        stop(&format!(
            "{}: {error}; {FOLDER_VARIABLE} names the folder with the originals",
            path.display()
        ))
    })
}

fn write(path: &Path, text: &str) {
    if let Err(error) = fs::write(path, text) {
        stop(&format!("{}: {error}", path.display()));
    }
}

fn stop(message: &str) -> ! {
    eprintln!("{message}");
    process::exit(1);
}
