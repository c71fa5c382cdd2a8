//! Finds the proved static library and has it linked.

use std::path::{Path, PathBuf};
use std::{env, process};

/// The variable that names the folder of the library, as an absolute path.
const FOLDER_VARIABLE: &str = "MAGHNELT_LIB_DIR";

/// The folder that the variable names or, without it, the repository's own.
fn library_folder() -> PathBuf {
    match env::var_os(FOLDER_VARIABLE) {
        Some(folder) if !folder.is_empty() => PathBuf::from(folder),
        _ => {
            let package = env::var_os("CARGO_MANIFEST_DIR").expect("cargo sets CARGO_MANIFEST_DIR");
            let repository = Path::new(&package).ancestors().nth(2);
            repository
                .expect("this package lies two folders below the repository")
                .join("target/staticlib")
        }
    }
}

fn main() {
    let folder = library_folder();
    let library = folder.join("libmaghnelt.a");
    println!("cargo:rerun-if-env-changed={FOLDER_VARIABLE}");
    println!("cargo:rerun-if-changed={}", library.display());
    if !library.is_file() {
        eprintln!(
            "There is no {}: run `scripts/library maghnelt` in the repository, \
             or set {FOLDER_VARIABLE} to the absolute path of the folder that holds libmaghnelt.a.",
            library.display()
        );
        process::exit(1);
    }
    println!("cargo:rustc-link-search=native={}", folder.display());
    println!("cargo:rustc-link-lib=static=maghnelt");
    // Dependents that link a library of the same folder read this as DEP_MAGHNELT_LIB_DIR.
    println!("cargo:lib_dir={}", folder.display());
}
