//! Has `libprobe.a` linked, from the folder in which the crate `maghnelt` found its own library.

use std::path::PathBuf;
use std::{env, process};

fn main() {
    let folder = PathBuf::from(
        env::var_os("DEP_MAGHNELT_LIB_DIR").expect("the crate maghnelt says where its library is"),
    );
    let library = folder.join("libprobe.a");
    println!("cargo:rerun-if-changed={}", library.display());
    if !library.is_file() {
        eprintln!(
            "There is no {}: run `scripts/library probe` in the repository, \
             or set MAGHNELT_LIB_DIR to the absolute path of a folder that holds libmaghnelt.a and libprobe.a.",
            library.display()
        );
        process::exit(1);
    }
    println!("cargo:rustc-link-search=native={}", folder.display());
    println!("cargo:rustc-link-lib=static=probe");
}
