//! Has Debian's LAPACK linked.

fn main() {
    println!("cargo:rustc-link-lib=lapack");
}
